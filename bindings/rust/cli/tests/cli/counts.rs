//! Tables of counts, beside the slow reference.

use super::{done, fails, folder, path, run, shipped, told, written, WAVE};
use kovrelna_reference::generate::{any_trace, Random, Trace};
use kovrelna_reference::{Form, Limits};
use std::fs;

/// The numbers of a line, and its name; -1 for `-`.
pub fn row(line: &str) -> (Vec<i64>, String) {
    let mut fields: Vec<&str> = line.split_whitespace().collect();
    let name = fields.pop().unwrap().to_string();
    let number = |field: &str| {
        if field == "-" {
            -1
        } else {
            field.parse().unwrap()
        }
    };
    (fields.into_iter().map(number).collect(), name)
}

/// The command prints these counts of random traces under limits, and their sums.
pub fn compare(command: &str, seed: u64, counts: impl Fn(&Trace, Limits<Form>) -> Vec<usize>) {
    let folder = folder(&format!("{command}_as_the_reference"));
    let mut random = Random::new(seed);
    for (p, q, gap) in [
        (0, 1, None),
        (5, 1, None),
        (3, 2, None),
        (2, 1_048_575, None),
        (100, 7, None),
        (1, 524_287, None),
        (5, 1, Some(3)),
        (100, 7, Some(1)),
    ] {
        let limits = Limits {
            tolerance: Form::Ratio(p, q),
            gap,
        };
        let traces: Vec<Trace> = (0..6)
            .map(|_| {
                let samples = random.within(1, 90) as usize;
                any_trace(samples, &mut random)
            })
            .collect();
        let mut arguments = vec![command.to_string(), format!("-t{p}/{q}")];
        arguments.extend(gap.map(|gap| format!("--gap={gap}")));
        let options = arguments.len();
        for (k, trace) in traces.iter().enumerate() {
            let file = folder.join(k.to_string());
            fs::write(&file, written(trace)).unwrap();
            arguments.push(path(&file).to_string());
        }
        let line: Vec<&str> = arguments.iter().map(String::as_str).collect();
        let printed = String::from_utf8(done(&line, "")).unwrap();
        let mut lines = printed.lines().skip(2);
        let mut total = Vec::new();
        for (trace, file) in traces.iter().zip(&line[options..]) {
            let expected: Vec<i64> = counts(trace, limits).iter().map(|&n| n as i64).collect();
            total.resize(expected.len(), 0);
            total = total.iter().zip(&expected).map(|(a, b)| a + b).collect();
            assert_eq!(row(lines.next().unwrap()), (expected, file.to_string()));
        }
        assert_eq!(row(lines.next().unwrap()), (total, "total".to_string()));
        assert_eq!(lines.next(), None);
    }
}

/// Of several files the command names those that are no original traces, counts the others, of which
/// each has these counts, and fails.
pub fn faults(command: &str, pulse: Vec<i64>) {
    let folder = folder(&format!("{command}_faults"));
    let (bad, reduced) = (folder.join("bad"), folder.join("reduced"));
    fs::write(&bad, "0,0\n0,0\n").unwrap();
    fs::write(&reduced, format!("# tolerance 2/1\n{WAVE}")).unwrap();
    let good = shipped("examples/pulse.csv");
    let names = [
        path(&bad),
        path(&good),
        path(&reduced),
        "missing",
        path(&good),
    ];
    let (status, printed, error) = told(&run(&[&[command, "-t8"], &names[..]].concat(), ""));
    assert_eq!(status, 2);
    let lines: Vec<&str> = printed.lines().collect();
    assert_eq!(lines.len(), 5, "{printed}");
    let total = pulse.iter().map(|count| 2 * count).collect();
    assert_eq!(row(lines[4]), (total, "total".to_string()));
    let causes = [
        format!("{}:2: the tick is not above the one before", names[0]),
        format!("{}:1: samples are reduced already at 2/1", names[2]),
        "missing: No such file or directory".to_string(),
    ];
    for (line, cause) in error.lines().zip(&causes) {
        assert!(line.starts_with(&format!("kovrelna: {cause}")), "{line}");
    }
    assert_eq!(error.lines().count(), 3);
    // None could be read.
    let (_, printed, _) = told(&run(&[command, "-t8", names[0], names[2]], ""));
    let total = (vec![0; pulse.len()], "total".to_string());
    assert_eq!(row(printed.lines().last().unwrap()), total);
    fails(&[command], WAVE, "--tolerance is missing");
    fails(&[command, "-tx"], WAVE, "--tolerance: ");
    let twice = "standard input is wanted twice";
    fails(&[command, "-t8", "-", "-"], WAVE, twice);
}
