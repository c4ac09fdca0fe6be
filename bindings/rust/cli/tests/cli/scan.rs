//! Scans at several tolerances, beside the slow reference.

use super::draw::points;
use super::{done, fails, files, folder, path, run, run_in, shipped, told, written, WAVE};
use kovrelna_reference::generate::{any_limited, Random};
use kovrelna_reference::{fewest, reduce, Form, Limits, Method};
use std::fs;

/// The tolerances of the picture in the documentation.
const TWELVE: [&str; 12] = [
    "1/2", "1", "1.5", "2", "3", "4", "6", "8", "12", "16", "24", "32",
];

/// The command at these tolerances, with these other arguments.
fn line<'a>(tolerances: &[&'a str], others: &[&'a str]) -> Vec<&'a str> {
    let tolerances = tolerances.iter().flat_map(|&tolerance| ["-t", tolerance]);
    ["scan"]
        .into_iter()
        .chain(tolerances)
        .chain(others.iter().copied())
        .collect()
}

/// What it prints.
fn scanned(tolerances: &[&str], others: &[&str], input: &str) -> String {
    String::from_utf8(done(&line(tolerances, others), input)).unwrap()
}

/// In the order given, also where a tolerance is repeated.
#[test]
fn columns() {
    let pulse = shipped("examples/pulse.csv");
    let pulse = path(&pulse);
    let expected = "\
# kept by walk of 128 samples
tolerance  kept  bytes
      8/1    17     67
      1/1    90    286
      2/3   104    328
      8/1    17     67
     13/1    10     46
";
    let tolerances = ["8", "1", "4/6", "8/1", "3.25x4"];
    assert_eq!(scanned(&tolerances, &[pulse], ""), expected);
    // In every way to give an option, and from standard input.
    let arguments = ["scan", "-t2", "--tolerance=1", "--tolerance", "8/3"];
    let expected = "\
# kept by walk of 5 samples
tolerance  kept  bytes
      2/1     3     25
      1/1     4     28
      8/3     2     22
";
    assert_eq!(done(&arguments, WAVE), expected.as_bytes());
    let one =
        "# kept by walk of 1 sample, gap limit 3\ntolerance  kept  bytes\n      0/1     1     19\n";
    assert_eq!(scanned(&["0"], &["--gap=3"], "7,9\n"), one);
}

/// A line for each tolerance, with what `record` keeps and how long its record is.
#[test]
fn as_records() {
    let pulse = shipped("examples/pulse.csv");
    let pulse = path(&pulse);
    let table = scanned(&TWELVE, &["--gap", "4", pulse], "");
    let mut lines = table.lines().skip(2);
    for tolerance in TWELVE {
        let record = done(&["record", "-t", tolerance, "--gap=4", pulse], "");
        let fields: Vec<&str> = lines.next().unwrap().split_whitespace().collect();
        assert_eq!(fields[2], record.len().to_string(), "{tolerance}");
        let shown = String::from_utf8(done(&["show"], record)).unwrap();
        let mut shown = shown.lines();
        let held = format!("# tolerance {}", fields[0]);
        assert_eq!(shown.next(), Some(&held[..]));
        assert_eq!(fields[1], shown.count().to_string(), "{tolerance}");
    }
    assert_eq!(lines.next(), None);
}

/// The fields of CSV, but for the file.
pub fn fields(csv: &str) -> Vec<Vec<String>> {
    let lines = csv.lines().skip(1);
    let fields = lines.map(|line| line.split(',').map(String::from).collect());
    fields.collect()
}

#[test]
fn csv() {
    let folder = files("scan_csv", &[("a \"b\"", WAVE)]);
    let printed = |others: &[&str]| {
        let (status, printed, error) = told(&run_in(&folder, &line(&["1", "2"], others)));
        assert_eq!((status, &error[..]), (0, ""));
        printed
    };
    let expected = "\
tolerance p,tolerance q,samples,kept,bytes,bound,file
1,1,5,4,28,4,\"a \"\"b\"\"\"
2,1,5,3,25,4,\"a \"\"b\"\"\"
";
    assert_eq!(printed(&["--csv", "a \"b\""]), expected);
    let expected = "\
tolerance p,tolerance q,samples,kept,bytes,bound,file,gap limit
1,1,5,4,28,4,\"a \"\"b\"\"\",7
2,1,5,3,25,4,\"a \"\"b\"\"\",7
";
    assert_eq!(printed(&["--csv", "--gap=7", "a \"b\""]), expected);
    // A half that is no tolerance.
    let bounds = fields(&scanned(&["524289/524288", "1"], &["--csv"], WAVE));
    assert_eq!((&bounds[0][5][..], &bounds[1][5][..]), ("", "4"));
}

/// Kept numbers and bounds of random traces.
#[test]
fn as_the_reference() {
    let random = &mut Random::new(41);
    let tolerances = [(0, 1), (3, 2), (5, 1), (100, 7), (1, 524_287), (5, 1)];
    let names = tolerances.map(|(p, q)| format!("{p}/{q}"));
    let names = names.each_ref().map(String::as_str);
    for _ in 0..40 {
        let samples = random.within(1, 90) as usize;
        let (trace, gap) = any_limited(samples, random);
        let option = format!("--gap={gap}");
        let text = written(&trace);
        let rows = fields(&scanned(&names, &["--csv", &option], &text));
        assert_eq!(rows.len(), tolerances.len());
        for (row, (p, q)) in rows.iter().zip(tolerances) {
            let (ticks, values) = (&trace.ticks, &trace.values);
            let limits = Limits {
                tolerance: Form::Ratio(p, q),
                gap: Some(gap),
            };
            let kept = reduce(Method::Walk, ticks, values, limits, samples).unwrap();
            let bound = fewest(ticks, values, limits.held().unwrap().shared(1, 2));
            let expected = [samples, kept.list.len(), bound].map(|number| number.to_string());
            let found = [&row[2], &row[3], &row[5]];
            assert_eq!(found, expected.each_ref(), "{p}/{q} {gap} {trace:?}");
        }
    }
}

/// A dot for each tolerance and one for its bound. The picture in the documentation is what the tool draws.
#[test]
fn draws() {
    let pulse = shipped("examples/pulse.csv");
    let pulse = path(&pulse);
    let svg = scanned(&TWELVE, &["--draw", pulse], "");
    assert!(svg == fs::read_to_string(shipped("docs/scan.svg")).unwrap());
    let title = "<title>128 samples, kept by walk at each tolerance: pulse.csv</title>";
    for part in [
        title,
        ">kept by walk<",
        ">proved bound: minimum at half the tolerance<",
        ">tolerance (ADC counts)<",
        ">kept samples<",
        ">106</text>",
    ] {
        assert!(svg.contains(part), "{part}");
    }
    let [kept, bounds] = ["kept", "sample"].map(|class| points(&svg, class).concat());
    assert_eq!((kept.len(), bounds.len()), (12, 12));
    // By rising tolerance fewer samples; the bound is at no place below what is kept.
    for (dots, of) in [(&kept, "kept"), (&bounds, "bounds")] {
        let risen = dots.windows(2).all(|two| two[0].0 < two[1].0);
        assert!(
            risen && dots.windows(2).all(|two| two[0].1 <= two[1].1),
            "{of}"
        );
    }
    for (kept, bound) in kept.iter().zip(&bounds) {
        assert!(kept.0 == bound.0 && kept.1 >= bound.1);
    }
    // In any order, and each tolerance once.
    let mut backwards = TWELVE.to_vec();
    backwards.reverse();
    backwards.extend(["1.5", "64/2", "2x0.25", "12"]);
    assert!(scanned(&backwards, &["--draw", pulse], "") == svg);
    // To a file.
    let file = folder("scan_draws").join("out.svg");
    let written = scanned(&TWELVE, &["--draw", "-o", path(&file), pulse], "");
    assert_eq!(written, "");
    assert!(fs::read_to_string(&file).unwrap() == svg);
    // An error leaves the file as it was.
    fails(
        &line(&["1"], &["--draw", "-o", path(&file)]),
        "",
        "<stdin>: no samples",
    );
    assert!(fs::read_to_string(&file).unwrap() == svg);
    // A name is no part of the picture's text.
    let odd = folder("scan_names").join("a<b>&c.csv");
    fs::write(&odd, "0,0\n").unwrap();
    let svg = scanned(&["1"], &["--draw", "--gap=9", path(&odd)], "");
    let title = "<title>1 sample, kept by walk at each tolerance, gap limit 9: a&lt;b&gt;&amp;c.csv</title>";
    assert!(svg.contains(title), "{svg}");
}

/// Where numbers are far apart their logarithms are: each twice as great is as far from the one before.
#[test]
fn places_in_the_picture() {
    let svg = scanned(&["1", "2", "4", "8"], &["--draw"], WAVE);
    let x: Vec<f64> = points(&svg, "kept")[0].iter().map(|&(x, _)| x).collect();
    let apart: Vec<f64> = x.windows(2).map(|two| two[1] - two[0]).collect();
    assert!(
        apart.iter().all(|step| (step - apart[0]).abs() < 0.2),
        "{x:?}"
    );
    // Nearer to each other, or with a 0 among them, they are themselves; kept are 4, 3 and 2 of 5 samples.
    let svg = scanned(&["0", "2", "4", "8"], &["--draw"], WAVE);
    let kept = &points(&svg, "kept")[0];
    let x: Vec<f64> = kept.iter().map(|&(x, _)| x).collect();
    assert!(
        (x[3] - x[2] - 2.0 * (x[2] - x[1])).abs() < 0.2
            && (x[2] - x[1] - (x[1] - x[0])).abs() < 0.2
    );
    let y: Vec<f64> = kept.iter().map(|&(_, y)| y).collect();
    assert!((y[1] - y[0] - (y[2] - y[1])).abs() < 0.2 && y[2] == y[3]);
}

/// Where half of a tolerance is none, its bound is left out, and the picture says so.
#[test]
fn no_bound() {
    let far = "524289/524288";
    let svg = scanned(&[far, "2", "3"], &["--draw"], WAVE);
    let dots = |svg: &str, class| points(svg, class).concat().len();
    assert_eq!((dots(&svg, "kept"), dots(&svg, "sample")), (3, 2));
    let words = "; none at 1 of 3, as half is no allowed tolerance<";
    assert!(svg.contains(words), "{svg}");
    let svg = scanned(&[far], &["--draw"], WAVE);
    assert_eq!((dots(&svg, "kept"), dots(&svg, "sample")), (1, 0));
    assert!(svg.contains("; none at 1 of 1, "), "{svg}");
}

#[test]
fn command_lines() {
    let sixteen = ["1"; 16];
    assert_eq!(scanned(&sixteen, &[], WAVE).lines().count(), 18);
    let told = "--tolerance: no tolerances, or more than 16: 17 are given\nTry";
    fails(&line(&["1"; 17], &[]), WAVE, told);
    // The command line comes before what is read.
    fails(&line(&["1"; 17], &["missing"]), "", told);
    fails(&["scan"], WAVE, "--tolerance is missing\nTry");
    fails(&["scan", "--gap=7"], WAVE, "--tolerance is missing\nTry");
    for (tolerances, cause) in [
        (
            &["1/0"][..],
            "1/0, at position 0: the tolerance is not allowed: p/q has",
        ),
        (
            &["1", "2", "1/0", "two"],
            "1/0, at position 2: the tolerance is not allowed: p/q has",
        ),
        (&["1", "two"], "two, at position 1: `two` is not a number"),
        (
            &["1", "0.1"],
            "0.1, at position 1: `0.1` is not a multiple of 1/64; write the ratio 1/10",
        ),
        (&["1", ""], ", at position 1: `` is not a number"),
    ] {
        fails(
            &line(tolerances, &["missing"]),
            "",
            &format!("--tolerance {cause}"),
        );
    }
    for (others, cause) in [
        (
            &["--csv", "--draw"][..],
            "one of --csv and --draw is wanted",
        ),
        (&["-o", "out"], "--output needs --draw"),
        (&["--csv", "-o", "out"], "--output needs --draw"),
        (&["-", "more"], "more: only one input is read"),
        (&["--csv", "--csv"], "--csv: the option is given twice"),
        (&["-m", "gallop"], "-m: there is no such option"),
        (&["-t"], "-t: a value is missing"),
    ] {
        fails(&line(&["1"], others), WAVE, &format!("{cause}\nTry"));
    }
    // No other command takes several tolerances.
    for command in [
        "record",
        "judge",
        "near",
        "probes",
        "sum",
        "report",
        "pedestals",
        "draw",
    ] {
        let cause = "-t2: the option is given twice\nTry";
        fails(&[command, "-t1", "-t2"], WAVE, cause);
    }
}

/// Input that is refused.
#[test]
fn inputs() {
    for (text, cause) in [
        ("", "<stdin>: no samples\n"),
        (
            "0,1\n0,1\n",
            "<stdin>:2: the tick is not above the one before\n",
        ),
        (
            "0,1\n1048576,1\n",
            "<stdin>:2: the tick is over 1,048,575 above",
        ),
        (
            "# tolerance 2/1\n0,1\n",
            "<stdin>:1: samples are reduced already at 2/1",
        ),
    ] {
        for others in [&[][..], &["--csv"], &["--draw"]] {
            fails(&line(&["1", "2"], others), text, cause);
        }
    }
    let cause = "missing: No such file or directory\n";
    fails(&line(&["1"], &["missing"]), "", cause);
    let long: String = (0..4_097).map(|tick| format!("{tick},0\n")).collect();
    let (status, _, error) = told(&run(&line(&["1"], &[]), long));
    assert_eq!(status, 2);
    let cause = "kovrelna: <stdin>:4097: too many samples: at most 4096 are allowed\n";
    assert_eq!(error, cause);
}
