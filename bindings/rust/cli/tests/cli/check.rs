//! Whether a record may stand for a trace, beside the slow reference.

use super::measure::lies;
use super::parts::form;
use super::{done, fails, folder, path, run, shipped, told, WAVE};
use kovrelna_reference::record::decode;
use kovrelna_reference::{judge, Form, Invalid};
use std::fs;

/// The ticks and the values of the pulse.
fn pulse() -> Vec<(u32, i16)> {
    let text = fs::read_to_string(shipped("examples/pulse.csv")).unwrap();
    let sample = |line: &str| {
        let (tick, value) = line.split_once(',')?;
        Some((tick.trim().parse().ok()?, value.trim().parse().ok()?))
    };
    text.lines().filter_map(sample).collect()
}

/// The trace as text.
fn written(trace: &[(u32, i16)]) -> String {
    trace
        .iter()
        .map(|(tick, value)| format!("{tick},{value}\n"))
        .collect()
}

/// The record of this trace, in a file.
fn recorded(file: &str, options: &[&str], trace: &str) {
    done(&[&["record", "-o", file], options].concat(), trace);
}

/// The tool answers no, and why.
fn says_no(file: &str, trace: &str, cause: &str) {
    let (status, printed, error) = told(&run(&["check", file, "-"], trace));
    assert_eq!((status, &error[..]), (1, ""), "{cause}");
    assert_eq!(printed, format!("no: {file}: {cause}\n"));
}

#[test]
fn passes() {
    let folder = folder("check_passes");
    let file = folder.join("record");
    let (file, trace) = (path(&file), shipped("examples/pulse.csv"));
    for method in ["walk", "gallop", "minimum"] {
        for tolerance in ["0", "2/3", "8", "65535"] {
            recorded(file, &["-m", method, "-t", tolerance, path(&trace)], "");
            assert_eq!(done(&["check", file, path(&trace)], ""), b"yes\n");
        }
    }
    let record = fs::read(file).unwrap();
    assert_eq!(done(&["check", "-", path(&trace)], record), b"yes\n");
    recorded(file, &["-t1"], "7,-3\n");
    assert_eq!(done(&["check", file, "-"], "7,-3\n"), b"yes\n");
}

/// Each way in which samples and links can be wrong.
#[test]
fn answers_no() {
    let folder = folder("check_answers_no");
    let file = folder.join("record");
    let file = path(&file);
    // Samples 0, 2 and 4 are kept.
    recorded(file, &["-t2"], WAVE);
    let cause = "sample 1, at tick 2, is not in <stdin>";
    says_no(file, "0,0\n1,2\n3,-2\n4,0\n", cause);
    let cause = "sample 0, at tick 0, is not in <stdin>";
    says_no(file, "1,0\n2,2\n3,0\n4,-2\n5,0\n", cause);
    let cause = "sample 2, at tick 4, has value 0, and <stdin>:6 has 1";
    says_no(file, "tick,value\n0,0\n1,2\n2,0\n3,-2\n4,1\n", cause);
    let cause = "the first sample of the trace, at tick 4294967291 in <stdin>:1, is not kept";
    let late = "4294967292,0\n4294967293,5\n";
    recorded(file, &["-t0"], late);
    says_no(file, &format!("4294967291,0\n{late}"), cause);
    recorded(file, &["-t2"], WAVE);
    let cause = "the last sample of the trace, at tick 5 in <stdin>:6, is not kept";
    says_no(file, &format!("{WAVE}5,0\n"), cause);
    let cause = "link 1, from sample 2 at tick 2 to sample 4 at tick 4 of <stdin>, \
                 is not within 2/1: sample 3 at tick 3 lies 3/1 below the line";
    says_no(file, "0,0\n1,2\n2,0\n3,-3\n4,0\n", cause);
    // The tolerance is the record's own: the same samples at another one.
    let kept = "# tolerance 65535/32768\n0,0\n2,0\n4,0\n";
    recorded(file, &[], kept);
    let cause = "link 0, from sample 0 at tick 0 to sample 2 at tick 2 of <stdin>, \
                 is not within 65535/32768: sample 1 at tick 1 lies 2/1 above the line";
    says_no(file, WAVE, cause);
}

/// One value changed by one, at every sample.
#[test]
fn changed_traces() {
    let folder = folder("check_changed_traces");
    let file = folder.join("record");
    let trace = pulse();
    recorded(path(&file), &["-t8", "-mminimum"], &written(&trace));
    let kept = decode(&fs::read(&file).unwrap()).unwrap().samples;
    let list: Vec<u16> = kept
        .iter()
        .map(|sample| trace.binary_search(sample).unwrap() as u16)
        .collect();
    let (mut within, mut outside) = (0, 0);
    for k in 0..trace.len() {
        for change in [-1, 1] {
            let mut changed = trace.clone();
            changed[k].1 += change;
            let (tick, value) = changed[k];
            let (status, printed, error) =
                told(&run(&["check", path(&file), "-"], written(&changed)));
            assert_eq!(error, "");
            let (ticks, values): (Vec<u32>, Vec<i16>) = changed.iter().copied().unzip();
            let expected = match list.iter().position(|&entry| usize::from(entry) == k) {
                Some(sample) => {
                    let was = value - change;
                    let line = k + 1;
                    format!("sample {sample}, at tick {tick}, has value {was}, and <stdin>:{line} has {value}")
                }
                None => match judge(&ticks, &values, &list, Form::Ratio(8, 1)).unwrap() {
                    None => {
                        within += 1;
                        assert_eq!((status, &printed[..]), (0, "yes\n"));
                        continue;
                    }
                    Some(Invalid { link, measure }) => {
                        outside += 1;
                        let end = |entry: u16| {
                            format!("sample {entry} at tick {}", ticks[usize::from(entry)])
                        };
                        let ends = format!("{} to {}", end(list[link]), end(list[link + 1]));
                        let cause = format!("is not within 8/1: {}", lies(&ticks, measure));
                        format!("link {link}, from {ends} of <stdin>, {cause}")
                    }
                },
            };
            assert_eq!(status, 1);
            assert_eq!(printed, format!("no: {}: {expected}\n", path(&file)));
        }
    }
    assert!(within > 0 && outside > 0, "{within} {outside}");
}

/// Each bit of a record changed, and each beginning of it.
#[test]
fn damaged_records() {
    let folder = folder("check_damaged_records");
    for tolerance in [&["-t8"][..], &["--above=4", "--below=16"]] {
        damage(path(&folder.join("record")), tolerance);
    }
}

/// The same of the record at this tolerance, in this file.
fn damage(file: &str, tolerance: &[&str]) {
    let csv = shipped("examples/pulse.csv");
    let trace = pulse();
    let (ticks, values): (Vec<u32>, Vec<i16>) = trace.iter().copied().unzip();
    let options = ["-mminimum", path(&csv)];
    recorded(file, &[tolerance, &options].concat(), "");
    let whole = fs::read(file).unwrap();
    let flipped = (0..8 * whole.len()).map(|bit| {
        let mut record = whole.clone();
        record[bit / 8] ^= 1 << (bit % 8);
        record
    });
    let cut = (0..whole.len()).map(|length| whole[..length].to_vec());
    let longer = [whole.clone(), vec![0]].concat();
    let mut seen = [0; 3];
    for record in flipped.chain(cut).chain([longer]) {
        fs::write(file, &record).unwrap();
        let (status, printed, error) = told(&run(&["check", file, path(&csv)], ""));
        seen[status as usize] += 1;
        let content = match decode(&record) {
            Ok(content) => content,
            Err(byte) => {
                assert_eq!((status, &printed[..]), (2, ""));
                assert!(error.starts_with(&format!("kovrelna: {file}: ")));
                assert!(
                    error.ends_with(&format!("faulty at byte {byte}\n")),
                    "{error}"
                );
                continue;
            }
        };
        let list: Option<Vec<u16>> = content
            .samples
            .iter()
            .map(|sample| Some(trace.iter().position(|other| other == sample)? as u16))
            .collect();
        let form = form(content.tolerance);
        let passes = list.is_some_and(|list| judge(&ticks, &values, &list, form) == Ok(None));
        let expected = if passes { (0, "yes\n") } else { (1, "no: ") };
        assert_eq!((status, &printed[..4]), expected, "{printed}");
        assert_eq!(error, "");
    }
    assert!(seen.iter().all(|&count| count > 0), "{seen:?}");
}

/// What is no record, no trace, or is not there.
#[test]
fn refuses() {
    let folder = folder("check_refuses");
    let (file, other) = (folder.join("record"), folder.join("other"));
    let (file, other) = (path(&file), path(&other));
    recorded(file, &["-t2"], WAVE);
    for (trace, cause) in [
        ("", "no samples"),
        ("0,0\n0,0\n", "2: the tick is not above the one before"),
        ("0,0\n1048576,0\n", "2: the tick is over 1,048,575 above"),
        ("0,x\n", "1: the value `x` is not a number"),
        (
            "# tolerance 2/1\n0,0\n2,0\n4,0\n",
            "1: samples are reduced already at 2/1",
        ),
    ] {
        let message = format!("<stdin>:{cause}").replace(":no", ": no");
        fails(&["check", file, "-"], trace, &message);
    }
    let shown = done(&["show", file], "");
    fails(
        &["check", file, "-"],
        shown,
        "<stdin>:1: samples are reduced already at 2/1",
    );
    fs::write(other, WAVE).unwrap();
    let message = format!("{other}: no record: it is faulty at byte 0\n");
    fails(&["check", other, file], "", &message);
    fails(
        &["check", file, file],
        "",
        &format!("{file}: a record, where a trace is wanted\n"),
    );
    fails(&["check", file, "missing"], "", "missing: No such file");
    fails(&["check", "missing", file], "", "missing: No such file");
    for arguments in [
        &["check"][..],
        &["check", file],
        &["check", file, other, other],
    ] {
        fails(arguments, WAVE, "a record and its trace are wanted\nTry");
    }
    fails(&["check", "-", "-"], WAVE, "standard input is wanted twice");
}
