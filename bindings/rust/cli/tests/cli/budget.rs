//! What an error budget may say of records.

use super::{done, fails, folder, path, run, shipped, told, WAVE};
use std::fs;

/// For the tolerance 8.
pub const EIGHT: &str = "\
greatest tolerance 8
From the first kept sample to the last, at every tick, whole or fractional, \
the straight lines between the samples kept at tolerance 8 differ by at most 8 ADC counts \
from the straight lines between all samples of the original trace. \
Their maximum is at most 8 too low and never too high, \
their minimum at most 8 too high and never too low, \
so a pulse height read off them as maximum minus minimum is at most 16 too small and never too large. \
Their mean over any window of ticks is within 8, \
and their area over any stretch of ticks within 8 times its length in ticks, \
so a pulse height read off them as maximum minus the mean of a baseline window \
is at most 16 too small and at most 8 too large. \
Reducing the kept samples again adds the two tolerances.
";

fn text(bytes: Vec<u8>) -> String {
    String::from_utf8(bytes).unwrap()
}

#[test]
fn of_a_record() {
    let folder = folder("budget_of_a_record");
    let (one, two) = (folder.join("one"), folder.join("two"));
    let trace = shipped("examples/pulse.csv");
    let plain = done(&["record", "-t8", path(&trace)], "");
    let arguments = ["record", "-t8", "--budget", "-o", path(&one), path(&trace)];
    assert_eq!(text(done(&arguments, "")), EIGHT);
    assert_eq!(fs::read(&one).unwrap(), plain);
    // With the tolerance of the record's text.
    let shown = done(&["show", path(&one)], "");
    let printed = done(&["record", "-b", "-o", path(&two)], shown);
    assert_eq!(text(printed), EIGHT);
    assert_eq!(fs::read(&two).unwrap(), plain);
    // A record and text do not go to the same place.
    for arguments in [
        &["record", "-t8", "-b"][..],
        &["record", "-t8", "-b", "-o-"],
    ] {
        let cause = "--budget is printed on standard output: the record needs -o FILE\n";
        fails(arguments, WAVE, cause);
    }
    // What is refused has no budget, and is not written.
    let three = folder.join("three");
    let arguments = ["record", "-t8", "-b", "-o", path(&three)];
    fails(&arguments, "0,0\n0,0\n", "<stdin>:2: the tick");
    assert!(!three.exists());
}

/// The sentences are README's.
#[test]
fn as_documented() {
    let readme = fs::read_to_string(shipped("README.md")).unwrap();
    let paragraph = readme
        .lines()
        .find(|line| line.starts_with("> From the first"));
    let paragraph = paragraph.unwrap().trim_start_matches("> ");
    let filled = paragraph.replace("2p/q", "16").replace("p/q", "8");
    let (_, sentences) = EIGHT.split_once('\n').unwrap();
    assert_eq!(sentences.trim_end(), filled);
}

#[test]
fn of_several_records() {
    let folder = folder("budget_of_several_records");
    let trace = shipped("examples/pulse.csv");
    let records = ["2/3", "8", "1.5", "15/2"].map(|tolerance| {
        let record = folder.join(tolerance.replace('/', "-"));
        done(
            &["record", "-t", tolerance, "-o", path(&record), path(&trace)],
            "",
        );
        record
    });
    let names = records.each_ref().map(|record| path(record));
    let summary = text(done(&[&["summary"], &names[..]].concat(), ""));
    let with_budget = text(done(&[&["summary", "--budget"], &names[..]].concat(), ""));
    assert_eq!(with_budget, format!("{summary}\n{EIGHT}"));
    let lesser = text(done(&["summary", "-b", names[0], names[2]], ""));
    let tolerance = "\n\ngreatest tolerance 3/2 (1.5)\nFrom the first";
    assert!(lesser.contains(tolerance), "{lesser}");
    let least = text(done(&["summary", names[0], "-b"], ""));
    assert!(least.contains("\ngreatest tolerance 2/3\n"), "{least}");
    // Nothing is said of records that are not all known.
    let bad = folder.join("bad");
    fs::write(&bad, &fs::read(names[1]).unwrap()[..20]).unwrap();
    let (status, printed, error) = told(&run(&["summary", "-b", names[0], path(&bad)], ""));
    assert_eq!(status, 2);
    assert!(printed.ends_with("\ttotal\n"), "{printed}");
    let cause = "kovrelna: --budget: none, as not every record could be read\n";
    assert!(error.ends_with(cause), "{error}");
}
