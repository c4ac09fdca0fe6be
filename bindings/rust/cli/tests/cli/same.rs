//! Whether two records are the same, beside the slow reference.

use super::{done, fails, folder, path, run, run_in, told};
use kovrelna_reference::generate::{content, Random};
use kovrelna_reference::record::{encode, same};
use std::fs;
use std::path::Path;

/// The record of this text in this file.
fn record(folder: &Path, file: &str, text: &str) {
    done(&["record", "-o", path(&folder.join(file))], text);
}

/// The tool's status, and what it prints of these files.
fn answer(folder: &Path, first: &str, second: &str) -> (i32, String) {
    let (status, printed, error) = told(&run_in(folder, &["same", first, second]));
    assert_eq!(error, "");
    (status, printed)
}

/// A trace kept at 2 counts and at 5 ends with the same samples.
#[test]
fn same_samples() {
    let folder = folder("same_samples");
    let trace = "0,0\n1,2\n2,0\n3,2\n4,0\n";
    for (file, tolerance) in [("two", "2"), ("five", "5"), ("ratio", "10/2")] {
        let file = folder.join(file);
        done(&["record", "-t", tolerance, "-o", path(&file)], trace);
    }
    let shown = told(&run_in(&folder, &["show", "two"])).1;
    assert_eq!(shown, "# tolerance 2/1\n0,0\n4,0\n");
    let no = "no: the tolerances differ\nthe tolerance is 2/1 in two, and 5/1 in five\n";
    assert_eq!(answer(&folder, "two", "five"), (1, no.to_string()));
    // Two forms of one tolerance.
    assert_eq!(answer(&folder, "five", "ratio"), (0, "yes\n".to_string()));
    // From standard input.
    let (two, five) = (folder.join("two"), folder.join("five"));
    let bytes = fs::read(&five).unwrap();
    assert_eq!(done(&["same", "-", path(&five)], &bytes), b"yes\n");
    assert_eq!(done(&["same", path(&five), "-"], &bytes), b"yes\n");
    let (status, printed, _) = told(&run(&["same", "-", path(&two)], &bytes));
    let is = "the tolerance is 5/1 in <stdin>, and 2/1 in";
    let no = format!("no: the tolerances differ\n{is} {}\n", path(&two));
    assert_eq!((status, printed), (1, no));
}

#[test]
fn other_samples() {
    let folder = folder("same_other_samples");
    record(&folder, "a", "# tolerance 1/2\n0,0\n3,-7\n9,4\n");
    for (text, first, lines) in [
        // A value; a tick, which comes before another value; a sample fewer, or more.
        (
            "# tolerance 1/2\n0,0\n3,7\n9,4\n",
            "the samples",
            "sample 1 is at tick 3 with value -7 in a, and at tick 3 with value 7 in b\n",
        ),
        (
            "# tolerance 1/2\n0,0\n4,-7\n9,5\n",
            "the samples",
            "sample 1 is at tick 3 with value -7 in a, and at tick 4 with value -7 in b\n",
        ),
        (
            "# tolerance 1/2\n0,0\n3,-7\n",
            "the samples",
            "sample 2 is at tick 9 with value 4 in a, and missing in b\n",
        ),
        (
            "# tolerance 1/2\n0,0\n3,-7\n9,4\n10,0\n",
            "the samples",
            "sample 3 is missing in a, and at tick 10 with value 0 in b\n",
        ),
        (
            "# tolerance 1/3\n1,0\n3,-7\n9,4\n",
            "the samples and the tolerances",
            "sample 0 is at tick 0 with value 0 in a, and at tick 1 with value 0 in b\n\
             the tolerance is 1/2 in a, and 1/3 in b\n",
        ),
    ] {
        record(&folder, "b", text);
        let no = format!("no: {first} differ\n{lines}");
        assert_eq!(answer(&folder, "a", "b"), (1, no), "{text}");
    }
}

/// Random records beside themselves, at another tolerance, with other samples and with both.
#[test]
fn random_records() {
    let folder = folder("same_random_records");
    let random = &mut Random::new(31);
    for _ in 0..50 {
        let one = content(random.within(1, 9) as usize, random);
        let mut other = content(random.within(1, 9) as usize, random);
        let answers = [
            "yes",
            "no: the tolerances differ",
            "no: the samples differ",
            "no: the samples and the tolerances differ",
        ];
        for (case, first_line) in answers.into_iter().enumerate() {
            let mut changed = one.clone();
            if case % 2 == 1 {
                while other.tolerance == one.tolerance {
                    other.tolerance = content(1, random).tolerance;
                }
                changed.tolerance = other.tolerance;
            }
            if case >= 2 {
                while other.samples == one.samples {
                    other.samples = content(2, random).samples;
                }
                changed.samples.clone_from(&other.samples);
            }
            let bytes = [encode(&one), encode(&changed)];
            for (file, bytes) in ["a", "b"].iter().zip(&bytes) {
                fs::write(folder.join(file), bytes).unwrap();
            }
            let (status, printed) = answer(&folder, "a", "b");
            assert_eq!(printed.lines().next(), Some(first_line), "{bytes:02x?}");
            assert_eq!(Ok(status == 0), same(&bytes[0], &bytes[1]), "{bytes:02x?}");
        }
    }
}

#[test]
fn mistakes() {
    let folder = folder("same_mistakes");
    record(&folder, "whole", "# tolerance 2/3\n0,0\n3,1\n");
    let whole = folder.join("whole");
    let bytes = fs::read(&whole).unwrap();
    let cut = folder.join("cut");
    fs::write(&cut, &bytes[..21]).unwrap();
    let (whole, cut) = (path(&whole), path(&cut));
    // The first that is faulty is named, also if both are, and if they have the same bytes.
    let faulty = format!("{cut}: the record is faulty at byte 19\n");
    fails(&["same", cut, whole], "", &faulty);
    fails(&["same", whole, cut], "", &faulty);
    fails(&["same", cut, cut], "", &faulty);
    let faulty = "<stdin>: no record: it is faulty at byte 0\n";
    fails(&["same", "-", cut], "0,0\n", faulty);
    fails(&["same", whole, "-"], "", faulty);
    let missing = folder.join("missing");
    let message = format!("{}: ", path(&missing));
    fails(&["same", path(&missing), whole], "", &message);
    fails(&["same", whole, path(&missing)], "", &message);
    for files in [&[][..], &[whole], &[whole, whole, whole]] {
        let arguments = [&["same"], files].concat();
        fails(&arguments, "", "two records are wanted\nTry");
    }
    fails(&["same", "-", "-"], bytes, "standard input is wanted twice");
    fails(&["same", "-t2", whole, whole], "", "-t2: there is no such option");
    let help = done(&["same", "--help"], "");
    assert!(help.starts_with(b"Says whether two records are the same"));
}
