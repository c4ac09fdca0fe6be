//! How near lists are to the shortest, beside the slow reference.

use super::counts::{self, compare, row};
use super::{done, path, shipped, WAVE};
use kovrelna_reference::generate::Trace;
use kovrelna_reference::{fewest, reduce, METHODS};

#[test]
fn as_the_reference() {
    compare("near", 6, |Trace { ticks, values }, limits| {
        let kept = |method| {
            let reduced = reduce(method, ticks, values, limits, ticks.len());
            reduced.unwrap().list.len()
        };
        let half = fewest(ticks, values, limits.held().unwrap().shared(1, 2));
        let [walk, gallop, minimum] = METHODS.map(kept);
        vec![ticks.len(), walk, gallop, minimum, half]
    });
}

#[test]
fn columns() {
    let pulse = shipped("examples/pulse.csv");
    let printed = done(&["near", "--tolerance", "8", path(&pulse)], "");
    let expected = format!(
        "\
# samples kept at 8/1; half: by minimum at 4/1
samples    walk  gallop minimum    half  file
    128      17      16      12      31  {}
",
        path(&pulse)
    );
    assert_eq!(String::from_utf8(printed).unwrap(), expected);
    // From standard input, and no total.
    let printed = String::from_utf8(done(&["near", "-t2"], WAVE)).unwrap();
    let line = "\n      5       3       2       2       4  <stdin>\n";
    assert!(printed.ends_with(line), "{printed}");
}

/// A half that is no tolerance.
#[test]
fn no_half() {
    let pulse = shipped("examples/pulse.csv");
    let arguments = ["near", "-t", "524289/524288", path(&pulse), "-"];
    let printed = String::from_utf8(done(&arguments, WAVE)).unwrap();
    let lines: Vec<&str> = printed.lines().collect();
    assert_eq!(lines.len(), 6, "{printed}");
    assert_eq!(
        lines[0],
        "# samples kept at 524289/524288; half: by minimum at 524289/1048576"
    );
    assert_eq!(row(lines[2]).0[4], -1);
    assert_eq!(row(lines[3]), (vec![5, 4, 4, 4, -1], "<stdin>".to_string()));
    assert_eq!(row(lines[4]).0[4], -1);
    let note = "# 524289/1048576 is no tolerance: its denominator is above 1,048,575";
    assert_eq!(lines[5], note);
}

#[test]
fn faults() {
    counts::faults("near", vec![128, 17, 16, 12, 31]);
}
