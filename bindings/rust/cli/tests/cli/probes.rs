//! Gallop's probes, beside the slow reference.

use super::counts::{self, compare};
use super::{done, path, shipped, WAVE};
use kovrelna_reference::generate::Trace;
use kovrelna_reference::{reduce, Method, Reduced};

#[test]
fn as_the_reference() {
    compare("probes", 12, |Trace { ticks, values }, limits| {
        let Reduced { list, probes } =
            reduce(Method::Gallop, ticks, values, limits, ticks.len()).unwrap();
        vec![ticks.len(), list.len() - 1, probes]
    });
}

#[test]
fn columns() {
    let pulse = shipped("examples/pulse.csv");
    let printed = done(&["probes", "--tolerance", "16/2", path(&pulse), "-"], WAVE);
    let expected = format!(
        "\
# gallop at 8/1
samples   stops  probes  file
    128      15      85  {}
      5       1       5  <stdin>
    133      16      90  total
",
        path(&pulse)
    );
    assert_eq!(String::from_utf8(printed).unwrap(), expected);
    // One sample takes none, and there is no total.
    let printed = String::from_utf8(done(&["probes", "-t2"], "7,9\n")).unwrap();
    let line = "\n      1       0       0  <stdin>\n";
    assert!(printed.ends_with(line), "{printed}");
    assert_eq!(printed.lines().count(), 3);
}

#[test]
fn faults() {
    counts::faults("probes", vec![128, 15, 85]);
}
