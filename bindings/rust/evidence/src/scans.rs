//! What holds of scans beyond their definition. A check that fails panics, with its input.

use crate::compare::{reduce, scan};
use kovrelna::Tolerance;
use kovrelna_reference::generate::Trace;
use kovrelna_reference::scans::closed;
use kovrelna_reference::{Method, Row};

/// Scans a trace with an output of so many entries and sees what holds of every scan: each list is that of
/// walk at its tolerance, in whatever order the tolerances come.
pub fn scanned(
    trace: &Trace,
    tolerances: &[Tolerance],
    gap: u32,
    room: usize,
) -> Result<Vec<Vec<u16>>, Row> {
    let Trace { ticks, values } = trace;
    let lists = scan(ticks, values, tolerances, gap, room)?;
    for (list, tolerance) in lists.iter().zip(tolerances) {
        let limits = tolerance.with_gap(gap);
        let walk = reduce(Method::Walk, ticks, values, limits, ticks.len()).unwrap();
        assert_eq!(*list, walk.list, "{limits:?} {trace:?}");
    }
    let backwards: Vec<Tolerance> = tolerances.iter().rev().copied().collect();
    let mut reversed = scan(ticks, values, &backwards, gap, room).unwrap();
    reversed.reverse();
    assert_eq!(lists, reversed, "{tolerances:?} {gap} {trace:?}");
    Ok(lists)
}

/// The lists after sample j of the pass, from 1 on: the stops of the whole trace's lists that are fixed by
/// then, closed with sample j, are the lists of the scan of samples 0 to j.
pub fn after_sample(
    trace: &Trace,
    tolerances: &[Tolerance],
    gap: u32,
    lists: &[Vec<u16>],
    j: usize,
) {
    let (ticks, values) = (&trace.ticks[..=j], &trace.values[..=j]);
    let so_far = scan(ticks, values, tolerances, gap, tolerances.len() * (j + 1));
    let expected = lists.iter().map(|list| closed(list, j as u16)).collect();
    assert_eq!(so_far, Ok(expected), "{j} {tolerances:?} {gap} {trace:?}");
}
