//! What holds of sums beyond their definition. A check that fails panics, with its input.

use crate::compare::{exactly, form, judge, sum};
use kovrelna_reference::generate::Trace;
use kovrelna_reference::sums::{bound, Sum, Summand};
use kovrelna_reference::{held, list_error, list_parts, list_refusal, longest_crossed, Row};

/// Adds two traces with outputs of so many entries and sees what holds of every sum. The joined list is a
/// kept list of the summed trace; with U1 and D1, U2 and D2 the least parts of the two lists, its error is at
/// most U1 + D1 + U2 + D2, and it obeys every gap limit that both lists obey; where that bound is allowed as a
/// tolerance, judge passes it there, under the least of these gap limits. With the traces exchanged the sum
/// is the same. The sum of either trace and one of zeros, kept at its two ends, is that trace and its list.
pub fn added(first: &Summand, second: &Summand, rooms: (usize, usize)) -> Result<Sum, Row> {
    let sum_of = |first: &Summand, second: &Summand| sum(first, second, rooms);
    let found = sum_of(first, second)?;
    let Sum { values, list } = &found;
    let input = || format!("{found:?}\n{first:?}\n{second:?}");
    let ticks = &first.trace.ticks;
    let samples = ticks.len();
    assert_eq!(list_refusal(samples, list), None, "{}", input());
    let parts = |Summand { trace, list }: &Summand| list_parts(ticks, &trace.values, list);
    let at_most = bound(parts(first), parts(second)).lowest();
    let joined = list_error(ticks, values, list);
    assert!(
        joined.at_most(at_most),
        "{joined:?} is above {at_most:?}\n{}",
        input()
    );
    let crossed = |list: &[u16]| longest_crossed(ticks, list);
    let obeyed = crossed(&first.list).max(crossed(&second.list));
    assert!(crossed(list) <= obeyed, "{}", input());
    let tolerance = exactly(at_most);
    if held(form(tolerance)).is_some() {
        let limits = tolerance.with_gap(obeyed.unwrap_or(1));
        let judged = judge(ticks, values, list, limits);
        assert_eq!(judged, Ok(None), "{}", input());
    }
    assert_eq!(sum_of(second, first).as_ref(), Ok(&found), "{}", input());
    let mut ends = vec![0, samples as u16 - 1];
    ends.dedup();
    let zeros = Summand {
        trace: Trace {
            ticks: ticks.clone(),
            values: vec![0; samples],
        },
        list: ends,
    };
    for summand in [first, second] {
        let same = Sum {
            values: summand.trace.values.clone(),
            list: summand.list.clone(),
        };
        assert_eq!(sum_of(summand, &zeros), Ok(same), "{}", input());
    }
    Ok(found)
}
