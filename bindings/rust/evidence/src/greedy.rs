//! What holds of lists that are judged as greedy ones, beyond the definition. A check that fails panics, with
//! its input.

use crate::compare::{judge, judge_greedy};
use kovrelna::Limits;
use kovrelna_reference::generate::{any_list, spoilt, Random, Trace};
use kovrelna_reference::{kept_lists, Fault, GreedyFault};

/// Judges a kept list of the trace as a greedy one and sees what holds of every answer: a yes is one of judge
/// too; a link at fault is the one that judge names; up to the link of a stop at fault judge names none.
pub fn judged_greedy(
    trace: &Trace,
    list: &[u16],
    limits: impl Into<Limits>,
) -> Option<GreedyFault> {
    let limits = limits.into();
    let Trace { ticks, values } = trace;
    let found = judge_greedy(ticks, values, list, limits).unwrap();
    let invalid = judge(ticks, values, list, limits).unwrap();
    let invalid = invalid.map(|invalid| invalid.link);
    let holds = match found {
        None => invalid.is_none(),
        Some(GreedyFault { link, fault }) => match fault {
            Fault::Link => invalid == Some(link),
            Fault::Stop => invalid.is_none_or(|invalid| invalid > link),
        },
    };
    assert!(
        holds,
        "{found:?}, judged {invalid:?}\n{list:?} {trace:?}\n{limits:?}"
    );
    found
}

/// How often lists passed, had a link at fault, and had a stop at fault.
pub type Answers = [usize; 3];

/// Judges as greedy ones the lists of walk, gallop and minimum, those of all samples and of both ends, and
/// another; and each with one entry moved, left out or added. Those of walk and gallop pass, and those of
/// minimum and of all samples have no link at fault. Counts the answers for the lists as they are, and for the
/// others.
pub fn judge_lists(
    trace: &Trace,
    limits: impl Into<Limits>,
    random: &mut Random,
    answers: &mut [Answers; 2],
) {
    let limits = limits.into();
    let samples = trace.ticks.len();
    let all: Vec<u16> = (0..samples as u16).collect();
    let mut ends = vec![0, samples as u16 - 1];
    ends.dedup();
    let [walk, gallop, minimum] = kept(trace, limits);
    let any = any_list(&trace.ticks, limits.gap, random);
    let lists = [walk, gallop, minimum, all, ends, any];
    let mut answered = |list: &[u16], sort: usize| {
        let fault = judged_greedy(trace, list, limits).map(|found| found.fault);
        let answer = match fault {
            None => 0,
            Some(Fault::Link) => 1,
            Some(Fault::Stop) => 2,
        };
        answers[sort][answer] += 1;
        fault
    };
    for (k, list) in lists.iter().enumerate() {
        let fault = answered(list, 0);
        let holds = match k {
            0 | 1 => fault.is_none(),
            2 | 3 => fault != Some(Fault::Link),
            _ => true,
        };
        assert!(holds, "{fault:?} {list:?} {trace:?}\n{limits:?}");
        answered(&spoilt(list, samples, random), 1);
    }
}

/// The lists of walk, gallop and minimum, which are compared with the reference elsewhere.
fn kept(Trace { ticks, values }: &Trace, limits: Limits) -> [Vec<u16>; 3] {
    let of = |reduce: &dyn Fn(&mut [u16]) -> Result<usize, kovrelna::Refusal>| {
        let mut list = vec![0; ticks.len()];
        let kept = reduce(&mut list).unwrap();
        list.truncate(kept);
        list
    };
    [
        of(&|out| kovrelna::walk(ticks, values, limits, out)),
        of(&|out| kovrelna::gallop(ticks, values, limits, out).map(|galloped| galloped.kept)),
        of(&|out| kovrelna::minimum(ticks, values, limits, out)),
    ]
}

/// Every kept list that passes. The trace is short.
pub fn passing_lists(trace: &Trace, limits: impl Into<Limits>) -> Vec<Vec<u16>> {
    let limits = limits.into();
    kept_lists(trace.ticks.len())
        .filter(|list| judged_greedy(trace, list, limits).is_none())
        .collect()
}
