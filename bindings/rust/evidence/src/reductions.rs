//! What holds of the lists of walk, gallop, minimum and least beyond their definitions, and tolerances
//! at which they change. A check that fails panics, with its input.

use crate::compare::{asked, exactly, exactly_parts, given, judge, least, noise, ratio, reduce};
use crate::greedy::judged_greedy;
use kovrelna::{Limits, Tolerance};
use kovrelna_reference::generate::{any_parts, just_below, near_parts, written, Random, Trace};
use kovrelna_reference::Method::{self, Gallop, Minimum, Walk};
use kovrelna_reference::{
    beside_holes, fewest, kept_lists, link_error, link_parts, list_error, list_obeys, list_parts,
    Least, Reduced, TOLERANCE,
};

/// The methods whose stops are maximal.
pub const GREEDY: [Method; 2] = [Walk, Gallop];

/// The probes of a stop that advances by r samples.
pub fn stop_probes(r: usize) -> usize {
    2 * r.ilog2() as usize + 1
}

/// What holds of gallop's probes, which the reference counts one by one: they are the sum over the
/// stops, and within both bounds for so many stops, of which the second is reached exactly where no
/// stop advances by more than 2 samples.
fn probes_of_stops(trace: &Trace, limits: Limits, Reduced { list, probes }: &Reduced) {
    let advances: Vec<usize> = list
        .windows(2)
        .map(|link| usize::from(link[1] - link[0]))
        .collect();
    let (stops, last) = (advances.len(), trace.ticks.len() - 1);
    let total: usize = advances.iter().copied().map(stop_probes).sum();
    let input = || format!("{list:?}\n{trace:?}\n{limits:?}");
    assert_eq!(*probes, total, "{}", input());
    assert!(
        stops == 0 || total <= stops * stop_probes(last),
        "{}",
        input()
    );
    assert!(total + stops <= 2 * last, "{}", input());
    let short = advances.iter().all(|&r| r <= 2);
    assert_eq!(total + stops == 2 * last, short, "{}", input());
}

/// Calls a greedy method and sees what holds of every greedy list: it passes as one, so each link is valid,
/// and from the same start the link to the sample after each stop is invalid; gallop's stops take their probes.
pub fn greedy(method: Method, trace: &Trace, limits: impl Into<Limits>, room: usize) -> Reduced {
    let limits = limits.into();
    let Trace { ticks, values } = trace;
    let reduced = reduce(method, ticks, values, limits, room).unwrap();
    let fault = judged_greedy(trace, &reduced.list, limits);
    assert_eq!(fault, None, "{method:?} {reduced:?}\n{trace:?}\n{limits:?}");
    if method == Gallop {
        probes_of_stops(trace, limits, &reduced);
    }
    reduced
}

/// Calls every method and sees what holds of each list and of all: the links of minimum's list are
/// valid, and no greedy list is shorter; each has the samples beside each hole. Returns the lists of
/// walk, gallop and minimum.
pub fn lists(trace: &Trace, limits: impl Into<Limits>, room: usize) -> [Vec<u16>; 3] {
    let limits = limits.into();
    let Trace { ticks, values } = trace;
    let [walk, gallop] = GREEDY.map(|method| greedy(method, trace, limits, room).list);
    let minimum = reduce(Minimum, ticks, values, limits, room).unwrap().list;
    assert_eq!(judge(ticks, values, &minimum, limits), Ok(None));
    assert!(
        minimum.len() <= walk.len() && minimum.len() <= gallop.len(),
        "{minimum:?} is longer than {walk:?} or {gallop:?}\n{trace:?}\n{limits:?}"
    );
    let lists = [walk, gallop, minimum];
    let beside = beside_holes(ticks, Some(limits.gap));
    assert!(
        lists.iter().all(|list| has_all(list, &beside)),
        "{lists:?} not with {beside:?}\n{trace:?}\n{limits:?}"
    );
    lists
}

/// Whether a list has all of these samples; both rise.
fn has_all(list: &[u16], samples: &[u16]) -> bool {
    let mut list = list.iter();
    samples.iter().all(|sample| list.any(|kept| kept == sample))
}

/// So much of the smaller part of a tolerance above the line, and the rest of it below: none, all of it, and
/// half, which with equal parts is half the tolerance.
const SHARES: [(i128, i128); 3] = [(0, 1), (1, 1), (1, 2)];

/// No kept list within the limits is shorter than minimum's; and none that obeys the gap limit, and from whose
/// lines no sample lies more than a above or more than b below, is shorter than a greedy one, for a and b that
/// are together the smaller part of the tolerance.
pub fn size_bounds(
    trace: &Trace,
    limits: impl Into<Limits>,
    [walk, gallop, minimum]: &[Vec<u16>; 3],
) {
    let limits = asked(limits.into()).held().unwrap();
    let fewest = |limits| fewest(&trace.ticks, &trace.values, limits);
    assert_eq!(minimum.len(), fewest(limits), "{trace:?}\n{limits:?}");
    for (above, n) in SHARES {
        let within = limits.shared(above, n);
        let least = fewest(within);
        assert!(
            walk.len() <= least && gallop.len() <= least,
            "{walk:?} or {gallop:?}, {least} within {within:?}\n{trace:?}\n{limits:?}"
        );
    }
}

/// The same of these greedy lists, or others that pass as such, and of every kept list, for all such a and b: a
/// list that obeys the gap limit is within some of them exactly if the most that a sample lies above its lines
/// and the most that one lies below are together at most the smaller part. Returns how many lists are. The trace
/// is short.
pub fn size_bound_of_all(trace: &Trace, limits: impl Into<Limits>, greedy: &[Vec<u16>]) -> usize {
    let limits = asked(limits.into()).held().unwrap();
    let Trace { ticks, values } = trace;
    let smaller = limits.tolerance.smaller();
    let within = |list: &Vec<u16>| {
        list_obeys(ticks, list, limits.gap)
            && list_parts(ticks, values, list).sum().at_most(smaller)
    };
    let mut count = 0;
    for list in kept_lists(ticks.len()).filter(within) {
        assert!(
            greedy.iter().all(|greedy| greedy.len() <= list.len()),
            "one of {greedy:?}, {list:?}\n{trace:?}\n{limits:?}"
        );
        count += 1;
    }
    count
}

/// A tolerance of any form, small, wide or zero; half of them are given as parts.
pub fn any_tolerance(random: &mut Random) -> Tolerance {
    let q = random.choose(&[1, 6, 1_000, 1_048_575]);
    let q = 1 + random.below(q);
    let most = random.choose(&[0, 1, 6, 1_000, 65_535]);
    match random.below(6) {
        0 => ratio(random.below(most * q + 1), q),
        1 => Tolerance::Counts(random.below(64 * most + 1) as f64 / 64.0),
        2 => {
            let part = random.below(64 * most.min(1_023) + 1) as f64 / 64.0;
            noise(part, random.below(8 * 63 + 1) as f64 / 8.0)
        }
        _ => given(written(any_parts(random), random)),
    }
}

/// An arbitrary tolerance; a link's error and just below it, or a link's parts and near them.
pub fn tolerances(Trace { ticks, values }: &Trace, random: &mut Random) -> Vec<Tolerance> {
    let mut tolerances = vec![any_tolerance(random)];
    if ticks.len() > 2 {
        let within = random.below(ticks.len() as u64 - 2) as usize;
        let i = random.choose(&[0, within]);
        let longest = ticks.len() - 1 - i;
        let most = random.choose(&[3, 8, longest]).min(longest);
        let j = i + random.within(2, most as i64) as usize;
        if random.below(2) == 0 {
            let parts = link_parts(ticks, values, i, j);
            let near = near_parts(parts, random);
            tolerances.extend([parts, near].map(exactly_parts));
            return tolerances;
        }
        let error = link_error(ticks, values, i, j);
        tolerances.push(exactly(error));
        if error.p > 0 {
            tolerances.push(exactly(just_below(error)));
        }
    }
    tolerances
}

/// Of all kept lists that judge passes and that are as short as minimum's, minimum's is the last in the
/// order of their samples. Returns all of them; the trace is short.
pub fn shortest_lists(trace: &Trace, limits: impl Into<Limits>, minimum: &[u16]) -> Vec<Vec<u16>> {
    let limits = limits.into();
    let Trace { ticks, values } = trace;
    let passed = |list: &Vec<u16>| judge(ticks, values, list, limits) == Ok(None);
    let shortest: Vec<Vec<u16>> = kept_lists(ticks.len())
        .filter(|list| list.len() == minimum.len() && passed(list))
        .collect();
    assert_eq!(
        shortest.iter().max().map(Vec::as_slice),
        Some(minimum),
        "{trace:?} {limits:?}"
    );
    shortest
}

/// Calls least and sees what holds of its answer: the list has at most so many samples, obeys the gap limit
/// and has exactly the error, it is minimum's there, and just below the error no list is short enough.
/// Nothing is answered exactly if both ends and the samples beside each hole are more than so many, of
/// which judge passes the links at the greatest tolerance.
pub fn least_list(trace: &Trace, gap: u32, allowance: u64, room: usize) -> Option<Least> {
    let Trace { ticks, values } = trace;
    let beside = beside_holes(ticks, Some(gap));
    let greatest = ratio(TOLERANCE as u64, 1).with_gap(gap);
    assert_eq!(judge(ticks, values, &beside, greatest), Ok(None));
    let answer = least(ticks, values, gap, allowance, room);
    let allowance = allowance as usize;
    if beside.len() > allowance {
        assert_eq!(answer, Err((16, 0)), "{allowance} {gap}\n{trace:?}");
        return None;
    }
    let answer = answer.unwrap();
    let Least { list, error } = &answer;
    let input = || format!("{allowance} {gap} {answer:?}\n{trace:?}");
    assert!(list.len() <= allowance, "{}", input());
    assert!(list_obeys(ticks, list, Some(gap)), "{}", input());
    assert_eq!(list_error(ticks, values, list), *error, "{}", input());
    let limits = exactly(*error).with_gap(gap);
    let minimum = reduce(Minimum, ticks, values, limits, room);
    assert_eq!(minimum.unwrap().list, *list, "{}", input());
    if error.p > 0 {
        let below = kovrelna_reference::Limits {
            tolerance: just_below(*error).into(),
            gap: Some(gap),
        };
        assert!(fewest(ticks, values, below) > allowance, "{}", input());
    }
    Some(answer)
}
