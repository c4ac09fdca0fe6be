//! Traces with kept lists, added: random ones, every small pair, lists of every sort, the ends of the range,
//! and what holds of the joined lists.

use kovrelna_evidence::calls::Call;
use kovrelna_evidence::cases::traces_summed;
use kovrelna_evidence::compare::{exactly, exactly_parts, hold, judge, ratio, reduce, sum};
use kovrelna_evidence::reductions::tolerances;
use kovrelna_evidence::sums::added;
use kovrelna_reference::generate::{
    any_limited, kept_list, obeying_list, summands, with_holes, Random, Trace, HOLES,
};
use kovrelna_reference::sums::{bound, Sum, Summand};
use kovrelna_reference::{
    kept_lists, list_error, list_obeys, list_parts, METHODS, SAMPLES, TOLERANCE,
};

use crate::small_traces;

/// A trace of these values, with ticks from 0 on.
fn even(values: Vec<i16>) -> Trace {
    Trace {
        ticks: (0..values.len() as u32).collect(),
        values,
    }
}

/// The trace with this list.
fn listed(trace: &Trace, list: &[u16]) -> Summand {
    Summand {
        trace: trace.clone(),
        list: list.to_vec(),
    }
}

/// The sum of two traces, with outputs of exactly enough room.
fn sum_of(first: &Summand, second: &Summand) -> Sum {
    let samples = first.trace.ticks.len();
    added(first, second, (samples, samples)).unwrap()
}

#[test]
fn random_sums() {
    let random = &mut Random::new(46);
    (0..20_000).for_each(|_| traces_summed(40, random));
    (0..200).for_each(|_| traces_summed(4_096, random));
    let counts = Call::Sum.counts();
    let seen = |row: u32| counts[row as usize] > 200;
    let rows = Call::Sum.rows();
    assert!(seen(0) && rows.iter().all(|&row| seen(row)), "{counts:?}");
}

/// Every pair of small traces with the same ticks, with lists drawn for each. With U1, D1, U2 and D2 the least
/// parts of the lists, the error of the joined list is at most half of U1 + D1 + U2 + D2, or above it, or exactly
/// that sum; and it obeys each gap limit that both obey, of which those up to the longest step matter. There
/// are joined lists that are not within U1 + U2 above and D1 + D2 below.
#[test]
fn every_small_pair() {
    let random = &mut Random::new(47);
    let lists: Vec<Vec<Vec<u16>>> = (0..=5).map(|n| kept_lists(n).collect()).collect();
    let (mut seen, mut obeyed, mut outside) = ([0; 3], [0; 2], 0);
    for same_ticks in small_traces().chunk_by(|one, two| one.ticks == two.ticks) {
        let ticks = &same_ticks[0].ticks;
        let samples = ticks.len();
        for (k, one) in same_ticks.iter().enumerate() {
            for two in &same_ticks[k..] {
                let [first, second] = [one, two].map(|trace| {
                    let drawn = random.below(lists[samples].len() as u64) as usize;
                    listed(trace, &lists[samples][drawn])
                });
                let sum = sum(&first, &second, (samples, samples)).unwrap();
                let [one, two] = [&first, &second]
                    .map(|summand| list_parts(ticks, &summand.trace.values, &summand.list));
                let joined = list_error(ticks, &sum.values, &sum.list);
                let bound = bound(one, two);
                let above = list_parts(ticks, &sum.values, &sum.list).above;
                outside += usize::from(!above.at_most(one.above.plus(two.above)));
                let input = || format!("{joined:?} {sum:?}\n{first:?}\n{second:?}");
                assert!(joined.at_most(bound), "{}", input());
                match (joined.at_most(bound.half()), bound.at_most(joined)) {
                    (true, _) => seen[0] += 1,
                    (false, false) => seen[1] += 1,
                    (false, true) => seen[2] += 1,
                }
                for gap in 1..=3 {
                    let obeys = |list: &[u16]| list_obeys(ticks, list, Some(gap));
                    let both = obeys(&first.list) && obeys(&second.list);
                    assert!(!both || obeys(&sum.list), "{gap} {}", input());
                    obeyed[usize::from(both)] += 1;
                }
            }
        }
    }
    assert!(seen[0] > 100_000 && seen[1] > 10_000, "{seen:?}");
    assert!(seen[2] > 0 && obeyed.iter().all(|&count| count > 100_000));
    assert!(outside > 1_000, "{outside}");
}

/// Lists of every sort side by side, of traces of one sample, of two, and up to the longest: of the two ends,
/// of all samples, of every second one and of the others, of one half and of the other, and drawn ones. The
/// joined list has exactly the samples in either.
#[test]
fn lists_of_every_sort() {
    let random = &mut Random::new(48);
    for samples in [1, 2, 3, 4, 5, 40, 4_095, 4_096] {
        let last = samples as u16 - 1;
        let keep = |kept: &dyn Fn(u16) -> bool| -> Vec<u16> {
            let kept = |k: &u16| *k == 0 || *k == last || kept(*k);
            (0..=last).filter(kept).collect()
        };
        let mut lists = vec![
            keep(&|_| false),
            keep(&|_| true),
            keep(&|k| k % 2 == 0),
            keep(&|k| k % 2 == 1),
            keep(&|k| k < last / 2),
            keep(&|k| k >= last / 2),
            keep(&|k| k == 1),
            keep(&|k| k + 1 == last),
        ];
        lists.extend([(); 4].map(|_| kept_list(samples, random)));
        let [one, two] = summands(samples, random).map(|summand| {
            // No sum is beyond the range.
            let values = summand.trace.values.iter().map(|value| value / 2);
            Trace {
                values: values.collect(),
                ..summand.trace
            }
        });
        for first in &lists {
            for second in &lists {
                let mut either = vec![false; samples];
                for &k in first.iter().chain(second) {
                    either[usize::from(k)] = true;
                }
                let joined = sum_of(&listed(&one, first), &listed(&two, second)).list;
                assert_eq!(joined, keep(&|k| either[usize::from(k)]), "{samples}");
            }
        }
    }
}

/// Sums at either end of the range at every sample, by every pair of values that has them; one beyond it is
/// refused, at its sample.
#[test]
fn ends_of_the_range() {
    let ends = listed(&even(vec![0; SAMPLES]), &[0, SAMPLES as u16 - 1]);
    let with = |values: &[i32]| {
        let mut summand = ends.clone();
        let values = values.iter().map(|&value| i16::try_from(value).unwrap());
        summand.trace.values = values.collect();
        summand
    };
    for end in [-32_768i32, 32_767] {
        // The other value has the same sign, or is 0.
        let all: Vec<i32> = (0..32_768).map(|k| end.signum() * k).collect();
        for part in all.chunks(SAMPLES) {
            let first = with(part);
            let others: Vec<i32> = part.iter().map(|value| end - value).collect();
            let sums = sum_of(&first, &with(&others)).values;
            assert!(sums.iter().all(|&sum| i32::from(sum) == end));
            for at in [0, 1, 2_047, 4_094, 4_095] {
                // Beside 0 no value has a sum beyond the range.
                if part[at] == 0 {
                    continue;
                }
                let mut others = others.clone();
                others[at] += end.signum();
                let second = with(&others);
                let refused = added(&first, &second, (SAMPLES, SAMPLES));
                assert_eq!(refused, Err((18, at as u64)));
                let refused = added(&second, &first, (SAMPLES, SAMPLES));
                assert_eq!(refused, Err((18, at as u64)));
            }
        }
    }
}

/// Traces with holes in every place: where both lists obey the gap limit, judge passes the joined list under
/// it at the greatest tolerance, and where it is not obeyed judge does not. Lists that do not obey it may be
/// joined to one that does.
#[test]
fn holes() {
    let random = &mut Random::new(49);
    // Joined lists of two that obey; of others, that obey and that do not.
    let mut seen = [0; 3];
    for samples in (2..=40).flat_map(|n| [n; 20]) {
        for holes in HOLES {
            let (trace, gap) = with_holes(holes, samples, random);
            let zeros = Trace {
                values: vec![0; samples],
                ..trace.clone()
            };
            let draw = |random: &mut Random| match random.below(3) {
                0 => kept_list(samples, random),
                _ => obeying_list(&trace.ticks, gap, random),
            };
            let lists = [draw(random), draw(random)];
            let obeys = |list: &[u16]| list_obeys(&trace.ticks, list, Some(gap));
            let both = lists.iter().all(|list| obeys(list));
            let sum = sum_of(&listed(&trace, &lists[0]), &listed(&zeros, &lists[1]));
            let greatest = ratio(TOLERANCE as u64, 1).with_gap(gap);
            let passes = judge(&trace.ticks, &sum.values, &sum.list, greatest) == Ok(None);
            assert_eq!(passes, obeys(&sum.list), "{gap} {lists:?} {trace:?}");
            assert!(passes || !both, "{gap} {lists:?} {trace:?}");
            seen[if both { 0 } else { 1 + usize::from(passes) }] += 1;
        }
    }
    assert!(seen.iter().all(|&count| count > 100), "{seen:?}");
}

/// Two traces reduced by every two methods at tolerances of their own, with parts U1 and D1, U2 and D2, under
/// one gap limit: judge passes the joined list at U1 + D1 + U2 + D2 under it, where that is allowed.
#[test]
fn reduced_and_added() {
    let random = &mut Random::new(50);
    let mut judged = 0;
    for _ in 0..1_500 {
        let samples = random.within(1, 40) as usize;
        let (Trace { ticks, .. }, gap) = any_limited(samples, random);
        let traces = summands(samples, random).map(|summand| Trace {
            ticks: ticks.clone(),
            values: summand.trace.values.iter().map(|value| value / 2).collect(),
        });
        let held = traces.each_ref().map(|trace| {
            let tolerances = tolerances(trace, random);
            hold(random.choose(&tolerances)).unwrap()
        });
        for methods in METHODS
            .iter()
            .flat_map(|one| METHODS.map(|two| [*one, two]))
        {
            let parts = [0, 1].map(|k| {
                let Trace { ticks, values } = &traces[k];
                let limits = exactly_parts(held[k]).with_gap(gap);
                let reduced = reduce(methods[k], ticks, values, limits, samples).unwrap();
                listed(&traces[k], &reduced.list)
            });
            let sum = sum_of(&parts[0], &parts[1]);
            let tolerance = bound(held[0], held[1]).lowest();
            let limits = exactly(tolerance).with_gap(gap);
            match judge(&ticks, &sum.values, &sum.list, limits) {
                Ok(answer) => assert_eq!(answer, None, "{limits:?} {parts:?}"),
                Err(row) => {
                    assert_eq!(row, (4, 0));
                    continue;
                }
            }
            judged += 1;
        }
    }
    assert!(judged > 5_000, "{judged}");
}
