use kovrelna::{Tolerance, GAP_MAX};
use kovrelna_evidence::compare::{exactly_parts, judge_greedy, parts, ratio};
use kovrelna_evidence::greedy::{judge_lists, judged_greedy, passing_lists};
use kovrelna_evidence::reductions::{lists, size_bound_of_all, tolerances};
use kovrelna_reference::generate::{
    any_limited, exceptional, gap_limit, trace, Random, Trace, KINDS,
};
use kovrelna_reference::Fault::{self, Link, Stop};
use kovrelna_reference::{list_obeys, list_parts, GreedyFault};

use crate::{small_traces, SMALL_PARTS, SMALL_TOLERANCES};

fn at(link: usize, fault: Fault) -> Option<GreedyFault> {
    Some(GreedyFault { link, fault })
}

/// The trace with these values at the ticks 0, 1, 2 and so on.
fn even(values: &[i16]) -> Trace {
    Trace {
        ticks: (0..values.len() as u32).collect(),
        values: values.to_vec(),
    }
}

#[test]
fn figures() {
    let (zigzag, wave) = (even(&[0, 3, 0, 3, 0]), even(&[0, 2, 0, -2, 0]));
    let two = ratio(2, 1);
    type Case<'a> = (&'a Trace, Tolerance, &'a [u16], Option<GreedyFault>);
    let cases: [Case; 15] = [
        (&zigzag, two, &[0, 1, 2, 3, 4], None),
        (&zigzag, two, &[0, 3, 4], None),
        (&zigzag, two, &[0, 1, 4], None),
        (&zigzag, two, &[0, 4], at(0, Link)),
        (&zigzag, two, &[0, 1, 3, 4], at(1, Link)),
        (&zigzag, two, &[0, 1, 2, 4], at(2, Link)),
        (&zigzag, ratio(3, 1), &[0, 4], None),
        (&wave, two, &[0, 2, 4], None),
        (&wave, two, &[0, 4], None),
        (&wave, two, &[0, 1, 4], at(0, Stop)),
        (&wave, two, &[0, 3, 4], at(0, Link)),
        (&wave, two, &[0, 2, 3, 4], at(1, Stop)),
        // What walk keeps where the parts differ.
        (&wave, parts((2, 1), (1, 1)), &[0, 2, 3, 4], None),
        (&wave, parts((1, 1), (2, 1)), &[0, 2, 3, 4], at(0, Link)),
        (&wave, parts((1, 1), (2, 1)), &[0, 1, 3, 4], None),
    ];
    for (trace, tolerance, list, expected) in cases {
        let found = judged_greedy(trace, list, tolerance);
        assert_eq!(found, expected, "{list:?} {tolerance:?} {trace:?}");
    }
}

/// The link to the next sample is asked for, not the one to the next kept sample: that one is invalid after
/// sample 1 of the list 0 1 3 4, which has more samples than a list at most 1 above and 0 below its lines.
#[test]
fn the_next_sample() {
    let trace = even(&[-2, 0, 2, 2, 0]);
    let one = ratio(1, 1);
    assert_eq!(judged_greedy(&trace, &[0, 1, 3, 4], one), at(0, Stop));
    assert_eq!(judged_greedy(&trace, &[0, 3, 4], one), at(0, Link));
    let shorter = list_parts(&trace.ticks, &trace.values, &[0, 2, 4]);
    assert_eq!((shorter.above.p, shorter.below.p), (1, 0));
}

/// Gallop may keep more samples than walk, or fewer; both lists pass.
#[test]
fn walk_and_gallop() {
    for (values, p, [walk, gallop]) in [
        (
            &[2, -2, -1, 0, -2, 2, -1][..],
            3,
            [&[0, 2, 6][..], &[0, 4, 5, 6]],
        ),
        (&[0, 2, 0, -2, 0], 2, [&[0, 2, 4], &[0, 4]]),
    ] {
        let trace = even(values);
        let kept = lists(&trace, ratio(p, 1), values.len());
        assert_eq!(kept[..2], [walk, gallop], "{values:?}");
        for list in [walk, gallop] {
            assert_eq!(judged_greedy(&trace, list, ratio(p, 1)), None, "{values:?}");
        }
    }
}

/// One and two samples have no stop but the last sample, and no link of more than one step.
#[test]
fn shortest_traces() {
    for samples in [1, 2] {
        let (ticks, values) = (&[5, 1_048_580][..samples], &[-9, 9][..samples]);
        let list = &[0, 1][..samples];
        let limits = ratio(0, 1).with_gap(1);
        assert_eq!(judge_greedy(ticks, values, list, limits), Ok(None));
    }
}

/// Samples 2 and 3 lie 8 ticks apart: the gap limit alone makes links valid or not, also those to the sample
/// after a stop.
#[test]
fn holes() {
    let trace = Trace {
        ticks: vec![0, 1, 2, 10, 11, 12],
        values: vec![0; 6],
    };
    for (gap, list, expected) in [
        (7, &[0, 2, 3, 5][..], None),
        (7, &[0, 1, 2, 3, 5], at(0, Stop)),
        (7, &[0, 2, 3, 4, 5], at(2, Stop)),
        (7, &[0, 2, 5], at(1, Link)),
        (7, &[0, 3, 5], at(0, Link)),
        (7, &[0, 5], at(0, Link)),
        (8, &[0, 2, 3, 5], at(0, Stop)),
        (8, &[0, 5], None),
        (GAP_MAX, &[0, 5], None),
    ] {
        let limits = ratio(0, 1).with_gap(gap);
        assert_eq!(
            judged_greedy(&trace, list, limits),
            expected,
            "{gap} {list:?}"
        );
    }
}

/// Of several faults the first is named, whichever it is: steps up and down by 9, and between them level
/// stretches that are cut in two.
#[test]
fn the_first_fault() {
    let trace = even(&[0, 0, 0, 9, 9, 9, 0, 0, 0, 9]);
    for (list, expected) in [
        (&[0, 2, 3, 5, 6, 8, 9][..], None),
        (&[0, 1, 2, 3, 5, 6, 9], at(0, Stop)),
        (&[0, 2, 3, 4, 6, 8, 9], at(2, Stop)),
        (&[0, 2, 3, 6, 7, 8, 9], at(2, Link)),
        (&[0, 2, 3, 5, 6, 7, 9], at(4, Stop)),
        (&[0, 2, 3, 5, 6, 9], at(4, Link)),
        (&[0, 9], at(0, Link)),
    ] {
        assert_eq!(
            judged_greedy(&trace, list, ratio(0, 1)),
            expected,
            "{list:?}"
        );
    }
}

#[test]
fn random_traces() {
    let random = &mut Random::new(71);
    for kind in KINDS {
        let mut answers = [[0; 3]; 2];
        for _ in 0..1_000 {
            let samples = random.within(1, 40) as usize;
            let trace = trace(kind, samples, random);
            let gap = gap_limit(&trace.ticks, random);
            let gap = random.choose(&[gap, GAP_MAX]);
            for tolerance in tolerances(&trace, random) {
                judge_lists(&trace, tolerance.with_gap(gap), random, &mut answers);
            }
        }
        let few = answers.concat().iter().any(|&count| count < 1_000);
        assert!(!few, "{kind:?} {answers:?}");
    }
}

/// Traces with holes, and traces on which wrong readings of unequal parts differ from the right one.
#[test]
fn holes_and_parts() {
    let random = &mut Random::new(72);
    let mut answers = [[0; 3]; 2];
    for _ in 0..1_500 {
        let (trace, gap) = any_limited(random.within(3, 60) as usize, random);
        for tolerance in tolerances(&trace, random) {
            judge_lists(&trace, tolerance.with_gap(gap), random, &mut answers);
        }
        let (trace, parts) = exceptional(random);
        judge_lists(&trace, exactly_parts(parts), random, &mut answers);
    }
    let few = answers.concat().iter().any(|&count| count < 1_000);
    assert!(!few, "{answers:?}");
}

#[test]
fn long_traces() {
    let random = &mut Random::new(73);
    let mut answers = [[0; 3]; 2];
    for samples in [1_000, 4_095, 4_096] {
        for kind in KINDS {
            let trace = trace(kind, samples, random);
            let gap = gap_limit(&trace.ticks, random);
            for tolerance in tolerances(&trace, random) {
                judge_lists(&trace, tolerance, random, &mut answers);
                judge_lists(&trace, tolerance.with_gap(gap), random, &mut answers);
            }
        }
    }
    let few = answers.concat().iter().any(|&count| count < 30);
    assert!(!few, "{answers:?}");
}

/// Every small trace and every kept list: no list that passes has more samples than a kept list at most a
/// above and at most b below its lines, where a and b are together at most the smaller part.
#[test]
fn every_small_trace() {
    let (mut passed, mut within) = (0, 0);
    let one = SMALL_TOLERANCES.map(|(p, q)| ratio(p, q));
    let two = SMALL_PARTS.map(|(above, below)| parts(above, below));
    for trace in small_traces() {
        for tolerance in one.into_iter().chain(two) {
            let passing = passing_lists(&trace, tolerance);
            passed += passing.len();
            within += size_bound_of_all(&trace, tolerance, &passing);
        }
    }
    assert!(passed > 40_000 && within > 90_000, "{passed} {within}");
}

/// The same of traces of up to 7 samples of every kind and shape, under gap limits. A list that does not obey
/// the gap limit may be shorter.
#[test]
fn every_kept_list() {
    let random = &mut Random::new(74);
    // Lists that pass and are neither walk's nor gallop's.
    let mut others = 0;
    for _ in 0..1_500 {
        let samples = random.within(1, 7) as usize;
        let (trace, gap) = any_limited(samples, random);
        for tolerance in tolerances(&trace, random) {
            let limits = tolerance.with_gap(gap);
            let passing = passing_lists(&trace, limits);
            size_bound_of_all(&trace, limits, &passing);
            let [walk, gallop, _] = lists(&trace, limits, samples);
            assert!(passing.contains(&walk) && passing.contains(&gallop));
            others += passing
                .iter()
                .filter(|&list| *list != walk && *list != gallop)
                .count();
        }
    }
    assert!(others > 100, "{others}");
    let (ticks, under) = ([0, 2, 3], ratio(0, 1).with_gap(1));
    assert_eq!(judge_greedy(&ticks, &[0; 3], &[0, 1, 2], under), Ok(None));
    assert!(!list_obeys(&ticks, &[0, 2], Some(1)));
}
