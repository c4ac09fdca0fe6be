use kovrelna::GAP_MAX;
use kovrelna_evidence::cases::judge_list;
use kovrelna_evidence::compare::{judge, ratio};
use kovrelna_reference::generate::{any_list, gap_limit, trace, Random, Trace, KINDS};
use kovrelna_reference::Side;

use crate::{invalid, SMALL_TOLERANCES};

#[test]
fn random_traces() {
    let random = &mut Random::new(5);
    // Traces of some kinds have no straight part.
    let mut without_error = 0;
    for kind in KINDS {
        let mut answers = [0; 6];
        for _ in 0..3_000 {
            let samples = random.within(1, 40) as usize;
            let trace = trace(kind, samples, random);
            let gap = gap_limit(&trace.ticks, random);
            let list = any_list(&trace.ticks, gap, random);
            judge_list(&trace, gap, &list, random, &mut answers);
        }
        let [yes, tolerance, gap_without_error, gap, both, within] = answers;
        assert!(
            [yes, tolerance, gap, both]
                .iter()
                .all(|&count| count > 1_000)
                && within > 200,
            "{kind:?} {answers:?}"
        );
        without_error += gap_without_error;
    }
    assert!(without_error > 1_000, "{without_error}");
}

#[test]
fn long_traces() {
    let random = &mut Random::new(6);
    let mut answers = [0; 6];
    for samples in [1_000, 4_095, 4_096] {
        for kind in KINDS {
            let trace = trace(kind, samples, random);
            let ends = [0, samples as u16 - 1];
            judge_list(&trace, GAP_MAX, &ends, random, &mut answers);
            for _ in 0..10 {
                let gap = gap_limit(&trace.ticks, random);
                let list = any_list(&trace.ticks, gap, random);
                judge_list(&trace, gap, &list, random, &mut answers);
            }
        }
    }
    let [yes, tolerance, _, gap, both, within] = answers;
    assert!(
        [yes, tolerance, gap, both].iter().all(|&count| count > 100) && within > 20,
        "{answers:?}"
    );
}

/// One and two samples: no link has anything between its ends.
#[test]
fn nothing_between() {
    let random = &mut Random::new(7);
    for kind in KINDS {
        for samples in [1, 2] {
            let Trace { ticks, values } = trace(kind, samples, random);
            let list: Vec<u16> = (0..samples as u16).collect();
            let limits = ratio(0, 1).with_gap(1);
            assert_eq!(judge(&ticks, &values, &list, limits), Ok(None));
        }
    }
}

/// A sample whose deviation is exactly the tolerance, and values one beyond it on either side.
#[test]
fn exactly_at_the_tolerance() {
    // Ticks, end values, the least and the greatest middle value within p/q.
    for (ticks, ends, middle, p, q) in [
        ([0, 1, 2], [0, 0], (-5, 5), 5, 1),
        ([0, 1, 3], [0, 1], (0, 0), 1, 3),
        ([0, 1, 3], [0, 1], (0, 1), 2, 3),
        ([0, 1, 1_048_575], [0, 1], (0, 0), 1, 1_048_575),
        ([0, 1_048_574, 1_048_575], [-3, -4], (-4, -4), 1, 1_048_575),
        ([0, 1, 2], [-32_768, -32_768], (-32_768, 32_766), 65_534, 1),
        ([0, 1, 2], [32_767, 32_767], (-32_767, 32_767), 65_534, 1),
        ([0, 1, 2], [-32_768, 32_767], (-1, 0), 1, 2),
        (
            [0, 524_287, 1_048_575],
            [-32_768, 32_767],
            (-1, 0),
            557_055,
            1_048_575,
        ),
        (
            [0, 524_287, 1_048_575],
            [-32_768, 32_767],
            (-1, -1),
            557_054,
            1_048_575,
        ),
        (
            [0, 524_287, 1_048_575],
            [-32_768, 32_767],
            (-1, -1),
            491_520,
            1_048_575,
        ),
    ] {
        let (least, greatest) = middle;
        for (value, expected) in [
            (least - 1, Some((0, 1, Side::Below))),
            (least, None),
            (greatest, None),
            (greatest + 1, Some((0, 1, Side::Above))),
        ] {
            let Ok(value) = i16::try_from(value) else {
                continue;
            };
            let values = [ends[0], value, ends[1]];
            let answer = judge(&ticks, &values, &[0, 2], ratio(p, q)).unwrap();
            let answer = answer.map(|at| (at.link, at.measure.sample, at.measure.side));
            assert_eq!(answer, expected, "{ticks:?} {values:?} {p}/{q}");
        }
    }
}

/// Of several invalid links the first is named.
#[test]
fn the_first_invalid_link() {
    let ticks: Vec<u32> = (0..9).collect();
    let values = [0, 1, 0, 2, 0, 3, 0, 4, 0];
    let list = [0, 2, 4, 6, 8];
    for (p, expected) in [
        (0, Some(invalid(0, (1, 1), 1, Side::Above))),
        (1, Some(invalid(1, (2, 1), 3, Side::Above))),
        (2, Some(invalid(2, (3, 1), 5, Side::Above))),
        (3, Some(invalid(3, (4, 1), 7, Side::Above))),
        (4, None),
    ] {
        assert_eq!(judge(&ticks, &values, &list, ratio(p, 1)), Ok(expected));
    }
    let falling: Vec<i16> = values.iter().rev().copied().collect();
    let first = Some(invalid(0, (4, 1), 1, Side::Above));
    for (p, expected) in [(0, first), (1, first), (3, first), (4, None)] {
        assert_eq!(judge(&ticks, &falling, &list, ratio(p, 1)), Ok(expected));
    }
}

/// Every trace of four samples with values from -2 to 2, every kept list.
#[test]
fn every_small_trace() {
    for ticks in [[0, 1, 2, 3], [5, 6, 8, 9], [0, 2, 3, 6]] {
        for digits in 0..5i16.pow(4) {
            let values = [1, 5, 25, 125].map(|place| digits / place % 5 - 2);
            for list in [&[0, 3][..], &[0, 1, 3], &[0, 2, 3], &[0, 1, 2, 3]] {
                for (p, q) in SMALL_TOLERANCES {
                    judge(&ticks, &values, list, ratio(p, q)).unwrap();
                }
            }
        }
    }
}
