//! Gap limits, on traces with holes in every place.

use kovrelna::GAP_MAX;
use kovrelna_evidence::compare::{judge, ratio, reduce, write};
use kovrelna_evidence::reductions::{
    any_tolerance, least_list, lists, shortest_lists, size_bounds, tolerances,
};
use kovrelna_reference::generate::{any_trace, gap_limit, with_holes, Holes, Random, Trace, HOLES};
use kovrelna_reference::{kept_lists, Side, METHODS, TRIED};

use crate::{invalid, SMALL_TOLERANCES};

#[test]
fn random_traces() {
    let random = &mut Random::new(37);
    for holes in HOLES {
        // Lists that are those without a gap limit, and others; walk and gallop differ; minimum is
        // shorter.
        let mut seen = [0; 4];
        for _ in 0..1_000 {
            let samples = random.within(1, 40) as usize;
            let (trace, gap) = with_holes(holes, samples, random);
            for tolerance in tolerances(&trace, random) {
                let limits = tolerance.with_gap(gap);
                let room = samples + random.choose(&[0, 0, 1, 7]);
                let kept = lists(&trace, limits, room);
                size_bounds(&trace, limits, &kept);
                let changed = kept != lists(&trace, tolerance, samples);
                seen[usize::from(changed)] += 1;
                let [walk, gallop, minimum] = kept;
                seen[2] += usize::from(walk != gallop);
                seen[3] += usize::from(minimum.len() < walk.len().min(gallop.len()));
            }
        }
        let expected = match holes {
            // Without a hole the gap limit changes nothing.
            Holes::Nowhere => seen[0] > 500 && seen[1] == 0 && seen[2] > 50 && seen[3] > 50,
            // Where every step is a hole all samples are kept.
            Holes::Everywhere => seen[0] > 50 && seen[1] > 500 && seen[2] == 0 && seen[3] == 0,
            _ => {
                seen[..2].iter().all(|&count| count > 100)
                    && seen[2..].iter().all(|&count| count > 50)
            }
        };
        assert!(expected, "{holes:?} {seen:?}");
    }
}

#[test]
fn long_traces() {
    let random = &mut Random::new(38);
    for samples in [200, 1_000, 4_096] {
        for holes in HOLES {
            let (trace, gap) = with_holes(holes, samples, random);
            for tolerance in tolerances(&trace, random) {
                let limits = tolerance.with_gap(gap);
                let kept = lists(&trace, limits, samples);
                if samples == 200 {
                    size_bounds(&trace, limits, &kept);
                }
            }
        }
    }
}

/// Traces so short that every kept list is tried: minimum's is the last of the shortest that judge passes.
#[test]
fn shortest() {
    let random = &mut Random::new(39);
    for holes in HOLES {
        for _ in 0..150 {
            let samples = random.within(1, TRIED as i64) as usize;
            let (trace, gap) = with_holes(holes, samples, random);
            for tolerance in tolerances(&trace, random) {
                let limits = tolerance.with_gap(gap);
                let [.., minimum] = lists(&trace, limits, samples);
                shortest_lists(&trace, limits, &minimum);
            }
        }
    }
}

/// From the longest step of the trace on, a gap limit changes nothing. One tick below it, it changes the
/// lists at the greatest tolerance, which keeps both ends alone, if there is a sample between them.
#[test]
fn from_the_longest_step_on() {
    let random = &mut Random::new(40);
    for _ in 0..2_000 {
        let samples = random.within(2, 30) as usize;
        let trace = any_trace(samples, random);
        let longest = trace.ticks.windows(2).map(|step| step[1] - step[0]).max();
        let longest = longest.unwrap();
        let tolerance = any_tolerance(random);
        let unlimited = lists(&trace, tolerance, samples);
        for gap in [longest, (longest + 1).min(GAP_MAX), GAP_MAX] {
            let kept = lists(&trace, tolerance.with_gap(gap), samples);
            assert_eq!(kept, unlimited, "{gap} {trace:?}");
        }
        if longest > 1 {
            let greatest = ratio(65_535, 1);
            let kept = lists(&trace, greatest.with_gap(longest - 1), samples);
            let changed = kept != lists(&trace, greatest, samples);
            assert_eq!(changed, samples > 2, "{longest} {trace:?}");
        }
    }
}

/// A link of three steps, of which one is longer than the others: under a gap limit of exactly its ticks
/// the link is valid, under one less it is not, wherever the step is and whatever its ticks. The link is
/// the first, the second or the third of a list, and its position is named, with the sample before the
/// step. Links of one step are valid.
#[test]
fn exactly_the_limit() {
    for step in [2, 3, 255, 256, 65_536, 1_048_569] {
        for longer in 0..3 {
            for position in 0..3u16 {
                let from = usize::from(position);
                let mut ticks = vec![7];
                for k in 0..5 {
                    let advance = if k == from + longer { step } else { 1 };
                    ticks.push(ticks[k] + advance);
                }
                let values = vec![3; 6];
                let list: Vec<u16> = (0..6)
                    .filter(|k| ![position + 1, position + 2].contains(k))
                    .collect();
                let under = |gap| ratio(1, 2).with_gap(gap);
                let judged = |gap| judge(&ticks, &values, &list, under(gap));
                let written = |gap| write(&ticks, &values, &list, under(gap), 50, 1);
                let input = || format!("{ticks:?} {list:?}");
                assert_eq!(judged(step), Ok(None), "{}", input());
                let record = written(step).unwrap();
                assert_eq!(written(GAP_MAX).as_ref(), Ok(&record), "{}", input());
                let hole = invalid(from, (0, 1), from + longer, Side::Gap);
                assert_eq!(judged(step - 1), Ok(Some(hole)), "{}", input());
                assert_eq!(written(step - 1), Err((7, from as u64)), "{}", input());
                let all: Vec<u16> = (0..6).collect();
                assert_eq!(judge(&ticks, &values, &all, under(1)), Ok(None));
            }
        }
    }
}

/// A link of five steps with one hole or two and one sample beside the line: as long as that sample is within
/// the tolerance, the first hole is named, otherwise the sample.
#[test]
fn holes_and_the_tolerance() {
    for (one, two) in (0..5).flat_map(|one| (one..5).map(move |two| (one, two))) {
        let mut ticks = vec![7];
        for k in 0..5 {
            let step = if k == one || k == two { 5 } else { 4 - k % 2 };
            ticks.push(ticks[k] + step as u32);
        }
        for sample in 1..5 {
            for height in [-3i16, -1, 0, 1, 3] {
                let mut values = [-9; 6];
                values[sample] += height;
                let error = (height.abs().into(), 1);
                for p in [0, 1, 2, 3, 65_535] {
                    let expected = match height {
                        _ if height.unsigned_abs() <= p => invalid(0, error, one, Side::Gap),
                        1.. => invalid(0, error, sample, Side::Above),
                        _ => invalid(0, error, sample, Side::Below),
                    };
                    let limits = ratio(p.into(), 1).with_gap(4);
                    let judged = judge(&ticks, &values, &[0, 5], limits);
                    assert_eq!(judged, Ok(Some(expected)), "{ticks:?} {values:?} {p}");
                }
            }
        }
    }
}

/// Of several invalid links the first is named, whether a hole or the tolerance makes it so.
#[test]
fn the_first_invalid_link() {
    // Links 0 and 2 have the error 1, link 1 crosses a step of 3 ticks and link 3 one of 4.
    let ticks = [0, 1, 2, 5, 6, 7, 8, 9, 13];
    let values = [0, 1, 0, 0, 0, 1, 0, 0, 0];
    let list = [0, 2, 4, 6, 8];
    for (p, gap, expected) in [
        (0, 1, Some(invalid(0, (1, 1), 1, Side::Above))),
        (0, 4, Some(invalid(0, (1, 1), 1, Side::Above))),
        (1, 2, Some(invalid(1, (0, 1), 2, Side::Gap))),
        (1, 3, Some(invalid(3, (0, 1), 7, Side::Gap))),
        (1, 4, None),
    ] {
        let limits = ratio(p, 1).with_gap(gap);
        assert_eq!(
            judge(&ticks, &values, &list, limits),
            Ok(expected),
            "{limits:?}"
        );
        let row = expected.map(|invalid| (7, invalid.link as u64));
        let written = write(&ticks, &values, &list, limits, 50, 0);
        assert_eq!(written.err(), row, "{limits:?}");
    }
}

/// Every trace of four samples with values from -1 to 1 and steps from 1 to 3, every kept list, every
/// allowance and every gap limit that matters.
#[test]
fn every_small_trace() {
    for digits in 0..27 * 81 {
        let digit = |place: u32| digits / 3u32.pow(place) % 3;
        let mut ticks = vec![0];
        for k in 0..3 {
            ticks.push(ticks[k] + 1 + digit(k as u32));
        }
        let values = (3..7).map(|place| digit(place) as i16 - 1).collect();
        let trace = Trace { ticks, values };
        for gap in [1, 2, 3] {
            for (p, q) in SMALL_TOLERANCES {
                let limits = ratio(p, q).with_gap(gap);
                size_bounds(&trace, limits, &lists(&trace, limits, 4));
                for list in kept_lists(4) {
                    judge(&trace.ticks, &trace.values, &list, limits).unwrap();
                }
            }
            for allowance in 2..=4 {
                least_list(&trace, gap, allowance, 4);
            }
        }
    }
}

/// The greatest ticks and steps: two bursts as far apart as can be, and single samples.
#[test]
fn greatest_steps() {
    const MAX: u32 = u32::MAX;
    let far = MAX - 1_048_575;
    for (ticks, longest) in [
        (vec![far, MAX], 1_048_575),
        (vec![far, far + 1, MAX], 1_048_574),
        (vec![far, MAX - 1, MAX], 1_048_574),
        (vec![far, far + 1, MAX - 1, MAX], 1_048_573),
        (vec![far, far + 1, far + 2, MAX], 1_048_573),
        (vec![far, MAX - 2, MAX - 1, MAX], 1_048_573),
        (vec![0, 524_288, 1_048_575], 524_288),
    ] {
        let samples = ticks.len();
        let trace = Trace {
            values: vec![i16::MIN; samples],
            ticks,
        };
        for gap in [
            1,
            longest - 1,
            longest,
            longest.min(GAP_MAX - 1) + 1,
            GAP_MAX,
        ] {
            let limits = ratio(0, 1).with_gap(gap);
            let kept = lists(&trace, limits, samples);
            size_bounds(&trace, limits, &kept);
            let ends_alone = gap >= longest || samples == 2;
            let both = kept.iter().all(|list| list.len() == 2);
            assert_eq!(both, ends_alone, "{gap} {trace:?} {kept:?}");
        }
    }
}

/// A gap limit that is not allowed leaves the output as it was, whatever the trace.
#[test]
fn not_allowed() {
    let random = &mut Random::new(41);
    for _ in 0..300 {
        let samples = random.within(1, 12) as usize;
        let Trace { ticks, values } = any_trace(samples, random);
        let allowed = gap_limit(&ticks, random);
        for (gap, row) in [
            (0, Some((15, 0))),
            (allowed, None),
            (GAP_MAX, None),
            (GAP_MAX + 1, Some((15, 0))),
            (GAP_MAX + 1 + allowed, Some((15, 0))),
            (u32::MAX, Some((15, 0))),
        ] {
            let limits = any_tolerance(random).with_gap(gap);
            for method in METHODS {
                let answer = reduce(method, &ticks, &values, limits, samples);
                assert_eq!(answer.err(), row, "{method:?} {limits:?}");
            }
        }
    }
}
