//! Tolerances with a part above and a part below: samples exactly at their part and beyond it, lists that depend
//! on both parts, the size of greedy lists, slopes that are barely left, and parts that are equal as numbers.

use kovrelna::{Tolerance, GAP_MAX};
use kovrelna_evidence::cases::unequal_parts;
use kovrelna_evidence::compare::{
    exactly, exactly_parts, given, hold, judge, parts, ratio, reduce, report, scan, write,
};
use kovrelna_evidence::measures::judged;
use kovrelna_evidence::reductions::{lists, size_bound_of_all, size_bounds, tolerances};
use kovrelna_reference::generate::{
    any_limited, any_list, any_ratio, crate_of, just_above, just_below, written, Random, Trace,
};
use kovrelna_reference::Method::Minimum;
use kovrelna_reference::{kept_lists, link_parts, Fraction, Parts, Side, TRIED};

use crate::{small_traces, SMALL_PARTS};

/// A sample exactly at its part, and one beyond it on either side: ticks, the values of both ends, the least and
/// the greatest middle value that is within the parts, and the parts above and below.
#[test]
fn exactly_at_each_part() {
    type Case = ([u32; 3], [i16; 2], (i32, i32), (u64, u64), (u64, u64));
    const Q: u64 = 1_048_575;
    let cases: [Case; 11] = [
        ([0, 1, 2], [0, 0], (-3, 5), (5, 1), (3, 1)),
        ([0, 1, 2], [0, 0], (0, 5), (5, 1), (0, 1)),
        ([0, 1, 2], [0, 0], (-5, 0), (0, 1), (5, 1)),
        ([0, 1, 2], [0, 0], (-4, 2), (3 * Q - 1, Q), (5 * Q - 1, Q)),
        // A third of a count, over unlike denominators.
        ([0, 1, 3], [0, 1], (0, 1), (2, 3), (1, 3)),
        ([0, 1, 3], [0, 1], (0, 0), (699_049, Q - 1), (1, 3)),
        ([0, 1, 3], [0, 1], (1, 1), (2, 3), (349_524, Q - 1)),
        ([0, 1, 3], [0, 1], (0, 1), (2 * Q / 3, Q), (349_525, Q - 1)),
        ([0, 1, 1_048_575], [0, 1], (0, 0), (0, 1), (1, Q)),
        (
            [0, 1, 2],
            [-32_768, -32_768],
            (-32_768, 32_766),
            (65_534, 1),
            (0, 1),
        ),
        (
            [0, 1, 2],
            [32_767, 32_767],
            (-32_767, 32_767),
            (0, 1),
            (65_534, 1),
        ),
    ];
    for (ticks, ends, (least, greatest), above, below) in cases {
        for value in [least - 1, least, greatest, greatest + 1] {
            let Ok(middle) = i16::try_from(value) else {
                continue;
            };
            let expected = match (value < least, value > greatest) {
                (true, _) => Some(Side::Below),
                (_, true) => Some(Side::Above),
                _ => None,
            };
            let values = [ends[0], middle, ends[1]];
            let tolerance = parts(above, below);
            let answer = judge(&ticks, &values, &[0, 2], tolerance).unwrap();
            let side = answer.map(|invalid| invalid.measure.side);
            assert_eq!(side, expected, "{values:?} {tolerance:?}");
            let kept = reduce(Minimum, &ticks, &values, tolerance, 3).unwrap().list;
            assert_eq!(kept.len(), if side.is_none() { 2 } else { 3 });
            let turned = values.map(|value| -1 - value);
            let exchanged = judge(&ticks, &turned, &[0, 2], parts(below, above)).unwrap();
            assert_eq!(exchanged.is_some(), side.is_some());
        }
    }
}

/// Links with the same error above and below: at every two parts of which each is above it, exactly it or just
/// below it, a link is valid exactly if its own side's part is not below.
#[test]
fn one_part_alone() {
    let random = &mut Random::new(61);
    for _ in 0..2_000 {
        let height = random.within(1, 30_000) as i16;
        let error = Fraction {
            p: height.into(),
            q: 1,
        };
        let (ticks, low, high) = ([3, 4, 5], [0, -height, 0], [0, height, 0]);
        let near = [
            just_below(error),
            error,
            just_above(error),
            any_ratio(random),
        ];
        for above in near {
            for below in near {
                let tolerance = exactly_parts(Parts { above, below });
                let passes = |values: &[i16]| judge(&ticks, values, &[0, 2], tolerance) == Ok(None);
                assert_eq!(passes(&high), error.at_most(above), "{tolerance:?}");
                assert_eq!(passes(&low), error.at_most(below), "{tolerance:?}");
            }
        }
    }
}

/// Exceptional and squeezed traces. A list that is valid with the smaller part for both is valid with the parts,
/// and one that is valid with these is with the larger part for both: so minimum keeps no fewer samples than at
/// the larger part, and no more than at the smaller.
#[test]
fn random_traces() {
    let random = &mut Random::new(62);
    // Equal parts, and unequal ones; of these lists that are others at the smaller part for both, at the larger,
    // and with the parts exchanged; minimum is shorter than both others.
    let mut seen = [0; 6];
    for _ in 0..6_000 {
        let (trace, tolerance, kept) = unequal_parts(random);
        let samples = trace.ticks.len();
        if tolerance.one().is_some() {
            seen[0] += 1;
            continue;
        }
        seen[1] += 1;
        let (smaller, larger) = (tolerance.smaller(), tolerance.larger());
        // Without the gap limit that `unequal_parts` may have drawn.
        let free = lists(&trace, exactly_parts(tolerance), samples);
        let at_smaller = lists(&trace, exactly(smaller), samples);
        let at_larger = lists(&trace, exactly(larger), samples);
        assert!(at_larger[2].len() <= free[2].len(), "{trace:?}");
        assert!(free[2].len() <= at_smaller[2].len(), "{trace:?}");
        let Trace { ticks, values } = &trace;
        assert_eq!(judge(ticks, values, &free[2], exactly(larger)), Ok(None));
        for list in &at_smaller {
            let judged = judge(ticks, values, list, exactly_parts(tolerance));
            assert_eq!(judged, Ok(None), "{trace:?}");
        }
        seen[2] += usize::from(free != at_smaller);
        seen[3] += usize::from(free != at_larger);
        let exchanged = lists(&trace, exactly_parts(tolerance.exchanged()), samples);
        seen[4] += usize::from(free != exchanged);
        seen[5] += usize::from(kept[2].len() < kept[0].len().min(kept[1].len()));
    }
    assert!(seen.iter().all(|&count| count > 100), "{seen:?}");
}

/// Every small trace with unequal parts. No kept list whose samples lie at most a above and at most b below its
/// lines, where a and b are together at most the smaller part, is shorter than a greedy list. A list of both ends
/// may be, where a and b are at most half of each part, where they are together at most the larger part, and
/// where each is at most the smaller.
#[test]
fn every_small_trace() {
    let (mut within, mut shorter) = (0, [0; 3]);
    for trace in small_traces() {
        let samples = trace.ticks.len();
        for (above, below) in SMALL_PARTS {
            let tolerance = parts(above, below);
            let kept = lists(&trace, tolerance, samples);
            within += size_bound_of_all(&trace, tolerance, &kept[..2]);
            if kept[0].len() > 2 || kept[1].len() > 2 {
                let held = hold(tolerance).unwrap();
                let Parts { above, below } =
                    link_parts(&trace.ticks, &trace.values, 0, samples - 1);
                let each = |u, d| above.at_most(u) && below.at_most(d);
                let half_of_each = each(held.above.half(), held.below.half());
                shorter[0] += usize::from(half_of_each);
                shorter[1] += usize::from(above.plus(below).at_most(held.larger()));
                shorter[2] += usize::from(each(held.smaller(), held.smaller()));
            }
        }
    }
    assert!(within > 20_000, "{within}");
    assert!(shorter.iter().all(|&count| count > 10), "{shorter:?}");
}

/// Traces of up to 9 samples, of every kind and shape, with holes and without: the size of greedy lists against
/// every kept list, and minimum's against every kept list that judge passes.
#[test]
fn every_kept_list() {
    let random = &mut Random::new(63);
    // Lists that the bound speaks of, at unequal parts of which neither is 0, and at others.
    let mut within = [0; 2];
    for _ in 0..1_200 {
        let samples = random.within(3, 9) as usize;
        let (trace, gap) = any_limited(samples, random);
        for tolerance in tolerances(&trace, random) {
            let limits = tolerance.with_gap(gap);
            let kept = lists(&trace, limits, samples);
            let held = hold(tolerance).unwrap();
            let both = held.one().is_none() && held.smaller().p > 0;
            within[usize::from(both)] += size_bound_of_all(&trace, limits, &kept[..2]);
            let passed = |list: &Vec<u16>| judged(&trace, list, limits).is_none();
            let shortest = kept_lists(samples).filter(passed).map(|list| list.len());
            assert_eq!(shortest.min(), Some(kept[2].len()), "{limits:?} {trace:?}");
        }
    }
    assert!(within.iter().all(|&count| count > 3_000), "{within:?}");
}

/// The line through tick 0 and value 0 and through tick n = a b and value 1, and on to 2 n, 3 n, ..; beside it a
/// sample at value 1 that lies above it by a fraction over a, and one at value 0 that lies below it by a fraction
/// over b, in either order. With exactly these parts, at which its slope alone is left, and with parts just above
/// them, whose denominators are great and unlike, both ends are kept alone; with either part just below they are
/// not, however little the other is above.
#[test]
fn slopes_barely_left() {
    for (a, b) in [(2, 3), (5, 7), (16, 15), (128, 127), (1_025, 1_023)] {
        let n: u32 = a * b;
        let periods = (1_048_575 / n).min(5);
        for (above_at, below_at) in [(1, 1), (1, a / 2 + 1), (b / 3 + 1, 1), (b - 1, a - 1)] {
            // Heights above the line are 1 - t/n, with t a multiple of b; depths are t/n, with t one of a.
            let (high, low) = (b * above_at.min(a - 1), a * below_at.min(b - 1));
            let mut samples = vec![(0, 0), (high, 1), (low, 0)];
            samples.extend((1..=periods).map(|period| (n * period, period as i16)));
            samples.sort();
            let (ticks, values) = samples.into_iter().unzip();
            let trace = Trace { ticks, values };
            let last = trace.ticks.len() - 1;
            let least = link_parts(&trace.ticks, &trace.values, 0, last);
            assert_eq!(i128::from(a) % least.above.q, 0);
            assert_eq!(i128::from(b) % least.below.q, 0);
            let kept = |above, below| {
                let tolerance = exactly_parts(Parts { above, below });
                let kept = lists(&trace, tolerance, last + 1);
                size_bounds(&trace, tolerance, &kept);
                if last < TRIED {
                    size_bound_of_all(&trace, tolerance, &kept[..2]);
                }
                kept[2].clone()
            };
            let Parts { above, below } = least;
            let ends = vec![0, last as u16];
            assert_eq!(kept(above, below), ends, "{trace:?}");
            let wider = |part: Fraction| [just_above(part), near(part, 1_048_574)];
            for (above, below) in [
                (just_above(above), below),
                (above, just_above(below)),
                (just_above(above), near(below, 1_048_574)),
                (near(above, 1_048_574), just_above(below)),
            ] {
                assert_eq!(kept(above, below), ends, "{trace:?}");
            }
            for wide in wider(above) {
                assert_ne!(kept(wide, just_below(below)), ends, "{trace:?}");
            }
            for wide in wider(below) {
                assert_ne!(kept(just_below(above), wide), ends, "{trace:?}");
            }
        }
    }
}

/// The least fraction above p/q with this denominator.
fn near(Fraction { p, q }: Fraction, denominator: i128) -> Fraction {
    Fraction {
        p: p * denominator / q + 1,
        q: denominator,
    }
}

/// Long traces beside a line, within parts of their own: with exactly these the last sample is a valid end of the
/// first, however early the others leave no other slope; with the parts exchanged it is none.
#[test]
fn long_lines() {
    let random = &mut Random::new(64);
    for (samples, height, depth, slope) in [
        (500, 1, 3, 0),
        (500, 3, 1, 1),
        (500, 0, 2, 1),
        (500, 2, 0, 0),
        (4_096, 2, 5, 1),
    ] {
        let last = samples - 1;
        let mut values: Vec<i16> = (0..samples)
            .map(|k| slope * k as i16 + random.within(-depth, height) as i16)
            .collect();
        (values[0], values[last]) = (0, slope * last as i16);
        let trace = Trace {
            ticks: (0..samples as u32).map(|k| 35 * k).collect(),
            values,
        };
        let least = link_parts(&trace.ticks, &trace.values, 0, last);
        let [.., minimum] = lists(&trace, exactly_parts(least), samples);
        assert_eq!(minimum, [0, last as u16]);
        let [.., minimum] = lists(&trace, exactly_parts(least.exchanged()), samples);
        assert!(minimum.len() > 2);
    }
}

/// Parts that are equal as numbers, however they are written, give what one tolerance gives: in judge, the
/// reductions, the writer, a scan and a report.
#[test]
fn equal_parts() {
    let random = &mut Random::new(65);
    let mut rewritten = 0;
    for _ in 0..1_500 {
        let samples = random.within(1, 30) as usize;
        let (trace, gap) = any_limited(samples, random);
        let Trace { ticks, values } = &trace;
        let list = any_list(ticks, gap, random);
        for tolerance in tolerances(&trace, random) {
            let Some(one) = hold(tolerance).unwrap().one() else {
                continue;
            };
            let both = given(written(one.into(), random));
            let one = exactly(one);
            rewritten += usize::from(both != exactly_parts(hold(both).unwrap()));
            assert_eq!(hold(both), hold(one));
            let [both, one] = [both, one].map(|tolerance| tolerance.with_gap(gap));
            let input = || format!("{both:?} {trace:?}");
            let judged = |limits| judge(ticks, values, &list, limits);
            assert_eq!(judged(both), judged(one), "{}", input());
            assert_eq!(lists(&trace, both, samples), lists(&trace, one, samples));
            let size = 21 + 6 * list.len();
            let written = |limits| write(ticks, values, &list, limits, size, 0);
            assert_eq!(written(both), written(one), "{}", input());
            let tolerances = [both.tolerance, one.tolerance];
            let scanned = scan(ticks, values, &tolerances, gap, 2 * samples).unwrap();
            assert_eq!(scanned[0], scanned[1], "{}", input());
            let channels = crate_of(std::slice::from_ref(&trace));
            let reported = |limits| report(&channels, limits, 1);
            assert_eq!(reported(both), reported(one), "{}", input());
        }
    }
    assert!(rewritten > 300, "{rewritten}");
}

/// The greatest parts and 0, on either side of the greatest values.
#[test]
fn greatest_parts() {
    const MIN: i16 = i16::MIN;
    const MAX: i16 = i16::MAX;
    let greatest = (65_535, 1);
    for values in [
        [MIN, MAX, MIN, MAX, MIN],
        [MAX, MIN, MAX, MIN, MAX],
        [MIN, MIN, MAX, MAX, MIN],
        [MAX, MAX, MIN, MIN, MAX],
        [MIN, MAX, MAX, MAX, MAX],
        [MAX, MIN, MIN, MIN, MIN],
    ] {
        for ticks in [
            [0, 1, 2, 3, 4],
            [0, 1, 2, 3, 1_048_575],
            [0, 1_048_572, 1_048_573, 1_048_574, 1_048_575],
        ] {
            let trace = Trace {
                ticks: ticks.to_vec(),
                values: values.to_vec(),
            };
            for (above, below) in [
                (greatest, (0, 1)),
                ((0, 1), greatest),
                (greatest, (65_535 * 1_048_575 - 1, 1_048_575)),
                ((65_535 * 1_048_574 - 1, 1_048_574), greatest),
                (
                    (65_535 * 1_048_574 - 1, 1_048_574),
                    (65_535 * 1_048_575 - 1, 1_048_575),
                ),
                ((1, 1_048_575), (1, 1_048_574)),
                ((1, 1_048_575), greatest),
            ] {
                let tolerance: Tolerance = parts(above, below);
                for limits in [tolerance.with_gap(GAP_MAX), tolerance.with_gap(1)] {
                    let kept = lists(&trace, limits, 5);
                    size_bounds(&trace, limits, &kept);
                    size_bound_of_all(&trace, limits, &kept[..2]);
                }
            }
            assert_eq!(lists(&trace, ratio(65_535, 1), 5), [[0, 4]; 3]);
        }
    }
}
