use kovrelna_evidence::compare::{exactly, parts, ratio, reduce};
use kovrelna_evidence::reductions::{
    any_tolerance, greedy, lists, shortest_lists, size_bounds, stop_probes, tolerances,
};
use kovrelna_reference::generate::{just_below, trace, Kind, Random, Trace, KINDS};
use kovrelna_reference::Method::Gallop;
use kovrelna_reference::{link_error, METHODS};

use crate::{small_traces, SMALL_TOLERANCES};

#[test]
fn random_traces() {
    let random = &mut Random::new(8);
    for kind in KINDS {
        // All samples kept, both ends alone, others; walk and gallop differ; minimum is shorter.
        let mut seen = [0; 5];
        for _ in 0..4_000 {
            let samples = random.within(1, 40) as usize;
            let trace = trace(kind, samples, random);
            for tolerance in tolerances(&trace, random) {
                let room = samples + random.choose(&[0, 0, 1, 7]);
                let lists = lists(&trace, tolerance, room);
                size_bounds(&trace, tolerance, &lists);
                for list in &lists {
                    match list.len() {
                        kept if kept == samples => seen[0] += 1,
                        2 => seen[1] += 1,
                        _ => seen[2] += 1,
                    }
                }
                let [walk, gallop, minimum] = lists;
                seen[3] += usize::from(walk != gallop);
                seen[4] += usize::from(minimum.len() < walk.len().min(gallop.len()));
            }
        }
        assert!(
            seen[..3].iter().all(|&count| count > 600) && seen[3..].iter().all(|&count| count > 60),
            "{kind:?} {seen:?}"
        );
    }
}

#[test]
fn longer_traces() {
    let random = &mut Random::new(9);
    for kind in KINDS {
        for _ in 0..30 {
            let samples = random.within(60, 200) as usize;
            let trace = trace(kind, samples, random);
            for tolerance in tolerances(&trace, random) {
                size_bounds(&trace, tolerance, &lists(&trace, tolerance, samples));
            }
        }
    }
}

#[test]
fn long_traces() {
    let random = &mut Random::new(10);
    for samples in [1_000, 4_096] {
        for kind in KINDS {
            let trace = trace(kind, samples, random);
            for tolerance in tolerances(&trace, random) {
                lists(&trace, tolerance, samples);
            }
        }
    }
}

/// One, two and three samples: neighbours are always kept together, and the third sample decides.
#[test]
fn shortest_traces() {
    let random = &mut Random::new(11);
    for kind in KINDS {
        for samples in [1, 2, 3] {
            let trace = trace(kind, samples, random);
            let kept = |tolerance| lists(&trace, tolerance, samples);
            if samples < 3 {
                let all: Vec<u16> = (0..samples as u16).collect();
                assert_eq!(kept(ratio(0, 1)), [&all; 3].map(Vec::clone));
                continue;
            }
            let error = link_error(&trace.ticks, &trace.values, 0, 2);
            assert_eq!(kept(exactly(error)), [[0, 2]; 3]);
            if error.p > 0 {
                assert_eq!(kept(exactly(just_below(error))), [[0, 1, 2]; 3]);
            }
        }
    }
}

/// Stops of every length, at the end of the trace and before it: r samples on a line, then a step,
/// then `rest` more samples on a line.
#[test]
fn stops_of_every_length() {
    let powers = [256usize, 512, 1_024, 2_048];
    let near = powers.iter().flat_map(|&power| power - 2..=power + 2);
    for r in (1..=70).chain(near).chain([4_093, 4_094, 4_095]) {
        let rests = if r < 1_000 {
            &[0, 1, 2, 3, 4, 9][..]
        } else {
            &[0, 1]
        };
        for &rest in rests {
            let samples = if rest == 0 { r + 1 } else { r + 2 + rest };
            if samples > 4_096 {
                continue;
            }
            let trace = Trace {
                ticks: (0..samples as u32).collect(),
                values: (0..samples).map(|k| if k <= r { 5 } else { -9 }).collect(),
            };
            let (mut list, mut probes) = (vec![0, r as u16], stop_probes(r));
            if rest > 0 {
                list.extend([r as u16 + 1, samples as u16 - 1]);
                probes += stop_probes(1) + stop_probes(rest);
            }
            let kept = lists(&trace, ratio(0, 1), samples);
            assert_eq!(kept, [&list; 3].map(Vec::clone), "{r} {rest}");
            let galloped = greedy(Gallop, &trace, ratio(0, 1), samples);
            assert_eq!(galloped.probes, probes, "{r} {rest}");
        }
    }
}

/// Up and down by 3 in turn. From tolerance 3 on the ends alone are kept. Below it the greedy methods
/// keep every sample: a link of even length has the error 3, one of odd length r the error 3 - 3/r.
/// Minimum takes the longest links that are valid (length 3 at tolerance 2), then those of length 1.
#[test]
fn zigzags() {
    for samples in [3usize, 4, 5, 6, 7, 64, 65, 66, 4_095, 4_096] {
        let trace = Trace {
            ticks: (0..samples as u32).collect(),
            values: (0..samples).map(|k| 3 * (k % 2) as i16).collect(),
        };
        let last = samples as u16 - 1;
        let kept = |tolerance| lists(&trace, tolerance, samples);
        assert_eq!(kept(ratio(3, 1)), [[0, last]; 3]);
        for (tolerance, longest) in [
            (ratio(2, 1), 3),
            (ratio(3 * 1_048_575 - 1, 1_048_575), (last - 1) | 1),
        ] {
            let all: Vec<u16> = (0..=last).collect();
            let mut minimum: Vec<u16> = (0..=last).step_by(longest.into()).collect();
            minimum.extend(minimum[minimum.len() - 1] + 1..=last);
            assert_eq!(kept(tolerance), [all.clone(), all, minimum], "{samples}");
        }
    }
}

/// Traces with several shortest lists, as they come, with every value twice, and the same backwards:
/// of all kept lists that judge passes, minimum's is the last in the order of their samples.
#[test]
fn ties() {
    let random = &mut Random::new(13);
    let source: [fn(usize, usize) -> usize; 3] =
        [|k, _| k, |k, _| k / 2, |k, samples| k.min(samples - 1 - k)];
    for kind in [Kind::Small, Kind::Zigzag, Kind::Pulses] {
        for (shape, source) in source.iter().enumerate() {
            // The shortest list is the only one; others have another second sample; only later
            // samples differ.
            let mut seen = [0; 3];
            for _ in 0..500 {
                let samples = random.within(3, 12) as usize;
                let mut trace = trace(kind, samples, random);
                trace.values = (0..samples)
                    .map(|k| trace.values[source(k, samples)])
                    .collect();
                for tolerance in tolerances(&trace, random) {
                    let [.., minimum] = lists(&trace, tolerance, samples);
                    let shortest = shortest_lists(&trace, tolerance, &minimum);
                    let differ = |end| shortest.iter().any(|list| list[..end] != minimum[..end]);
                    match (differ(2), differ(minimum.len())) {
                        (false, false) => seen[0] += 1,
                        (true, _) => seen[1] += 1,
                        (false, true) => seen[2] += 1,
                    }
                }
            }
            assert!(
                seen.iter().all(|&count| count > 20),
                "{kind:?} {shape} {seen:?}"
            );
        }
    }
}

/// The greatest ticks, values and tolerances.
#[test]
fn greatest_numbers() {
    let samples = 16;
    let mut ticks: Vec<u32> = (0..samples)
        .map(|k| u32::MAX - 1_048_575 + 69_905 * k)
        .collect();
    let swing: Vec<i16> = (0..samples)
        .map(|k| if k % 2 == 0 { i16::MIN } else { i16::MAX })
        .collect();
    let step: Vec<i16> = (0..samples)
        .map(|k| if k < 8 { i16::MIN } else { i16::MAX })
        .collect();
    let spike: Vec<i16> = (0..samples)
        .map(|k| if k == 1 { i16::MIN } else { i16::MAX })
        .collect();
    for _ in 0..2 {
        for values in [&swing, &step, &spike] {
            let trace = Trace {
                ticks: ticks.clone(),
                values: values.clone(),
            };
            for p in [0u64, 1, 32_767, 32_768, 65_534, 65_535] {
                for below in [0, 1, 2] {
                    for q in [1, 2, 3, 1_048_574, 1_048_575] {
                        let part = |q: u64| ((p * q).saturating_sub(below), q);
                        let one = ratio(part(q).0, q);
                        // Nearly the same part below, over another denominator.
                        let unlike = parts(part(q), part((q + 1).min(1_048_575)));
                        for tolerance in [one, unlike] {
                            size_bounds(&trace, tolerance, &lists(&trace, tolerance, 16));
                        }
                    }
                }
            }
        }
        // Once more with all ticks but the last at the beginning.
        for k in 1..15 {
            ticks[k] = ticks[0] + k as u32;
        }
    }
}

#[test]
fn every_small_trace() {
    for trace in small_traces() {
        for (p, q) in SMALL_TOLERANCES {
            let tolerance = ratio(p, q);
            size_bounds(&trace, tolerance, &lists(&trace, tolerance, 5));
        }
    }
}

/// Outputs too short, exactly enough and longer; the greatest are longer than any trace.
#[test]
fn outputs() {
    let random = &mut Random::new(12);
    for samples in [1usize, 2, 3, 17, 4_095, 4_096] {
        for kind in KINDS {
            let Trace { ticks, values } = trace(kind, samples, random);
            let tolerance = any_tolerance(random);
            for room in [
                0,
                1,
                2,
                samples - 1,
                samples,
                samples + 1,
                samples + 9,
                5_000,
            ] {
                for method in METHODS {
                    let answer = reduce(method, &ticks, &values, tolerance, room);
                    if room < samples {
                        assert_eq!(answer, Err((10, samples as u64)), "{method:?} {room}");
                    } else {
                        assert!(answer.is_ok(), "{method:?} {room}");
                    }
                }
            }
        }
    }
}
