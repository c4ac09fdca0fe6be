//! Links on random and adversarial traces.

use kovrelna_evidence::cases::links_measured;
use kovrelna_evidence::compare::measure;
use kovrelna_evidence::measures::link;
use kovrelna_reference::generate::{adversarial, tied, trace, Random, Trace, KINDS, SHAPES};
use kovrelna_reference::Side::{Above, Below, On};

use crate::{measure_of, small_traces};

const MIN: i16 = i16::MIN;
const MAX: i16 = i16::MAX;

#[test]
fn random_links() {
    let random = &mut Random::new(43);
    // On the line; above and below it, with whole errors and with others.
    let mut seen = [0; 5];
    for _ in 0..6_000 {
        for measure in links_measured(40, random) {
            let whole = usize::from(measure.error.q == 1);
            match measure.side {
                Above => seen[1 + whole] += 1,
                Below => seen[3 + whole] += 1,
                _ => seen[0] += 1,
            }
        }
    }
    assert!(seen.iter().all(|&count| count > 500), "{seen:?}");
    for _ in 0..60 {
        links_measured(4_096, random);
    }
}

/// Every link of traces of every kind and shape, and of some with equal deviations.
#[test]
fn every_link() {
    let random = &mut Random::new(44);
    for samples in (2..=12).flat_map(|n| [n; 4]) {
        let mut traces: Vec<Trace> = Vec::new();
        traces.extend(KINDS.map(|kind| trace(kind, samples, random)));
        traces.extend(SHAPES.map(|shape| adversarial(shape, samples, random)));
        traces.extend([(); 8].map(|_| tied(samples, random)));
        for trace in traces {
            for j in 1..samples {
                for i in 0..j {
                    link(&trace, i, j);
                }
            }
        }
    }
}

/// Every link of every small trace.
#[test]
fn every_small_trace() {
    for trace in small_traces() {
        for j in 1..trace.ticks.len() {
            for i in 0..j {
                link(&trace, i, j);
            }
        }
    }
}

/// Two samples beside a line of any slope, on one side of it or on either: the further one is given, of equally
/// far ones the first.
#[test]
fn equal_deviations() {
    let ticks = [5, 6, 8, 9, 11, 12, 15];
    for (one, two) in (1..6).flat_map(|one| (one + 1..6).map(move |two| (one, two))) {
        for slope in [-40, -1, 0, 3] {
            for heights in [
                [1, 1],
                [1, -1],
                [-1, 1],
                [-1, -1],
                [900, -900],
                [-900, 900],
                [2, 1],
                [-2, 1],
                [1, -2],
                [-1, 2],
                [899, -900],
                [-900, 899],
            ] {
                let mut values = ticks.map(|tick| 7 + slope * tick as i16);
                values[one] += heights[0];
                values[two] += heights[1];
                let (sample, height) = match heights.map(i16::abs) {
                    [first, second] if first < second => (two, heights[1]),
                    _ => (one, heights[0]),
                };
                let side = if height > 0 { Above } else { Below };
                let expected = measure_of(height.abs().into(), 1, sample, side);
                assert_eq!(measure(&ticks, &values, 0, 6), Ok(expected), "{values:?}");
            }
        }
    }
}

/// Long runs of equal values beside the line, of any length: the first of them is given.
#[test]
fn long_runs() {
    let samples = 4_096;
    let ticks: Vec<u32> = (0..samples as u32).map(|k| 256 * k).collect();
    for (from, to) in [
        (1, 4_095),
        (1, 2),
        (2, 4_095),
        (2_047, 2_049),
        (4_093, 4_095),
        (4_094, 4_095),
    ] {
        for (value, side) in [(MAX, Above), (1, Above), (-1, Below), (MIN, Below)] {
            let mut values = vec![0; samples];
            values[from..to].fill(value);
            let expected = measure_of(i128::from(value).abs(), 1, from, side);
            assert_eq!(measure(&ticks, &values, 0, 4_095), Ok(expected));
            // A link within the run.
            let last = to - 1;
            if from < last {
                let expected = measure_of(0, 1, from, On);
                assert_eq!(measure(&ticks, &values, from, last), Ok(expected));
            }
        }
    }
}

/// The greatest values and spans.
#[test]
fn greatest_numbers() {
    let latest = u32::MAX - 1_048_575;
    for (middle, values, p, q, side) in [
        (1, [MIN, MAX, MIN], 65_535, 1, Above),
        (1, [MAX, MIN, MAX], 65_535, 1, Below),
        (1_048_574, [MIN, MAX, MIN], 65_535, 1, Above),
        (1_048_574, [MAX, MIN, MAX], 65_535, 1, Below),
        // 65,535 times 1,048,574 over 1,048,575.
        (1, [MIN, MAX, MAX], 4_369 * 1_048_574, 69_905, Above),
        (1, [MAX, MIN, MIN], 4_369 * 1_048_574, 69_905, Below),
        (1_048_574, [MIN, MIN, MAX], 4_369 * 1_048_574, 69_905, Below),
        (1_048_574, [MAX, MAX, MIN], 4_369 * 1_048_574, 69_905, Above),
        // 65,535 over 1,048,575.
        (1, [MIN, MIN, MAX], 4_369, 69_905, Below),
        (1, [MAX, MAX, MIN], 4_369, 69_905, Above),
        (1_048_574, [MIN, MAX, MAX], 4_369, 69_905, Above),
        (1_048_574, [MAX, MIN, MIN], 4_369, 69_905, Below),
        // One over 1,048,575.
        (1, [0, 0, 1], 1, 1_048_575, Below),
        (1, [0, 0, -1], 1, 1_048_575, Above),
        (1_048_574, [0, 1, 1], 1, 1_048_575, Above),
        (1_048_574, [MIN + 1, MIN, MIN], 1, 1_048_575, Below),
    ] {
        for first in [0, latest] {
            let trace = Trace {
                ticks: vec![first, first + middle, first + 1_048_575],
                values: values.to_vec(),
            };
            let expected = measure_of(p, q, 1, side);
            assert_eq!(link(&trace, 0, 2), expected, "{trace:?}");
        }
    }
}

/// Links of one step: nothing lies between, whatever is beside them.
#[test]
fn one_step() {
    let random = &mut Random::new(45);
    for kind in KINDS {
        for samples in [2, 3, 40, 4_096] {
            let trace = trace(kind, samples, random);
            for i in [0, (samples - 1) / 2, samples - 2] {
                assert_eq!(link(&trace, i, i + 1), measure_of(0, 1, i, On));
            }
        }
    }
}
