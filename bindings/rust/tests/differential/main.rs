//! The library compared with the slow reference.
//!
//! - `figures`: the figures of documents 01 and 02.
//! - `refusals`: every row of the table that a call has, its value and its place in the order.
//! - `hold`: tolerances in all forms.
//! - `measure`: links on random and adversarial traces.
//! - `judge`: lists on random and adversarial traces.
//! - `greedy`: the same, judged as greedy lists, and the size of those that pass.
//! - `reduce`: walk, gallop and minimum on random and adversarial traces.
//! - `least`: least errors on random and adversarial traces.
//! - `scans`: scans at several tolerances.
//! - `views`: views of traces that grow.
//! - `sums`: traces with kept lists, added.
//! - `gaps`: gap limits, on traces with holes in every place.
//! - `parts`: tolerances with a part above and a part below.
//! - `codes`: range codes, with their own values and with those of a table.
//! - `records`: records written, read, damaged and compared.
//! - `report`: reports on crates.
//! - `pedestals`: pedestal runs, compared.

mod codes;
mod figures;
mod gaps;
mod greedy;
mod hold;
mod judge;
mod least;
mod measure;
mod parts;
mod pedestals;
mod records;
mod reduce;
mod refusals;
mod report;
mod scans;
mod sums;
mod views;

use kovrelna_reference::generate::Trace;
use kovrelna_reference::{Fraction, Invalid, Measure, Side};

/// The error p/q, at this sample on this side.
fn measure_of(p: i128, q: i128, sample: usize, side: Side) -> Measure {
    Measure {
        error: Fraction { p, q },
        sample,
        side,
    }
}

/// The first invalid link of a list: its position, its error p/q, the sample and its side.
fn invalid(link: usize, (p, q): (i128, i128), sample: usize, side: Side) -> Invalid {
    Invalid {
        link,
        measure: measure_of(p, q, sample, side),
    }
}

/// Tolerances from 0 to 7/2, as p and q, for the tests of every small trace.
const SMALL_TOLERANCES: [(u64, u64); 8] = [
    (0, 1),
    (1, 3),
    (1, 2),
    (2, 3),
    (1, 1),
    (4, 3),
    (2, 1),
    (7, 2),
];

/// Unequal parts from 0 to 7/2, above and below, for the same tests.
const SMALL_PARTS: [((u64, u64), (u64, u64)); 8] = [
    ((0, 1), (1, 1)),
    ((1, 1), (0, 1)),
    ((1, 3), (2, 3)),
    ((2, 3), (1, 2)),
    ((1, 2), (2, 1)),
    ((2, 1), (1, 1)),
    ((4, 3), (7, 2)),
    ((7, 2), (1, 3)),
];

/// Every trace of five samples with values from -1 to 1, and of four with values from -2 to 2, at three
/// lists of ticks.
fn small_traces() -> Vec<Trace> {
    let mut traces = Vec::new();
    for (samples, values) in [(5, 3), (4, 5i16)] {
        for ticks in [[0, 1, 2, 3, 4], [5, 6, 8, 9, 12], [0, 2, 3, 6, 7]] {
            for digits in 0..values.pow(samples) {
                traces.push(Trace {
                    ticks: ticks[..samples as usize].to_vec(),
                    values: (0..samples)
                        .map(|k| digits / values.pow(k) % values - values / 2)
                        .collect(),
                });
            }
        }
    }
    traces
}
