//! Least errors on random and adversarial traces.

use kovrelna::GAP_MAX;
use kovrelna_evidence::reductions::least_list;
use kovrelna_reference::generate::{
    any_limited, any_trace, trace, with_holes, Random, Trace, HOLES, KINDS,
};
use kovrelna_reference::{beside_holes, Fraction};

/// Every allowance up to one more than the samples: some are refused, then the error falls to 0. How many
/// are refused.
fn refused_allowances(trace: &Trace, gap: u32) -> usize {
    let samples = trace.ticks.len();
    let (mut refused, mut before): (usize, Option<Fraction>) = (0, None);
    for allowance in (2..=samples as u64 + 1).chain([4_096]) {
        match least_list(trace, gap, allowance, samples) {
            Some(least) => {
                assert!(before.is_none_or(|before| least.error.at_most(before)));
                before = Some(least.error);
            }
            None => {
                assert_eq!(before, None, "{gap} {trace:?}");
                refused += 1;
            }
        }
    }
    assert_eq!(before, Some(Fraction { p: 0, q: 1 }));
    refused
}

#[test]
fn every_allowance() {
    let random = &mut Random::new(26);
    for kind in KINDS {
        for _ in 0..60 {
            let samples = random.within(1, 24) as usize;
            let trace = trace(kind, samples, random);
            assert_eq!(refused_allowances(&trace, GAP_MAX), 0);
        }
    }
}

/// With holes the allowances below that of both ends and the samples beside them are refused. With two
/// samples or one none is.
#[test]
fn every_allowance_with_holes() {
    let random = &mut Random::new(34);
    for holes in HOLES {
        for samples in (1..=24).flat_map(|n| [n; 3]) {
            let (trace, gap) = with_holes(holes, samples, random);
            let fewest = beside_holes(&trace.ticks, Some(gap)).len();
            let refused = refused_allowances(&trace, gap);
            assert_eq!(refused, fewest.saturating_sub(2), "{gap} {trace:?}");
        }
    }
}

#[test]
fn random_traces() {
    let random = &mut Random::new(27);
    // Errors that are 0, whole, and others.
    let mut seen = [0; 3];
    for _ in 0..3_000 {
        let samples = random.within(1, 40) as usize;
        let trace = any_trace(samples, random);
        let allowance = random.within(2, samples as i64 + 1) as u64;
        let room = samples + random.choose(&[0, 1, 7]);
        match least_list(&trace, GAP_MAX, allowance, room).unwrap().error {
            Fraction { p: 0, .. } => seen[0] += 1,
            Fraction { q: 1, .. } => seen[1] += 1,
            _ => seen[2] += 1,
        }
    }
    assert!(seen.iter().all(|&count| count > 200), "{seen:?}");
}

#[test]
fn random_gap_limits() {
    let random = &mut Random::new(35);
    // Refused; errors that are 0, whole, and others.
    let mut seen = [0; 4];
    for _ in 0..3_000 {
        let samples = random.within(1, 40) as usize;
        let (trace, gap) = any_limited(samples, random);
        let allowance = random.within(2, samples as i64 + 1) as u64;
        let least = least_list(&trace, gap, allowance, samples);
        match least.map(|least| least.error) {
            None => seen[0] += 1,
            Some(Fraction { p: 0, .. }) => seen[1] += 1,
            Some(Fraction { q: 1, .. }) => seen[2] += 1,
            Some(_) => seen[3] += 1,
        }
    }
    assert!(seen.iter().all(|&count| count > 200), "{seen:?}");
}

#[test]
fn longest_traces() {
    let random = &mut Random::new(28);
    for kind in KINDS {
        for (samples, allowances) in [
            (256, [2, 3, 17, 255, 256, 4096]),
            (255, [2, 3, 100, 254, 255, 4096]),
        ] {
            let trace = trace(kind, samples, random);
            for allowance in allowances {
                least_list(&trace, GAP_MAX, allowance, samples).unwrap();
            }
        }
    }
    for holes in HOLES {
        let (trace, gap) = with_holes(holes, 256, random);
        let fewest = beside_holes(&trace.ticks, Some(gap)).len() as u64;
        for allowance in [fewest - 1, fewest, fewest + 9, 255, 256] {
            least_list(&trace, gap, allowance.clamp(2, 256), 256);
        }
    }
}

/// Every trace of five samples with values from -1 to 1, every allowance and every gap limit that matters.
#[test]
fn every_small_trace() {
    for ticks in [[0, 1, 2, 3, 4], [5, 6, 8, 9, 12], [0, 2, 3, 6, 7]] {
        for digits in 0..3i16.pow(5) {
            let trace = Trace {
                ticks: ticks.to_vec(),
                values: (0..5).map(|k| digits / 3i16.pow(k) % 3 - 1).collect(),
            };
            for allowance in 2..=5 {
                for gap in [GAP_MAX, 3, 2, 1] {
                    least_list(&trace, gap, allowance, 5);
                }
            }
        }
    }
}
