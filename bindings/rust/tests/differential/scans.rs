//! Scans at several tolerances: random ones, every small trace, holes in every place, equal tolerances in all
//! forms, and what has been kept after each sample.

use kovrelna::Tolerance::{self, Counts};
use kovrelna::GAP_MAX;
use kovrelna_evidence::calls::Call;
use kovrelna_evidence::cases::traces_scanned;
use kovrelna_evidence::compare::{noise, parts, ratio, scan};
use kovrelna_evidence::reductions::{any_tolerance, tolerances};
use kovrelna_evidence::scans::{after_sample, scanned};
use kovrelna_reference::generate::{
    adversarial, any_limited, trace, with_holes, Random, Trace, HOLES, KINDS, SHAPES,
};
use kovrelna_reference::scans::TOLERANCES;
use kovrelna_reference::SAMPLES;

use crate::{small_traces, SMALL_PARTS, SMALL_TOLERANCES};

/// The scan of the trace, with an output of exactly enough room, and what has been kept after every sample.
fn scan_of(trace: &Trace, tolerances: &[Tolerance], gap: u32) -> Vec<Vec<u16>> {
    let samples = trace.ticks.len();
    let lists = scanned(trace, tolerances, gap, tolerances.len() * samples).unwrap();
    for j in 1..samples {
        after_sample(trace, tolerances, gap, &lists, j);
    }
    lists
}

/// Up to 16 tolerances that matter to this trace.
fn drawn(trace: &Trace, random: &mut Random) -> Vec<Tolerance> {
    let mut drawn: Vec<Tolerance> = (0..6).flat_map(|_| tolerances(trace, random)).collect();
    drawn.truncate(random.within(1, TOLERANCES as i64) as usize);
    drawn
}

#[test]
fn random_scans() {
    let random = &mut Random::new(51);
    (0..15_000).for_each(|_| traces_scanned(40, random));
    let counts = Call::Scan.counts();
    let seen = |row: u32| counts[row as usize] > 200;
    let rows = Call::Scan.rows();
    assert!(seen(0) && rows.iter().all(|&row| seen(row)), "{counts:?}");
}

/// Every small trace at eight tolerances at once, of which half have unequal parts, under every gap limit that
/// matters.
#[test]
fn every_small_trace() {
    let mut tolerances = SMALL_TOLERANCES.map(|(p, q)| ratio(p, q));
    for k in (1..tolerances.len()).step_by(2) {
        tolerances[k] = parts(SMALL_PARTS[k].0, SMALL_PARTS[k].1);
    }
    // All lists the same, and others.
    let mut seen = [0; 2];
    for trace in small_traces() {
        for gap in [1, 2, GAP_MAX] {
            let lists = scan_of(&trace, &tolerances, gap);
            let same = lists.iter().all(|list| *list == lists[0]);
            seen[usize::from(same)] += 1;
        }
    }
    assert!(seen.iter().all(|&count| count > 500), "{seen:?}");
}

/// Traces of every kind and shape: the lists so far, after each sample.
#[test]
fn after_each_sample() {
    let random = &mut Random::new(52);
    for _ in 0..8 {
        let samples = random.within(2, 40) as usize;
        let kinds = KINDS.map(|kind| trace(kind, samples, random));
        let shapes = SHAPES.map(|shape| adversarial(shape, samples, random));
        for trace in kinds.iter().chain(&shapes) {
            let tolerances = drawn(trace, random);
            scan_of(trace, &tolerances, GAP_MAX);
        }
    }
}

/// Traces with holes in every place: each list has the samples beside each hole.
#[test]
fn holes() {
    let random = &mut Random::new(53);
    let mut crossed = 0;
    for samples in 2..=24 {
        for holes in HOLES {
            let (trace, gap) = with_holes(holes, samples, random);
            let tolerances = drawn(&trace, random);
            let lists = scan_of(&trace, &tolerances, gap);
            let free = scan_of(&trace, &tolerances, GAP_MAX);
            crossed += usize::from(lists != free);
            for k in 1..samples {
                if trace.ticks[k] - trace.ticks[k - 1] > gap {
                    let beside = [k as u16 - 1, k as u16];
                    let has = |list: &Vec<u16>| list.windows(2).any(|link| link == beside);
                    assert!(lists.iter().all(has), "{beside:?} {lists:?} {trace:?}");
                }
            }
        }
    }
    assert!(crossed > 30, "{crossed}");
}

/// Every number of tolerances, with outputs of exactly enough room, of more, and of an entry less.
#[test]
fn every_number_of_tolerances() {
    let random = &mut Random::new(54);
    for count in 1..=TOLERANCES {
        for samples in [1, 2, 3, 9, 40] {
            let (trace, gap) = any_limited(samples, random);
            let Trace { ticks, values } = &trace;
            let tolerances: Vec<Tolerance> = (0..count).map(|_| any_tolerance(random)).collect();
            let needed = count * samples;
            for room in [needed, needed + 1, needed + samples, 2 * needed] {
                assert!(scanned(&trace, &tolerances, gap, room).is_ok());
            }
            for room in [needed - 1, needed - samples, 0] {
                let refused = scan(ticks, values, &tolerances, gap, room);
                assert_eq!(refused, Err((10, needed as u64)));
            }
        }
    }
}

/// One tolerance in all its forms, 16 times over: the same list each time, between others as well.
#[test]
fn equal_tolerances() {
    let random = &mut Random::new(55);
    let forms = [
        ratio(3, 2),
        Counts(1.5),
        noise(0.5, 3.0),
        parts((3, 2), (6, 4)),
    ];
    for _ in 0..200 {
        let samples = random.within(1, 40) as usize;
        let (trace, gap) = any_limited(samples, random);
        let mut sixteen = [forms; 4].concat();
        let lists = scan_of(&trace, &sixteen, gap);
        assert!(lists.iter().all(|list| *list == lists[0]), "{trace:?}");
        for (k, tolerance) in sixteen.iter_mut().enumerate() {
            if k % 3 == 0 {
                *tolerance = any_tolerance(random);
            }
        }
        let mixed = scan_of(&trace, &sixteen, gap);
        for k in (0..TOLERANCES).filter(|k| k % 3 != 0) {
            assert_eq!(mixed[k], lists[0], "{trace:?}");
        }
    }
}

/// The longest traces at 16 tolerances.
#[test]
fn longest_traces() {
    let random = &mut Random::new(56);
    for _ in 0..4 {
        let (trace, gap) = any_limited(SAMPLES, random);
        let tolerances: Vec<Tolerance> = (0..TOLERANCES).map(|_| any_tolerance(random)).collect();
        let room = TOLERANCES * SAMPLES;
        let lists = scan(&trace.ticks, &trace.values, &tolerances, gap, room).unwrap();
        after_sample(&trace, &tolerances, gap, &lists, SAMPLES / 2);
        let refused = scan(&trace.ticks, &trace.values, &tolerances, gap, room - 1);
        assert_eq!(refused, Err((10, room as u64)));
    }
}
