//! Pedestal runs compared: random ones, every small one, the largest, and what holds of each channel.

use crate::SMALL_TOLERANCES;
use kovrelna::Tolerance;
use kovrelna_evidence::calls::Call;
use kovrelna_evidence::cases::pedestal_runs;
use kovrelna_evidence::compare::{exactly, noise, parts, pedestals, ratio};
use kovrelna_reference::generate::{crate_of, just_below, runs, Channels, Random, Runs, Trace};
use kovrelna_reference::pedestals::{Pedestals, FACTOR};
use kovrelna_reference::report::CHANNELS;
use kovrelna_reference::{Fraction, SAMPLES, TOLERANCE};

/// A trace of these values, with ticks from 0 on.
fn even(values: &[i16]) -> Trace {
    Trace {
        ticks: (0..values.len() as u32).collect(),
        values: values.to_vec(),
    }
}

/// The channels that have moved and the noisy ones, with lists of exactly enough room.
fn listed(today: &[Trace], before: &[Trace], tolerance: Tolerance, k: u64) -> Pedestals {
    let rooms = (today.len(), today.len());
    pedestals(&crate_of(today), &crate_of(before), tolerance, k, rooms).unwrap()
}

/// Whether a channel with these values has moved, and whether it is noisy.
fn facts(today: &[i16], before: &[i16], tolerance: Tolerance, k: u64) -> (bool, bool) {
    let listed = listed(&[even(today)], &[even(before)], tolerance, k);
    (!listed.moved.is_empty(), !listed.noisy.is_empty())
}

/// Channel 0 has moved, channel 1 is noisy, channel 2 is at both limits.
#[test]
fn example() {
    let ticks: Vec<u32> = (0..12).map(|sample| sample % 4).collect();
    let run = |values: [i16; 12]| Channels {
        ticks: ticks.clone(),
        values: values.to_vec(),
        lengths: vec![4; 3],
    };
    let today = run([11, 13, 11, 13, -5, -5, -5, -4, 0, 2, 0, 2]);
    let before = run([10, 12, 10, 12, -5, -5, -5, -5, 0, 1, 0, 1]);
    let expected = Pedestals {
        moved: vec![0],
        noisy: vec![1],
    };
    for tolerance in [
        ratio(1, 2),
        ratio(3, 6),
        Tolerance::Counts(0.5),
        noise(0.25, 2.0),
        parts((1, 2), (1, 2)),
        parts((4, 8), (3, 6)),
    ] {
        for rooms in [(3, 3), (3, 4), (4, 3), (64, 100)] {
            let answer = pedestals(&today, &before, tolerance, 2, rooms);
            assert_eq!(answer.as_ref(), Ok(&expected));
        }
    }
}

/// Unequal parts are refused, also where they differ as little as can be.
#[test]
fn unequal_parts() {
    let run = crate_of(&[even(&[0; 4])]);
    let compared = |above, below| pedestals(&run, &run, parts(above, below), 1, (1, 1));
    const Q: u64 = 1_048_575;
    for (above, below) in [
        ((1, 2), (1, 3)),
        ((1, 1), (0, 1)),
        ((0, 1), (1, Q)),
        ((1, Q - 1), (1, Q)),
        ((65_535, 1), (65_535 * Q - 1, Q)),
        ((1, 2), (524_287, Q)),
    ] {
        assert_eq!(compared(above, below), Err((4, 0)));
        assert_eq!(compared(below, above), Err((4, 0)));
        for (p, q) in [above, below] {
            assert!(compared((p, q), (p, q)).is_ok());
        }
    }
    assert!(compared((0, 1), (0, Q)).is_ok());
    assert!(compared((65_535, 1), (65_535 * Q, Q)).is_ok());
}

#[test]
fn random_runs() {
    let random = &mut Random::new(41);
    (0..6_000).for_each(|_| pedestal_runs(64, 12, random));
    (0..60).for_each(|_| pedestal_runs(3, 4_096, random));
    let counts = Call::Pedestals.counts();
    let seen = |row: u32| counts[row as usize] > 50;
    let rows = Call::Pedestals.rows();
    assert!(seen(0) && rows.iter().all(|&row| seen(row)), "{counts:?}");
}

/// The mean, and the mean of the squares minus the square of the mean.
fn mean_and_variance(values: &[i16]) -> (Fraction, Fraction) {
    let n = values.len() as i128;
    let mean = Fraction {
        p: values.iter().copied().map(i128::from).sum(),
        q: n,
    };
    // Each distance from the mean, times n.
    let distance = |&value: &i16| i128::from(value) * n - mean.p;
    let variance = Fraction {
        p: values.iter().map(distance).map(|d| d * d).sum(),
        q: n * n * n,
    };
    (mean, variance)
}

/// Every pair of runs of up to three values from -1 to 1, at small tolerances and factors: a channel has
/// moved exactly if its means differ by more than the tolerance, and is noisy exactly if its variance is
/// more than k squared times that of the run before. Equality comes up in both.
#[test]
fn every_small_channel() {
    let mut equal = [0; 2];
    for samples in 1..=3 {
        let all: Vec<Vec<i16>> = (0..3i16.pow(samples))
            .map(|code| (0..samples).map(|k| code / 3i16.pow(k) % 3 - 1).collect())
            .collect();
        for (today, before) in all
            .iter()
            .flat_map(|one| all.iter().map(move |two| (one, two)))
        {
            let ((mean1, variance1), (mean2, variance2)) =
                (mean_and_variance(today), mean_and_variance(before));
            let apart = Fraction {
                p: (mean1.p - mean2.p).abs(),
                q: mean1.q,
            };
            for (p, q) in SMALL_TOLERANCES {
                for k in 1..=2 {
                    let tolerance = Fraction {
                        p: p.into(),
                        q: q.into(),
                    };
                    let limit = Fraction {
                        p: i128::from(k * k) * variance2.p,
                        q: variance2.q,
                    };
                    let expected = (!apart.at_most(tolerance), !variance1.at_most(limit));
                    let found = facts(today, before, ratio(p, q), k);
                    assert_eq!(found, expected, "{today:?} {before:?} {p}/{q} {k}");
                    equal[0] += u32::from(!expected.0 && tolerance.at_most(apart));
                    equal[1] += u32::from(!expected.1 && limit.at_most(variance1));
                }
            }
        }
    }
    assert!(equal.iter().all(|&seen| seen > 500), "{equal:?}");
}

/// Exactly at a limit nothing is listed; one unit beyond it the channel is.
#[test]
fn one_unit_beyond_the_limit() {
    // The sums are last + 1 and 0; the limit of their difference is 3.
    for (last, moved) in [(2, false), (3, true), (-1, false), (-4, false), (-5, true)] {
        for (p, q) in [(3, 4), (6, 8)] {
            let (one, other) = ([0, 1, 0, last], [0; 4]);
            assert_eq!(facts(&one, &other, ratio(p, q), 16).0, moved, "{last}");
            assert_eq!(facts(&other, &one, ratio(p, q), 16).0, moved, "{last}");
        }
    }
    // n Q - S squared is 20, 20 and 21 today and 5 before; 11, 12 and 16 today and 3 before.
    type Case<'a> = (&'a [i16], &'a [i16], bool);
    let cases: [Case; 6] = [
        (&[0, 0, 0, 0, 0, 2], &[0, 0, 0, 0, 0, 1], false),
        (&[-2, 0, 0, 0, 0, 0], &[7, 7, 7, 7, 8, 7], false),
        (&[0, 0, 0, 0, 1, 2], &[0, 0, 0, 0, 0, 1], true),
        (&[0, 0, 1, 2], &[0, 0, 0, 1], false),
        (&[0, 0, 0, 2], &[0, 0, 0, 1], false),
        (&[0, 0, 2, 2], &[0, 0, 0, 1], true),
    ];
    for (today, before, noisy) in cases {
        assert_eq!(facts(today, before, ratio(99, 1), 2).1, noisy, "{today:?}");
    }
}

/// Runs of 4,096 samples at the ends of the range, where every product is greatest.
#[test]
fn extremes() {
    let greatest = TOLERANCE as u64;
    let apart = Fraction { p: TOLERANCE, q: 1 };
    let flat = |value: i16| vec![value; SAMPLES];
    // Half the values at the low end, half so far above.
    let halves = |height: i64| -> Vec<i16> {
        let value = |sample: usize| i64::from(i16::MIN) + height * (sample % 2) as i64;
        (0..SAMPLES).map(|sample| value(sample) as i16).collect()
    };
    let (low, high) = (flat(i16::MIN), flat(i16::MAX));
    for k in [1, FACTOR] {
        for (one, two) in [(&low, &high), (&high, &low)] {
            let facts = |tolerance| facts(one, two, tolerance, k);
            assert_eq!(facts(exactly(apart)), (false, false));
            assert_eq!(facts(exactly(just_below(apart))), (true, false));
            assert_eq!(
                facts(ratio(greatest * 1_048_575 - 1, 1_048_575)),
                (true, false)
            );
            assert_eq!(facts(ratio(0, 1)), (true, false));
        }
        let widest = halves(65_535);
        assert_eq!(facts(&widest, &widest, ratio(0, 1), k), (false, false));
        assert_eq!(facts(&widest, &low, ratio(greatest, 1), k), (false, true));
        assert_eq!(facts(&low, &widest, ratio(greatest, 1), k), (false, false));
    }
    // 15 and 16 times as wide, and not quite.
    for (height, before, k, noisy) in [
        (65_535, 4_369, 15, false),
        (65_535, 4_368, 15, true),
        (65_535, 4_369, 14, true),
        (65_520, 4_095, 16, false),
        (65_521, 4_095, 16, true),
        (65_519, 4_095, 16, false),
    ] {
        let (today, before) = (halves(height), halves(before));
        assert_eq!(facts(&today, &before, ratio(greatest, 1), k).1, noisy);
    }
}

/// The largest crates, 64 channels of 4,096 samples, of which none, all or one are listed, and random
/// ones.
#[test]
fn largest_crates() {
    let flat = vec![even(&[0; SAMPLES]); CHANNELS];
    let mut step = even(&[0; SAMPLES]);
    step.values[SAMPLES - 1] = 1;
    let lists = |today: &[Trace]| {
        let Pedestals { moved, noisy } = listed(today, &flat, ratio(0, 1), FACTOR);
        assert_eq!(moved, noisy);
        moved
    };
    assert_eq!(lists(&flat), []);
    let all: Vec<u16> = (0..CHANNELS as u16).collect();
    assert_eq!(lists(&vec![step.clone(); CHANNELS]), all);
    for channel in [0, 1, 31, 62, 63] {
        let mut today = flat.clone();
        today[channel] = step.clone();
        assert_eq!(lists(&today), [channel as u16]);
    }
    let random = &mut Random::new(42);
    let Runs {
        today,
        before,
        tolerance,
        k,
    } = runs(CHANNELS, SAMPLES, random);
    listed(&today, &before, exactly(tolerance), k);
}

/// A channel is listed exactly if it is listed in runs of this channel alone. Ticks do not matter, nor the
/// order of a trace's samples, nor what is added to all values of both runs; what has moved is the same
/// with the runs exchanged.
#[test]
fn each_channel() {
    let random = &mut Random::new(43);
    // Channels that have neither moved nor are noisy, have moved, are noisy, both.
    let mut seen = [0; 4];
    for _ in 0..1_000 {
        let count = random.within(1, 6) as usize;
        let Runs {
            today,
            before,
            tolerance,
            k,
        } = runs(count, 12, random);
        let tolerance = exactly(tolerance);
        let all = listed(&today, &before, tolerance, k);
        assert_eq!(listed(&before, &today, tolerance, k).moved, all.moved);
        for channel in 0..count {
            let (one, two) = (&today[channel].values, &before[channel].values);
            let of = |list: &[u16]| list.contains(&(channel as u16));
            let (moved, noisy) = (of(&all.moved), of(&all.noisy));
            assert_eq!(facts(one, two, tolerance, k), (moved, noisy));
            seen[usize::from(moved) + 2 * usize::from(noisy)] += 1;
            // Backwards, and as far up as the range goes.
            let highest = one.iter().chain(two).max().unwrap();
            let up = |values: &[i16]| -> Vec<i16> {
                let values = values.iter().rev();
                values.map(|value| value + (i16::MAX - highest)).collect()
            };
            if *highest >= 0 {
                assert_eq!(facts(&up(one), &up(two), tolerance, k), (moved, noisy));
            }
        }
    }
    assert!(seen.iter().all(|&count| count > 100), "{seen:?}");
}
