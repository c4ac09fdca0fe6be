//! Reports on crates: random ones, the smallest and the largest, and what holds of each channel.

use kovrelna::GAP_MAX;
use kovrelna_evidence::calls::Call;
use kovrelna_evidence::cases::crates;
use kovrelna_evidence::compare::{exactly, hold, judge, measure, parts, ratio, reduce, report};
use kovrelna_evidence::reductions::any_tolerance;
use kovrelna_reference::generate::{
    channels, crate_of, gap_limit, just_below, trace, with_holes, Channels, Random, Trace, HOLES,
    KINDS,
};
use kovrelna_reference::report::{Channel, Report, CHANNELS};
use kovrelna_reference::{list_error, Fraction, Measure, Method, TOLERANCE};

fn whole(p: i128) -> Fraction {
    Fraction { p, q: 1 }
}

/// A wave, no samples, two equal ticks, and one sample.
#[test]
fn example() {
    let channels = Channels {
        ticks: vec![0, 1, 2, 3, 4, 5, 5, 7],
        values: vec![0, 2, 0, -2, 0, 1, 1, 9],
        lengths: vec![5, 0, 2, 1],
    };
    let row = |samples, kept, p, sample, number| Channel {
        samples,
        kept,
        error: whole(p),
        sample,
        number,
    };
    let expected = Report {
        channels: vec![
            row(5, 3, 2, 1, 0),
            row(0, 0, 0, 0, 1),
            row(0, 0, 0, 0, 2),
            row(1, 1, 0, 0, 0),
        ],
        samples: 6,
        kept: 4,
        error: whole(2),
    };
    for room in [4, 5, 64, 100] {
        let answer = report(&channels, ratio(2, 1), room);
        assert_eq!(answer.as_ref(), Ok(&expected));
    }
}

#[test]
fn random_crates() {
    let random = &mut Random::new(31);
    (0..3_000).for_each(|_| crates(64, 30, random));
    (0..30).for_each(|_| crates(3, 4_096, random));
    let counts = Call::Report.counts();
    let seen = |row: u32| counts[row as usize] > 50;
    let rows = Call::Report.rows();
    assert!(seen(0) && rows.iter().all(|&row| seen(row)), "{counts:?}");
}

/// Each summary is that of a crate of this channel alone. It has the number with which walk refuses the
/// trace; or walk's kept number, the least tolerance at which judge passes walk's list, all under the same
/// gap limit, and the sample that judge names just below it, which is that of the first of the worst links.
/// That error, whichever side it is on, may be above the part of the other side. The totals are those of the
/// summaries.
#[test]
fn each_channel() {
    let random = &mut Random::new(32);
    // Summaries with 0 and with each refusal's number; the largest error is that of the first channel,
    // of the last, and of another.
    let (mut numbers, mut largest) = ([0; 4], [0; 3]);
    // Reports to which the gap limit matters.
    let mut matters = 0;
    // Lists without a link; with the error 0; with one worst link, and with several; with an error above the
    // smaller part.
    let mut worst = [0; 5];
    for _ in 0..1_000 {
        let count = random.within(1, 6) as usize;
        let channels = channels(count, 30, random);
        let gap = gap_limit(&channels.ticks, random);
        let limits = any_tolerance(random).with_gap(random.choose(&[gap, GAP_MAX]));
        let unlimited = report(&channels, limits.tolerance, count).unwrap();
        let report = |channels: &Channels| report(channels, limits, count).unwrap();
        let all = report(&channels);
        matters += usize::from(all != unlimited);
        for (trace, channel) in channels.traces().iter().zip(&all.channels) {
            let alone = report(&crate_of(std::slice::from_ref(trace)));
            assert_eq!(alone.channels, [*channel]);
            numbers[channel.number as usize] += 1;
            let Trace { ticks, values } = trace;
            let list = match reduce(Method::Walk, ticks, values, limits, ticks.len()) {
                Ok(reduced) => reduced.list,
                Err((number, _)) => {
                    let error = whole(0);
                    let (samples, kept, sample) = (0, 0, 0);
                    let row = Channel {
                        samples,
                        kept,
                        error,
                        sample,
                        number,
                    };
                    assert_eq!(*channel, row);
                    continue;
                }
            };
            assert_eq!((channel.samples, channel.kept), (ticks.len(), list.len()));
            let smaller = hold(limits.tolerance).unwrap().smaller();
            worst[4] += usize::from(!channel.error.at_most(smaller));
            let judged = |error| {
                let limits = exactly(error).with_gap(limits.gap);
                judge(ticks, values, &list, limits).unwrap()
            };
            assert_eq!(judged(channel.error), None);
            let measures: Vec<Measure> = list
                .windows(2)
                .map(|link| measure(ticks, values, link[0].into(), link[1].into()).unwrap())
                .collect();
            let mut worst_links = measures
                .iter()
                .filter(|measure| measure.error == channel.error);
            let first = worst_links.next();
            assert_eq!(channel.sample, first.map_or(0, |measure| measure.sample));
            if channel.error.p > 0 {
                let named = judged(just_below(channel.error)).map(|invalid| invalid.measure);
                assert_eq!(named.as_ref(), first);
                worst[2 + usize::from(worst_links.next().is_some())] += 1;
            } else {
                assert_eq!(channel.sample, 0);
                worst[usize::from(!measures.is_empty())] += 1;
            }
        }
        let sum = |number: fn(&Channel) -> usize| all.channels.iter().map(number).sum::<usize>();
        assert_eq!(all.samples, sum(|channel| channel.samples));
        assert_eq!(all.kept, sum(|channel| channel.kept));
        let errors: Vec<Fraction> = all.channels.iter().map(|channel| channel.error).collect();
        assert!(errors.iter().all(|error| error.at_most(all.error)));
        match errors.iter().position(|&error| error == all.error).unwrap() {
            0 => largest[0] += 1,
            at if at == count - 1 => largest[1] += 1,
            _ => largest[2] += 1,
        }
    }
    assert!(numbers.iter().all(|&seen| seen > 100), "{numbers:?}");
    assert!(largest.iter().all(|&seen| seen > 100), "{largest:?}");
    assert!(matters > 100, "{matters}");
    assert!(worst.iter().all(|&seen| seen > 60), "{worst:?}");
}

/// Bursts of four samples with holes between them, beginning and ending with 0: walk keeps both ends of each,
/// and the sample is the first of all that is furthest from 0.
#[test]
fn worst_samples() {
    let random = &mut Random::new(42);
    for bursts in (1..=20).flat_map(|n| [n; 30]) {
        let most = random.choose(&[0, 1, 2, 30_000]);
        let values = (0..bursts).flat_map(|_| {
            let [one, two] = [(); 2].map(|_| random.within(-most, most) as i16);
            [0, one, two, 0]
        });
        let values: Vec<i16> = values.collect();
        let ticks = (0..bursts).flat_map(|burst| (0..4).map(move |k| 7 * burst + k));
        let trace = Trace {
            ticks: ticks.collect(),
            values,
        };
        // Each row has its own trace's number, wherever it is in the crate.
        let one = Trace {
            ticks: vec![9],
            values: vec![9],
        };
        let channels = crate_of(&[one.clone(), trace.clone(), trace.clone(), one]);
        let limits = ratio(65_535, 1).with_gap(3);
        let rows = report(&channels, limits, 4).unwrap().channels;
        let heights: Vec<i32> = trace.values.iter().map(|&v| i32::from(v).abs()).collect();
        let greatest = *heights.iter().max().unwrap();
        let sample = heights.iter().position(|&height| height == greatest);
        let expected = Channel {
            samples: 4 * bursts as usize,
            kept: 2 * bursts as usize,
            error: whole(greatest.into()),
            sample: sample.unwrap(),
            number: 0,
        };
        assert_eq!(rows[1..3], [expected; 2], "{trace:?}");
        assert_eq!((rows[0].sample, rows[3].sample), (0, 0));
    }
}

/// A peak and a trough, with a part for each that is just enough: the worst sample is that of the greatest plain
/// distance, on either side, and of two equally far ones the first.
#[test]
fn worst_sample_on_either_side() {
    let one = |values: [i16; 5], above: u64, below: u64| {
        let channels = crate_of(&[Trace {
            ticks: (0..5).collect(),
            values: values.to_vec(),
        }]);
        let tolerance = parts((above, 1), (below, 1));
        let row = report(&channels, tolerance, 1).unwrap().channels[0];
        (row.kept, row.error, row.sample)
    };
    // The samples 1 and 3 lie on either side of a level line.
    assert_eq!(one([0, 2, 0, -9, 0], 2, 12), (3, whole(9), 3));
    assert_eq!(one([0, 9, 0, -2, 0], 9, 2), (3, whole(9), 1));
    assert_eq!(one([0, 5, 0, -5, 0], 5, 7), (3, whole(5), 1));
    assert_eq!(one([0, -5, 0, 5, 0], 5, 7), (2, whole(5), 1));
    assert_eq!(one([0, 9, 0, -2, 0], 9, 1), (4, whole(9), 1));
    assert_eq!(one([0, 9, 0, -2, 0], 8, 20), (3, whole(6), 2));
}

/// A crate of traces with holes in every place, under each of their gap limits.
#[test]
fn holes() {
    let random = &mut Random::new(36);
    for _ in 0..100 {
        let limited = HOLES.map(|holes| {
            let samples = random.within(1, 40) as usize;
            with_holes(holes, samples, random)
        });
        let channels = crate_of(&limited.each_ref().map(|(trace, _)| trace.clone()));
        let tolerance = any_tolerance(random);
        for (channel, (Trace { ticks, values }, gap)) in limited.iter().enumerate() {
            let limits = tolerance.with_gap(*gap);
            let row = report(&channels, limits, HOLES.len()).unwrap().channels[channel];
            let walk = reduce(Method::Walk, ticks, values, limits, ticks.len()).unwrap();
            assert_eq!((row.samples, row.kept), (ticks.len(), walk.list.len()));
            assert_eq!(row.error, list_error(ticks, values, &walk.list));
        }
    }
}

/// The largest crates: 64 channels of 4,096 samples of every kind, with the greatest totals at tolerance
/// 0 and the greatest errors at the greatest tolerance.
#[test]
fn largest_crates() {
    let random = &mut Random::new(33);
    let traces: Vec<Trace> = (0..CHANNELS)
        .map(|channel| trace(KINDS[channel % KINDS.len()], 4_096, random))
        .collect();
    let channels = crate_of(&traces);
    for tolerance in [ratio(0, 1), ratio(7, 2), ratio(TOLERANCE as u64, 1)] {
        let report = report(&channels, tolerance, CHANNELS).unwrap();
        assert_eq!(report.samples, 262_144);
    }
    // Every sample is kept.
    let zigzag = Trace {
        ticks: (0..4_096).collect(),
        values: (0..4_096).map(|k| 3 * (k % 2)).collect(),
    };
    let channels = crate_of(&vec![zigzag; CHANNELS]);
    let report = report(&channels, ratio(2, 1), CHANNELS).unwrap();
    assert_eq!((report.samples, report.kept), (262_144, 262_144));
    assert_eq!(report.error, whole(0));
}

/// Crates of refused channels alone, also of every number of channels.
#[test]
fn nothing_but_refused_channels() {
    for count in 1..=CHANNELS {
        let mut channels = Channels::default();
        for channel in 0..count {
            let ticks = [&[][..], &[5, 5], &[0, 1_048_576]][channel % 3].to_vec();
            let values = vec![9; ticks.len()];
            channels.push(&Trace { ticks, values });
        }
        let report = report(&channels, ratio(9, 1), count).unwrap();
        let totals = (report.samples, report.kept, report.error);
        assert_eq!(totals, (0, 0, whole(0)));
        let numbers = report.channels.iter().map(|channel| channel.number);
        assert!(numbers.eq([1, 2, 3].into_iter().cycle().take(count)));
    }
}
