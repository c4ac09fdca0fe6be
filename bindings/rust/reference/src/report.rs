//! The report on a crate: the first request of document 02.

use crate::{list_error, reduce, worst_sample, Form, Fraction, Limits, Method, Row};

/// The most channels of a crate.
pub const CHANNELS: usize = 64;

const ZERO: Fraction = Fraction { p: 0, q: 1 };

/// The summary of a channel: its samples, walk's kept number, the error of walk's list and the sample of
/// its first worst link, and a refusal's number or 0.
#[derive(Clone, Copy, Debug, PartialEq, Eq)]
pub struct Channel {
    pub samples: usize,
    pub kept: usize,
    pub error: Fraction,
    pub sample: usize,
    pub number: u32,
}

/// The summary of each channel; the samples and kept numbers of all, and the largest error.
#[derive(Clone, Debug, PartialEq, Eq)]
pub struct Report {
    pub channels: Vec<Channel>,
    pub samples: usize,
    pub kept: usize,
    pub error: Fraction,
}

/// The first row that fits, or the report. The traces come end to end; the output has `room` entries.
pub fn report(
    ticks: &[u32],
    values: &[i16],
    lengths: &[usize],
    limits: impl Into<Limits<Form>>,
    room: usize,
) -> Result<Report, Row> {
    if !is_crate(ticks, values, lengths) {
        return Err((11, 0));
    }
    let limits = limits.into();
    limits.held()?;
    let channels = lengths.len();
    if room < channels {
        return Err((10, channels as u64));
    }
    let mut report = Report {
        channels: Vec::new(),
        samples: 0,
        kept: 0,
        error: ZERO,
    };
    let (mut ticks, mut values) = (ticks, values);
    for &length in lengths {
        let channel = channel(&ticks[..length], &values[..length], limits);
        report.channels.push(channel);
        report.samples += channel.samples;
        report.kept += channel.kept;
        if !channel.error.at_most(report.error) {
            report.error = channel.error;
        }
        (ticks, values) = (&ticks[length..], &values[length..]);
    }
    Ok(report)
}

/// Whether there are 1 to 64 channels whose lengths add up to the length of each list.
pub fn is_crate(ticks: &[u32], values: &[i16], lengths: &[usize]) -> bool {
    let samples: i128 = lengths.iter().map(|&length| length as i128).sum();
    let adds_up = |list: usize| list as i128 == samples;
    (1..=CHANNELS).contains(&lengths.len()) && adds_up(ticks.len()) && adds_up(values.len())
}

/// The summary of a channel with this trace, under allowed limits.
fn channel(ticks: &[u32], values: &[i16], limits: Limits<Form>) -> Channel {
    let samples = ticks.len();
    match reduce(Method::Walk, ticks, values, limits, samples) {
        Ok(walk) => Channel {
            samples,
            kept: walk.list.len(),
            error: list_error(ticks, values, &walk.list),
            sample: worst_sample(ticks, values, &walk.list),
            number: 0,
        },
        Err((number, _)) => Channel {
            samples: 0,
            kept: 0,
            error: ZERO,
            sample: 0,
            number,
        },
    }
}

#[cfg(test)]
mod tests {
    use super::*;

    /// A wave; no samples; two equal ticks; one sample.
    #[test]
    fn four_channels() {
        let ticks = [0, 1, 2, 3, 4, 5, 5, 7];
        let values = [0, 2, 0, -2, 0, 1, 1, 9];
        let two = Form::Ratio(2, 1);
        let report = |lengths: &[usize], limits: Limits<Form>, room| {
            report(&ticks, &values, lengths, limits, room)
        };
        let row = |samples, kept, p, sample, number| Channel {
            samples,
            kept,
            error: Fraction { p, q: 1 },
            sample,
            number,
        };
        let expected = Report {
            channels: vec![
                row(5, 3, 2, 1, 0),
                row(0, 0, 0, 0, 1),
                row(0, 0, 0, 0, 2),
                row(1, 1, 0, 0, 0),
            ],
            samples: 6,
            kept: 4,
            error: Fraction { p: 2, q: 1 },
        };
        assert_eq!(report(&[5, 0, 2, 1], two.into(), 4), Ok(expected));
        assert_eq!(report(&[5, 0, 2, 1], two.into(), 3), Err((10, 4)));
        let none = |tolerance| Limits {
            tolerance,
            gap: Some(0),
        };
        assert_eq!(report(&[5, 0, 2, 1], none(two), 3), Err((15, 0)));
        let none = none(Form::Ratio(2, 0));
        assert_eq!(report(&[5, 0, 2, 1], none, 3), Err((4, 0)));
        for lengths in [&[5, 0, 2][..], &[5, 0, 2, 2], &[], &[usize::MAX, 9]] {
            assert_eq!(report(lengths, none, 0), Err((11, 0)));
        }
    }

    /// Three bursts, of which the last two are equally bad; the same turned over; and a line.
    #[test]
    fn worst_samples() {
        let ticks = [[0, 1, 2, 5, 6, 7, 10, 11, 12]; 3].concat();
        let bursts = [0, 1, 0, 0, 2, 0, 0, -2, 0];
        let values = [bursts, bursts.map(|value| -value), [7; 9]].concat();
        let limits = Limits {
            tolerance: Form::Ratio(2, 1),
            gap: Some(2),
        };
        let report = report(&ticks, &values, &[9; 3], limits, 3).unwrap();
        let found = report.channels.iter().map(|row| (row.error.p, row.sample));
        assert_eq!(found.collect::<Vec<_>>(), [(2, 4), (2, 4), (0, 0)]);
    }

    /// The same ticks in two channels, of which the second has a longer step.
    #[test]
    fn holes() {
        let (ticks, values) = ([0, 1, 2, 0, 1, 3], [0; 6]);
        for (gap, kept) in [(1, [2, 3]), (2, [2, 2])] {
            let limits = Limits {
                tolerance: Form::Ratio(0, 1),
                gap: Some(gap),
            };
            let report = report(&ticks, &values, &[3, 3], limits, 2).unwrap();
            let found: Vec<_> = report.channels.iter().map(|row| row.kept).collect();
            assert_eq!(found, kept, "{gap}");
        }
    }

    /// The largest error is reduced, as each channel's is.
    #[test]
    fn largest_error() {
        let report = report(
            &[0, 1, 3, 0, 2, 6],
            &[0, 1, 1, 0, 1, 1],
            &[3, 3],
            Form::Ratio(9, 1),
            2,
        );
        let report = report.unwrap();
        let errors: Vec<_> = report
            .channels
            .iter()
            .map(|channel| channel.error)
            .collect();
        assert_eq!(errors, [Fraction { p: 2, q: 3 }; 2]);
        assert_eq!(report.error, Fraction { p: 2, q: 3 });
    }
}
