//! Two pedestal runs of a crate, compared: the fourth request of document 02.

use crate::generate::{Channels, Trace};
use crate::report::is_crate;
use crate::{held, trace_refusal, Form, Fraction, Parts, Row};

/// The greatest noise factor.
pub const FACTOR: u64 = 16;

/// The number of samples, their sum and the sum of their squares.
#[derive(Clone, Copy, Debug, PartialEq, Eq)]
pub struct Sums {
    pub n: i128,
    pub s: i128,
    pub q: i128,
}

impl Sums {
    pub fn of(values: &[i16]) -> Sums {
        let values = values.iter().copied().map(i128::from);
        Sums {
            n: values.len() as i128,
            s: values.clone().sum(),
            q: values.map(|value| value * value).sum(),
        }
    }

    /// n Q - S squared.
    pub fn spread(self) -> i128 {
        self.n * self.q - self.s * self.s
    }
}

/// By how much |S1 - S2| times q exceeds p times n.
pub fn shift_over(today: Sums, before: Sums, tolerance: Fraction) -> i128 {
    (today.s - before.s).abs() * tolerance.q - tolerance.p * today.n
}

/// By how much today's n Q - S squared exceeds k squared times that of the run before.
pub fn spread_over(today: Sums, before: Sums, k: u64) -> i128 {
    let k = i128::from(k);
    today.spread() - k * k * before.spread()
}

/// The channels that have moved and the noisy ones.
#[derive(Clone, Debug, PartialEq, Eq)]
pub struct Pedestals {
    pub moved: Vec<u16>,
    pub noisy: Vec<u16>,
}

/// The first row that fits, or the channels. The two lists have so many entries.
pub fn pedestals(
    today: &Channels,
    before: &Channels,
    form: Form,
    k: u64,
    rooms: (usize, usize),
) -> Result<Pedestals, Row> {
    if !(1..=FACTOR).contains(&k) {
        return Err((14, 0));
    }
    let channels = today.lengths.len();
    let crates = [today, before]
        .iter()
        .all(|run| is_crate(&run.ticks, &run.values, &run.lengths));
    if !crates || before.lengths.len() != channels {
        return Err((11, 0));
    }
    // Unequal parts are not allowed here.
    let tolerance = held(form).and_then(Parts::one).ok_or((4, 0))?;
    let (today, before) = (today.traces(), before.traces());
    for channel in 0..channels {
        if let Some(number) = channel_refusal(&today[channel], &before[channel]) {
            return Err((number, channel as u64));
        }
    }
    if rooms.0 < channels || rooms.1 < channels {
        return Err((10, channels as u64));
    }
    let listed = |holds: &dyn Fn(Sums, Sums) -> bool| {
        (0..channels)
            .filter(|&channel| {
                let (one, two) = (&today[channel].values, &before[channel].values);
                holds(Sums::of(one), Sums::of(two))
            })
            .map(|channel| channel as u16)
            .collect()
    };
    Ok(Pedestals {
        moved: listed(&|one, two| shift_over(one, two, tolerance) > 0),
        noisy: listed(&|one, two| spread_over(one, two, k) > 0),
    })
}

/// What is wrong with a channel: today's trace, the one before, or that they differ in their number of
/// samples.
fn channel_refusal(today: &Trace, before: &Trace) -> Option<u32> {
    for trace in [today, before] {
        if let Some((number, _)) = trace_refusal(&trace.ticks, &trace.values) {
            return Some(number);
        }
    }
    (today.ticks.len() != before.ticks.len()).then_some(13)
}

#[cfg(test)]
mod tests {
    use super::*;

    fn run(values: &[i16], lengths: &[usize]) -> Channels {
        Channels {
            ticks: (0..values.len() as u32).collect(),
            values: values.to_vec(),
            lengths: lengths.to_vec(),
        }
    }

    /// Channel 0 has moved, channel 1 is noisy, channel 2 is at both limits.
    #[test]
    fn three_channels() {
        let today = run(&[11, 13, 11, 13, -5, -5, -5, -4, 0, 2, 0, 2], &[4; 3]);
        let before = run(&[10, 12, 10, 12, -5, -5, -5, -5, 0, 1, 0, 1], &[4; 3]);
        let half = Form::Ratio(1, 2);
        let expected = Pedestals {
            moved: vec![0],
            noisy: vec![1],
        };
        let answer = |form, k, rooms| pedestals(&today, &before, form, k, rooms);
        assert_eq!(answer(half, 2, (3, 3)), Ok(expected));
        assert_eq!(answer(half, 2, (2, 3)), Err((10, 3)));
        assert_eq!(answer(half, 2, (3, 2)), Err((10, 3)));
        assert_eq!(answer(Form::Ratio(1, 0), 2, (0, 0)), Err((4, 0)));
        assert_eq!(answer(Form::Ratio(1, 0), 0, (0, 0)), Err((14, 0)));
        // Parts that are equal as numbers, unequal ones, and bad ones.
        let halves = Form::Parts((1, 2), (2, 4));
        assert_eq!(answer(halves, 2, (3, 3)), answer(half, 2, (3, 3)));
        for (above, below) in [((1, 2), (1, 3)), ((1, 2), (1, 0)), ((1, 0), (1, 2))] {
            assert_eq!(answer(Form::Parts(above, below), 2, (0, 0)), Err((4, 0)));
        }
        assert_eq!(answer(half, 17, (3, 3)), Err((14, 0)));
        let sums = Sums::of(&today.values[4..8]);
        assert_eq!((sums.n, sums.s, sums.q, sums.spread()), (4, -19, 91, 3));
    }

    /// Lengths that do not add up, and unequal channel counts; then channel by channel.
    #[test]
    fn rows() {
        let good = run(&[0; 8], &[2; 4]);
        let answer = |one: &Channels, two: &Channels| {
            pedestals(one, two, Form::Ratio(0, 1), 1, (0, 0)).unwrap_err()
        };
        for other in [&[2, 2, 2][..], &[4, 4], &[], &[usize::MAX, 9]] {
            assert_eq!(answer(&good, &run(&[0; 8], other)), (11, 0));
            assert_eq!(answer(&run(&[0; 8], other), &good), (11, 0));
        }
        assert_eq!(answer(&good, &good), (10, 4));
        assert_eq!(answer(&good, &run(&[0; 8], &[2, 3, 1, 2])), (13, 1));
        assert_eq!(answer(&good, &run(&[0; 8], &[2, 3, 0, 3])), (13, 1));
        assert_eq!(answer(&good, &run(&[0; 8], &[2, 2, 0, 4])), (1, 2));
        let mut stuck = good.clone();
        stuck.ticks[3] = stuck.ticks[2];
        assert_eq!(answer(&stuck, &run(&[0; 8], &[2, 3, 1, 2])), (2, 1));
        assert_eq!(answer(&run(&[0; 8], &[2, 3, 1, 2]), &stuck), (2, 1));
        assert_eq!(answer(&run(&[0; 8], &[3, 1, 2, 2]), &stuck), (13, 0));
        let mut far = good.clone();
        far.ticks[3] += 1_048_576;
        assert_eq!(answer(&far, &stuck), (3, 1));
        assert_eq!(answer(&stuck, &far), (2, 1));
    }
}
