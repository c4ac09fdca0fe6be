//! Reduced traces: a safe interface to the proved library Kovrelna.
//!
//! - [`Tolerance`], [`Ratio`], [`Parts`], [`hold`]: a tolerance, and the two reduced ratios it is held
//!   as.
//! - [`Limits`], [`GAP_MAX`]: a tolerance with a gap limit, which is what a link is asked to meet.
//! - [`Side`], [`Measure`], [`measure`]: a link's error, the sample where it occurs, and its side.
//! - [`Verdict`], [`judge`]: whether every link of a proposed list is valid.
//! - [`Fault`], [`GreedyVerdict`], [`judge_greedy`]: whether the size bound of the greedy reductions holds
//!   of a proposed list too.
//! - [`walk`], [`Galloped`], [`gallop`], [`minimum`]: kept lists with every link valid.
//! - [`Least`], [`least`]: the least error that a list of so many samples can have.
//! - [`TOLERANCES_MAX`], [`scan`]: what walk keeps at each of several tolerances, in one pass.
//! - [`View`], [`VIEW_K_MAX`], [`VIEW_SAMPLES_MAX`]: a view of a trace that grows.
//! - [`ReducedTrace`], [`sum`]: two traces added, with their kept lists joined.
//! - [`expand`], [`expand_with`]: the values of range codes, by the rule or by a table of the caller's.
//! - [`write()`], [`Content`], [`read`], [`same`]: records of kept samples.
//! - [`Summary`], [`Totals`], [`report`]: what walk does with each channel of a crate.
//! - [`Run`], [`Pedestals`], [`pedestals`]: the channels of a crate that have moved or are noisy.
//! - [`Refusal`]: why a call declined.
//!
//! A trace is two slices of equal length: ticks and values (ADC counts). It has 1 to 4,096 samples,
//! numbered from 0. Ticks rise strictly; the last minus the first is at most 1,048,575.
//!
//! A link goes from sample i to a later sample j. Its deviation at a sample k between them is the
//! vertical distance from value k to the straight line through samples i and j, an exact fraction.
//! The link's error is the greatest of these, 0 where nothing lies between.
//!
//! A tolerance has two parts: one for the samples above the line and one for those below it. They are
//! equal unless it is given as [`Parts`].
//!
//! A hole is two neighbouring samples that lie more ticks apart than the gap limit. A link obeys the
//! gap limit if it goes one step, from sample i to i+1, or crosses no hole. It is valid if it obeys the
//! gap limit and its deviation at each sample above the line is at most the part above, at each sample
//! below the line at most the part below; equality is valid. Where the parts are equal, that is: its
//! error is at most the tolerance. So a link of one step is always valid, and a longer one never if it
//! crosses a hole.
//!
//! A kept list begins with sample 0, rises strictly and ends with the last sample. Its links join
//! neighbouring entries and are counted from 0.
//!
//! Every call accepts every input, allocates nothing and may run at the same time on any threads.
//! [`minimum`], [`least`] and [`report`] take up to 18 KiB of stack, [`scan`] up to 4 KiB, every other call
//! under 1 KiB.
//!
//! ```
//! use kovrelna::{judge, walk, Refusal, Tolerance, Verdict};
//!
//! let (ticks, values) = ([0, 1, 3], [0, 1, 1]);
//! let tolerance = Tolerance::Ratio { p: 4, q: 6 };
//! let mut out = [0; 3];
//! let kept = walk(&ticks, &values, tolerance, &mut out)?;
//! assert_eq!(out[..kept], [0, 2]);
//! assert_eq!(judge(&ticks, &values, &out[..kept], tolerance), Ok(Verdict::Within));
//! assert_eq!(judge(&ticks, &values, &[0, 1], tolerance), Err(Refusal::List(2)));
//! # Ok::<(), Refusal>(())
//! ```
#![deny(missing_docs, unsafe_code)]

#[allow(unsafe_code)]
mod ffi;

use std::fmt;

/// Why a call declined. A call checks the rows that concern it in the order below, only
/// [`Refusal::Factor`] and then [`Refusal::Crate`] before all others, [`Refusal::Table`] right after
/// [`Refusal::Length`], and [`Refusal::Channel`] and [`Refusal::Samples`], channel by channel, right
/// before [`Refusal::Room`]; [`sum`] checks its first trace, then its second. It answers with the first
/// that fits; a refused call leaves every slice and view as it was.
#[derive(Clone, Copy, Debug, PartialEq, Eq, Hash)]
pub enum Refusal {
    /// 1: no samples or codes, too many, or ticks and values differ in length.
    Length,
    /// 2: the first sample whose tick is not above the one before.
    Tick(usize),
    /// 3: the first sample more than 1,048,575 ticks after sample 0.
    Span(usize),
    /// 20: k of a view is above 32, or its state is no view of the samples before the new one.
    View,
    /// 19: no tolerances, or more than 16.
    Count,
    /// 4: the tolerance, or a part of it, is not allowed; in [`pedestals`] also if its parts differ.
    Tolerance,
    /// 4, in [`scan`]: the position of the first tolerance that is not allowed.
    ToleranceAt(usize),
    /// 15: the gap limit is below 1 or above 1,048,575.
    Gap,
    /// 5: the allowance is below 2 or above 4,096.
    Allowance,
    /// 16: every kept list that obeys the gap limit has more samples than the allowance.
    Holes,
    /// 6: the proposed list is no kept list. The position of the first bad entry (a first one that
    /// is not 0, one that is not above the entry before it, one beyond the trace); the list's length
    /// if it only stops short; 0 if it is empty. In [`measure`] the two samples are no link of the
    /// trace: 0 if `i` is beyond it; 1 if `j` is beyond it or not above `i`.
    List(usize),
    /// 17: the first sample whose ticks in two traces differ, or that one of the traces does not have.
    Mismatch(usize),
    /// 18: the first sample whose sum is below -32,768 or above 32,767.
    Overflow(usize),
    /// 7: the position of the first invalid link of the list to be written.
    Link(usize),
    /// 8: the record is faulty at this byte.
    Record(usize),
    /// 9: the second record of a comparison is faulty at this byte.
    SecondRecord(usize),
    /// 10: the output is too short; the entries or bytes needed.
    Room(usize),
    /// 11: a crate has no channels, more than 64, or lengths that do not add up to the lists; or two
    /// runs have unequal channel counts.
    Crate,
    /// 12: the first code whose value in the range table is not above the one before; 0 if the table
    /// does not have 256 values.
    Table(usize),
    /// 1, 2 or 3, in [`pedestals`]: the trace of a channel is refused, in today's run or in the one
    /// before.
    Channel {
        /// The number of [`Refusal::Length`], [`Refusal::Tick`] or [`Refusal::Span`].
        number: u32,
        /// The channel.
        channel: usize,
    },
    /// 13: the channel in whose number of samples two runs differ.
    Samples(usize),
    /// 14: the noise factor is below 1 or above 16.
    Factor,
}

impl Refusal {
    /// The refusal's number, 1 to 20.
    pub fn number(self) -> u32 {
        match self {
            Refusal::Length => 1,
            Refusal::Tick(_) => 2,
            Refusal::Span(_) => 3,
            Refusal::View => 20,
            Refusal::Count => 19,
            Refusal::Tolerance | Refusal::ToleranceAt(_) => 4,
            Refusal::Gap => 15,
            Refusal::Allowance => 5,
            Refusal::Holes => 16,
            Refusal::List(_) => 6,
            Refusal::Mismatch(_) => 17,
            Refusal::Overflow(_) => 18,
            Refusal::Link(_) => 7,
            Refusal::Record(_) => 8,
            Refusal::SecondRecord(_) => 9,
            Refusal::Room(_) => 10,
            Refusal::Crate => 11,
            Refusal::Table(_) => 12,
            Refusal::Channel { number, .. } => number,
            Refusal::Samples(_) => 13,
            Refusal::Factor => 14,
        }
    }

    /// What is returned with the number: the payload, 0 where there is none.
    pub fn returned(self) -> usize {
        match self {
            Refusal::Length
            | Refusal::View
            | Refusal::Count
            | Refusal::Tolerance
            | Refusal::Gap
            | Refusal::Allowance
            | Refusal::Holes
            | Refusal::Crate
            | Refusal::Factor => 0,
            Refusal::Tick(value)
            | Refusal::Span(value)
            | Refusal::ToleranceAt(value)
            | Refusal::List(value)
            | Refusal::Mismatch(value)
            | Refusal::Overflow(value)
            | Refusal::Link(value)
            | Refusal::Record(value)
            | Refusal::SecondRecord(value)
            | Refusal::Room(value)
            | Refusal::Table(value)
            | Refusal::Channel { channel: value, .. }
            | Refusal::Samples(value) => value,
        }
    }

    /// An answer's number and value: nothing for 0, otherwise the refusal.
    fn check(number: u32, value: u64) -> Result<(), Refusal> {
        let value = value as usize;
        Err(match number {
            0 => return Ok(()),
            1 => Refusal::Length,
            2 => Refusal::Tick(value),
            3 => Refusal::Span(value),
            4 => Refusal::Tolerance,
            5 => Refusal::Allowance,
            6 => Refusal::List(value),
            7 => Refusal::Link(value),
            8 => Refusal::Record(value),
            9 => Refusal::SecondRecord(value),
            10 => Refusal::Room(value),
            11 => Refusal::Crate,
            12 => Refusal::Table(value),
            13 => Refusal::Samples(value),
            14 => Refusal::Factor,
            15 => Refusal::Gap,
            16 => Refusal::Holes,
            17 => Refusal::Mismatch(value),
            18 => Refusal::Overflow(value),
            19 => Refusal::Count,
            20 => Refusal::View,
            _ => unreachable!("there is no refusal {number}"),
        })
    }
}

impl ffi::Answer {
    /// The value, or the refusal.
    fn value(self) -> Result<usize, Refusal> {
        Refusal::check(self.number, self.value)?;
        Ok(self.value as usize)
    }
}

impl fmt::Display for Refusal {
    fn fmt(&self, f: &mut fmt::Formatter) -> fmt::Result {
        match self {
            Refusal::Length => {
                write!(
                    f,
                    "no samples or codes, too many, or not as many values as ticks"
                )
            }
            Refusal::Tick(sample) => {
                write!(f, "the tick of sample {sample} is not above the one before")
            }
            Refusal::Span(sample) => {
                write!(f, "sample {sample} is over 1,048,575 ticks after the first")
            }
            Refusal::View => {
                write!(
                    f,
                    "k of a view is above 32, or its state is no view of the earlier samples"
                )
            }
            Refusal::Count => write!(f, "no tolerances, or more than 16"),
            Refusal::Tolerance => write!(f, "the tolerance is not allowed"),
            Refusal::ToleranceAt(position) => {
                write!(f, "the tolerance at position {position} is not allowed")
            }
            Refusal::Gap => write!(f, "the gap limit is below 1 or above 1,048,575"),
            Refusal::Allowance => write!(f, "the allowance is below 2 or above 4,096"),
            Refusal::Holes => {
                write!(
                    f,
                    "every list that obeys the gap limit has more samples than the allowance"
                )
            }
            Refusal::List(position) => {
                write!(
                    f,
                    "no kept list: entry {position} is bad, or the list stops short there; or two \
                     samples that are no link of the trace"
                )
            }
            Refusal::Mismatch(sample) => {
                write!(
                    f,
                    "the ticks of sample {sample} differ, or only one of the traces has it"
                )
            }
            Refusal::Overflow(sample) => {
                write!(
                    f,
                    "the sum at sample {sample} is below -32,768 or above 32,767"
                )
            }
            Refusal::Link(position) => write!(f, "link {position} is invalid"),
            Refusal::Record(byte) => write!(f, "the record is faulty at byte {byte}"),
            Refusal::SecondRecord(byte) => {
                write!(f, "the second record is faulty at byte {byte}")
            }
            Refusal::Room(needed) => {
                write!(
                    f,
                    "the output is too short: {needed} entries or bytes are needed"
                )
            }
            Refusal::Crate => {
                write!(
                    f,
                    "no channels, more than 64, lengths that do not add up to the lists, or two \
                     runs with unequal channel counts"
                )
            }
            Refusal::Table(0) => write!(f, "the range table does not have 256 values"),
            Refusal::Table(code) => {
                write!(f, "the value of code {code} is not above the one before")
            }
            Refusal::Channel { number, channel } => {
                let cause = match number {
                    1 => "no samples, or too many",
                    2 => "a tick is not above the one before",
                    _ => "the span is over 1,048,575 ticks",
                };
                write!(f, "channel {channel}: {cause}")
            }
            Refusal::Samples(channel) => {
                write!(f, "the runs differ in the samples of channel {channel}")
            }
            Refusal::Factor => write!(f, "the noise factor is below 1 or above 16"),
        }
    }
}

impl std::error::Error for Refusal {}

/// A tolerance in one of four forms. The first three have the same part above and below the line. Minus
/// zero is zero; not-a-number and infinities are refused.
#[derive(Clone, Copy, Debug, PartialEq)]
pub enum Tolerance {
    /// p/q; `q` from 1 to 1,048,575, `p` from 0 to 65,535 times `q`.
    Ratio {
        /// The numerator.
        p: u64,
        /// The denominator.
        q: u64,
    },
    /// Counts: from 0 to 65,535, and 64 times it is whole.
    Counts(f64),
    /// A channel's noise times the multiple wanted, exactly.
    Noise {
        /// From 0 to 1,023, and 64 times it is whole.
        noise: f64,
        /// From 0 to 63, and 8 times it is whole.
        multiple: f64,
    },
    /// A ratio for the samples above the line and one for those below it, each as [`Tolerance::Ratio`].
    Parts(Parts),
}

impl Tolerance {
    /// This tolerance with a gap limit.
    pub fn with_gap(self, gap: u32) -> Limits {
        Limits {
            tolerance: self,
            gap,
        }
    }
}

impl From<Tolerance> for ffi::Tolerance {
    fn from(tolerance: Tolerance) -> Self {
        let unused = ffi::Tolerance::default();
        match tolerance {
            Tolerance::Ratio { p, q } => ffi::Tolerance { p, q, ..unused },
            Tolerance::Counts(x) => ffi::Tolerance {
                form: 1,
                x,
                ..unused
            },
            Tolerance::Noise { noise, multiple } => ffi::Tolerance {
                form: 2,
                x: noise,
                y: multiple,
                ..unused
            },
            Tolerance::Parts(Parts { above, below }) => ffi::Tolerance {
                form: 3,
                p: above.p,
                q: above.q,
                below_p: below.p,
                below_q: below.q,
                ..unused
            },
        }
    }
}

impl From<Parts> for Tolerance {
    fn from(parts: Parts) -> Self {
        Tolerance::Parts(parts)
    }
}

/// p/q. What a call returns is in lowest terms; zero is 0/1.
#[derive(Clone, Copy, Debug, PartialEq, Eq, Hash)]
#[repr(C)]
pub struct Ratio {
    /// The numerator.
    pub p: u64,
    /// The denominator.
    pub q: u64,
}

impl Default for Ratio {
    /// Zero, 0/1.
    fn default() -> Self {
        Ratio { p: 0, q: 1 }
    }
}

/// The two parts of a tolerance. What a call returns has each part in lowest terms.
///
/// ```
/// use kovrelna::{Parts, Ratio};
///
/// let (two, one) = (Ratio { p: 2, q: 1 }, Ratio { p: 1, q: 1 });
/// let differ = Parts { above: two, below: one };
/// assert_eq!((differ.one(), differ.to_string()), (None, "2/1 1/1".to_string()));
/// let equal = Parts { above: two, below: two };
/// assert_eq!((equal.one(), equal.to_string()), (Some(two), "2/1".to_string()));
/// ```
#[derive(Clone, Copy, Debug, PartialEq, Eq, Hash)]
pub struct Parts {
    /// The part for the samples above the line.
    pub above: Ratio,
    /// The part for the samples below the line.
    pub below: Ratio,
}

impl Parts {
    /// The parts of these numbers in C.
    fn of(p: u64, q: u64, below_p: u64, below_q: u64) -> Parts {
        Parts {
            above: Ratio { p, q },
            below: Ratio {
                p: below_p,
                q: below_q,
            },
        }
    }

    /// The ratio that both parts are, where they have the same p and the same q. Parts in lowest terms
    /// are equal as numbers exactly there.
    pub fn one(self) -> Option<Ratio> {
        (self.above == self.below).then_some(self.above)
    }
}

/// One ratio where both parts are the same; otherwise both, the part above first, with a space between.
impl fmt::Display for Parts {
    fn fmt(&self, f: &mut fmt::Formatter) -> fmt::Result {
        let Parts { above, below } = self;
        write!(f, "{}/{}", above.p, above.q)?;
        if self.one().is_none() {
            write!(f, " {}/{}", below.p, below.q)?;
        }
        Ok(())
    }
}

/// The parts under which the tolerance is held, each in lowest terms; both are the same for a tolerance
/// that is not given as parts. Refusal: [`Refusal::Tolerance`] if either part is not allowed.
///
/// ```
/// use kovrelna::{hold, Parts, Ratio, Refusal, Tolerance};
///
/// let tolerance = Tolerance::Noise { noise: 1.5, multiple: 2.125 };
/// let ratio = Ratio { p: 51, q: 16 };
/// assert_eq!(hold(tolerance), Ok(Parts { above: ratio, below: ratio }));
/// assert_eq!(hold(Tolerance::Counts(f64::NAN)), Err(Refusal::Tolerance));
///
/// let parts = Parts { above: Ratio { p: 4, q: 6 }, below: Ratio { p: 2, q: 2 } };
/// let held = Parts { above: Ratio { p: 2, q: 3 }, below: Ratio { p: 1, q: 1 } };
/// assert_eq!(hold(parts.into()), Ok(held));
/// let bad = Parts { below: Ratio { p: 1, q: 0 }, ..parts };
/// assert_eq!(hold(bad.into()), Err(Refusal::Tolerance));
/// ```
pub fn hold(tolerance: Tolerance) -> Result<Parts, Refusal> {
    let held = ffi::hold(tolerance.into());
    Refusal::check(held.number, held.value)?;
    Ok(Parts::of(held.p, held.q, held.below_p, held.below_q))
}

/// The largest gap limit, which is none: no two samples of a trace lie further apart.
pub const GAP_MAX: u32 = 1_048_575;

/// What a link is asked to meet: a tolerance, and a gap limit from 1 to [`GAP_MAX`] ticks. Exactly so
/// many ticks apart is no hole. Other gap limits are refused as [`Refusal::Gap`]. A tolerance alone is
/// one without a gap limit; [`Tolerance::with_gap`] gives it one.
///
/// ```
/// use kovrelna::{Limits, Tolerance, GAP_MAX};
///
/// let two = Tolerance::Counts(2.0);
/// assert_eq!(two.with_gap(7), Limits { tolerance: two, gap: 7 });
/// assert_eq!(Limits::from(two), two.with_gap(GAP_MAX));
/// ```
#[derive(Clone, Copy, Debug, PartialEq)]
pub struct Limits {
    /// The tolerance.
    pub tolerance: Tolerance,
    /// The gap limit.
    pub gap: u32,
}

impl From<Tolerance> for Limits {
    fn from(tolerance: Tolerance) -> Self {
        tolerance.with_gap(GAP_MAX)
    }
}

impl ffi::Limits {
    /// The limits as C takes them.
    fn of(limits: impl Into<Limits>) -> Self {
        let Limits { tolerance, gap } = limits.into();
        ffi::Limits {
            tolerance: tolerance.into(),
            gap,
        }
    }
}

/// Where a sample lies beside a link.
///
/// ```
/// use kovrelna::Side;
///
/// let sides = [Side::On, Side::Above, Side::Below, Side::Gap];
/// assert_eq!(sides.map(|side| side.to_string()), ["on", "above", "below", "gap"]);
/// ```
#[derive(Clone, Copy, Debug, PartialEq, Eq, Hash)]
pub enum Side {
    /// On the line.
    On,
    /// Its value is above the line.
    Above,
    /// Its value is below the line.
    Below,
    /// The sample lies before a hole, and only the gap limit makes the link invalid. Said by [`judge`]
    /// alone.
    Gap,
}

impl Side {
    /// The side with this number in C.
    fn of(number: u32) -> Side {
        match number {
            0 => Side::On,
            1 => Side::Above,
            2 => Side::Below,
            3 => Side::Gap,
            _ => unreachable!("there is no side {number}"),
        }
    }
}

impl fmt::Display for Side {
    fn fmt(&self, f: &mut fmt::Formatter) -> fmt::Result {
        f.pad(match self {
            Side::On => "on",
            Side::Above => "above",
            Side::Below => "below",
            Side::Gap => "gap",
        })
    }
}

/// A link's error and a sample of it: what [`measure`] returns, and what [`judge`] says of an invalid
/// link.
#[derive(Clone, Copy, Debug, PartialEq, Eq, Hash)]
pub struct Measure {
    /// The link's error, in lowest terms.
    pub error: Ratio,
    /// The first sample whose deviation is the error; the link's first sample for [`Side::On`], the
    /// one before the link's first hole for [`Side::Gap`].
    pub sample: usize,
    /// Where this sample lies.
    pub side: Side,
}

impl Measure {
    /// The measure of these numbers in C.
    fn of(p: u64, q: u64, sample: u64, side: u32) -> Measure {
        Measure {
            error: Ratio { p, q },
            sample: sample as usize,
            side: Side::of(side),
        }
    }
}

/// The measure of the link from sample `i` to sample `j`: its error, the first sample between them
/// whose deviation is that error, and whether this sample lies above or below the line. An error of 0
/// gives the sample `i` and [`Side::On`]. Refusals: [`Refusal::Length`], [`Refusal::Tick`],
/// [`Refusal::Span`], [`Refusal::List`].
///
/// ```
/// use kovrelna::{measure, Measure, Ratio, Refusal, Side};
///
/// let error = Ratio { p: 2, q: 3 };
/// let above = Measure { error, sample: 1, side: Side::Above };
/// assert_eq!(measure(&[0, 1, 3], &[0, 1, 1], 0, 2), Ok(above));
/// let on = Measure { error: Ratio { p: 0, q: 1 }, sample: 0, side: Side::On };
/// assert_eq!(measure(&[0, 1, 3], &[0, 0, 0], 0, 2), Ok(on));
///
/// // Samples 1 and 3 are equally far from the line: the first is given.
/// let (ticks, values) = ([0, 1, 2, 3, 4], [0, 2, 0, -2, 0]);
/// let error = Ratio { p: 2, q: 1 };
/// let above = Measure { error, sample: 1, side: Side::Above };
/// assert_eq!(measure(&ticks, &values, 0, 4), Ok(above));
/// let below = Measure { error, sample: 3, side: Side::Below };
/// assert_eq!(measure(&ticks, &values, 2, 4), Ok(below));
///
/// assert_eq!(measure(&ticks, &values, 5, 6), Err(Refusal::List(0)));
/// assert_eq!(measure(&ticks, &values, 4, 5), Err(Refusal::List(1)));
/// assert_eq!(measure(&ticks, &values, 2, 2), Err(Refusal::List(1)));
/// ```
pub fn measure(ticks: &[u32], values: &[i16], i: usize, j: usize) -> Result<Measure, Refusal> {
    let measured = ffi::measure(ticks, values, i, j);
    Refusal::check(measured.number, measured.value)?;
    let ffi::Measured {
        p, q, sample, side, ..
    } = measured;
    Ok(Measure::of(p, q, sample, side))
}

/// What [`judge`] says of a kept list.
#[derive(Clone, Copy, Debug, PartialEq, Eq, Hash)]
pub enum Verdict {
    /// Every link is valid.
    Within,
    /// Some link is invalid.
    Outside {
        /// The position of the first invalid link, counted from 0.
        link: usize,
        /// Where this link strays.
        measure: Measure,
    },
}

/// Whether every link of the proposed list is valid on this trace. If not, of the first invalid link:
/// where a sample deviates by more than its part of the tolerance, its measure, as [`measure`] gives it;
/// otherwise only the gap limit makes it invalid, and its error, which may be 0, is given with the sample
/// before its first hole and [`Side::Gap`].
///
/// The measure names the first sample that lies farthest from the line. Where the parts of the tolerance
/// differ, that sample may lie within its own part, and another one not. Where they are equal, it never
/// does.
///
/// Refusals: [`Refusal::Length`], [`Refusal::Tick`], [`Refusal::Span`], [`Refusal::Tolerance`],
/// [`Refusal::Gap`], [`Refusal::List`].
///
/// ```
/// use kovrelna::{judge, Measure, Parts, Ratio, Side, Tolerance, Verdict};
///
/// let (ticks, values) = ([0, 1, 2, 3, 4], [0, 3, 0, 3, 0]);
/// let two = Tolerance::Counts(2.0);
/// assert_eq!(judge(&ticks, &values, &[0, 3, 4], two), Ok(Verdict::Within));
/// let measure = Measure { error: Ratio { p: 3, q: 1 }, sample: 3, side: Side::Above };
/// let outside = Verdict::Outside { link: 2, measure };
/// assert_eq!(judge(&ticks, &values, &[0, 1, 2, 4], two), Ok(outside));
///
/// // Sample 1 lies below the line by 1/3, and may not. Sample 2 lies above it by 4/3, and may.
/// let (ticks, values) = ([0, 1, 2, 3], [1, 0, 1, -1]);
/// let parts = Parts { above: Ratio { p: 5, q: 1 }, below: Ratio { p: 0, q: 1 } };
/// let measure = Measure { error: Ratio { p: 4, q: 3 }, sample: 2, side: Side::Above };
/// let outside = Verdict::Outside { link: 0, measure };
/// assert_eq!(judge(&ticks, &values, &[0, 3], Tolerance::Parts(parts)), Ok(outside));
///
/// // Samples 2 and 3 lie 8 ticks apart.
/// let (ticks, values) = ([0, 1, 2, 10, 11, 12], [0; 6]);
/// let list = [0, 2, 5];
/// assert_eq!(judge(&ticks, &values, &list, two.with_gap(8)), Ok(Verdict::Within));
/// let measure = Measure { error: Ratio { p: 0, q: 1 }, sample: 2, side: Side::Gap };
/// let outside = Verdict::Outside { link: 1, measure };
/// assert_eq!(judge(&ticks, &values, &list, two.with_gap(7)), Ok(outside));
/// ```
pub fn judge(
    ticks: &[u32],
    values: &[i16],
    list: &[u16],
    limits: impl Into<Limits>,
) -> Result<Verdict, Refusal> {
    let judged = ffi::judge(ticks, values, list, ffi::Limits::of(limits));
    Refusal::check(judged.number, judged.value)?;
    let ffi::Judged {
        p, q, sample, side, ..
    } = judged;
    Ok(match judged.passed {
        0 => Verdict::Outside {
            link: judged.value as usize,
            measure: Measure::of(p, q, sample, side),
        },
        _ => Verdict::Within,
    })
}

/// What [`judge_greedy`] finds at fault.
///
/// ```
/// use kovrelna::Fault;
///
/// assert_eq!([Fault::Link, Fault::Stop].map(|fault| fault.to_string()), ["link", "stop"]);
/// ```
#[derive(Clone, Copy, Debug, PartialEq, Eq, Hash)]
pub enum Fault {
    /// The link is invalid.
    Link,
    /// The link is valid, does not end at the last sample, and the link from the same start to the sample
    /// after its end is valid too.
    Stop,
}

impl Fault {
    /// The fault with this number in C.
    fn of(number: u32) -> Fault {
        match number {
            1 => Fault::Link,
            2 => Fault::Stop,
            _ => unreachable!("there is no fault {number}"),
        }
    }
}

impl fmt::Display for Fault {
    fn fmt(&self, f: &mut fmt::Formatter) -> fmt::Result {
        f.pad(match self {
            Fault::Link => "link",
            Fault::Stop => "stop",
        })
    }
}

/// What [`judge_greedy`] says of a kept list.
#[derive(Clone, Copy, Debug, PartialEq, Eq, Hash)]
pub enum GreedyVerdict {
    /// No link is at fault.
    Yes,
    /// Some link is at fault.
    No {
        /// The position of the first link at fault, counted from 0.
        link: usize,
        /// What is wrong with it.
        fault: Fault,
    },
}

/// Whether every link of the proposed list is valid on this trace, and each stop but the last sample is
/// followed by an invalid link from the same start: where a link goes from sample i to sample j, and j is
/// not the last sample, the link from i to j+1 is invalid. Sample j+1 need not be kept. If not, the first
/// link at fault: [`Fault::Link`] if it is invalid itself, whatever the link to the next sample is;
/// otherwise [`Fault::Stop`]. A no carries no measure: [`judge`] and [`measure`] give that of an invalid
/// link.
///
/// Of a list that passes, however it was made, and for all fractions a and b, neither below 0, whose sum is
/// at most the smaller part of the tolerance: no kept list that obeys the gap limit, and from whose lines no
/// sample lies more than a above or more than b below, has fewer samples. With equal parts and a = b that is
/// said of every list within half the tolerance.
///
/// The lists of [`walk`] and [`gallop`] always pass; those of [`minimum`] need not. A list that passes here
/// passes [`judge`] too.
///
/// Refusals: [`Refusal::Length`], [`Refusal::Tick`], [`Refusal::Span`], [`Refusal::Tolerance`],
/// [`Refusal::Gap`], [`Refusal::List`].
///
/// ```
/// use kovrelna::{judge_greedy, Fault, GreedyVerdict, Refusal, Tolerance};
///
/// let (ticks, two) = ([0, 1, 2, 3, 4], Tolerance::Counts(2.0));
/// let judged = |values: [i16; 5], list: &[u16]| judge_greedy(&ticks, &values, list, two);
/// let no = |link, fault| Ok(GreedyVerdict::No { link, fault });
///
/// let zigzag = [0, 3, 0, 3, 0];
/// assert_eq!(judged(zigzag, &[0, 1, 2, 3, 4]), Ok(GreedyVerdict::Yes));
/// assert_eq!(judged(zigzag, &[0, 3, 4]), Ok(GreedyVerdict::Yes));
/// assert_eq!(judged(zigzag, &[0, 4]), no(0, Fault::Link));
///
/// // The link from 0 to 1 is valid, and so is the one from 0 to 2.
/// let wave = [0, 2, 0, -2, 0];
/// assert_eq!(judged(wave, &[0, 2, 4]), Ok(GreedyVerdict::Yes));
/// assert_eq!(judged(wave, &[0, 1, 4]), no(0, Fault::Stop));
/// // The link from 0 to 3 is invalid, though the one from 0 to 4 is valid.
/// assert_eq!(judged(wave, &[0, 3, 4]), no(0, Fault::Link));
/// assert_eq!(judged(wave, &[0, 2]), Err(Refusal::List(2)));
///
/// // Samples 2 and 3 lie 8 ticks apart: under the gap limit 7 the link from 0 to 3 is invalid.
/// let (ticks, values, list) = ([0, 1, 2, 10, 11, 12], [0; 6], [0, 2, 3, 5]);
/// let under = |gap| judge_greedy(&ticks, &values, &list, two.with_gap(gap));
/// assert_eq!(under(7), Ok(GreedyVerdict::Yes));
/// assert_eq!(under(8), no(0, Fault::Stop));
/// ```
pub fn judge_greedy(
    ticks: &[u32],
    values: &[i16],
    list: &[u16],
    limits: impl Into<Limits>,
) -> Result<GreedyVerdict, Refusal> {
    let judged = ffi::judge_greedy(ticks, values, list, ffi::Limits::of(limits));
    Refusal::check(judged.number, judged.value)?;
    Ok(match judged.passed {
        0 => GreedyVerdict::No {
            link: judged.value as usize,
            fault: Fault::of(judged.fault),
        },
        _ => GreedyVerdict::Yes,
    })
}

/// From sample i, beginning with 0, tests the links to i+1, i+2, ... and keeps the sample before the
/// first invalid one, or the last sample if none is invalid; goes on from there.
///
/// Returns the kept number: the first that many entries of `out` are the kept list, and those after
/// them are as they were.
///
/// For all fractions a and b, neither below 0, whose sum is at most the smaller part of the tolerance: no
/// kept list that obeys the gap limit, and from whose lines no sample lies more than a above or more than
/// b below, has fewer samples. With equal parts and a = b that is said of every list within half the
/// tolerance. A list that does not obey the gap limit may have fewer samples, and so may one within half
/// of each part where the parts differ.
///
/// Refusals: [`Refusal::Length`], [`Refusal::Tick`], [`Refusal::Span`], [`Refusal::Tolerance`],
/// [`Refusal::Gap`], and [`Refusal::Room`] if `out` has fewer entries than the trace has samples.
///
/// ```
/// use kovrelna::{judge, walk, Parts, Ratio, Refusal, Tolerance, Verdict};
///
/// let (ticks, values) = ([0, 1, 2, 3, 4], [0, 2, 0, -2, 0]);
/// let two = Tolerance::Counts(2.0);
/// let mut out = [9; 6];
/// assert_eq!(walk(&ticks, &values, two, &mut out), Ok(3));
/// assert_eq!(out, [0, 2, 4, 9, 9, 9]);
/// assert_eq!(walk(&ticks, &values, two, &mut out[..4]), Err(Refusal::Room(5)));
///
/// let parts = |above, below| {
///     Tolerance::Parts(Parts { above: Ratio { p: above, q: 2 }, below: Ratio { p: below, q: 2 } })
/// };
/// assert_eq!(walk(&ticks, &values, parts(4, 2), &mut out), Ok(4));
/// assert_eq!(out[..4], [0, 2, 3, 4]);
///
/// // The list of both ends is within half of each part, and shorter.
/// let (ticks, values) = ([0, 1, 2, 3], [1, 1, 0, 1]);
/// assert_eq!(walk(&ticks, &values, parts(0, 6), &mut out), Ok(3));
/// assert_eq!(out[..3], [0, 1, 3]);
/// assert_eq!(judge(&ticks, &values, &[0, 3], parts(0, 3)), Ok(Verdict::Within));
///
/// // Samples 2 and 3 lie 8 ticks apart.
/// let (ticks, values) = ([0, 1, 2, 10, 11, 12], [0; 6]);
/// let mut out = [9; 6];
/// assert_eq!(walk(&ticks, &values, two.with_gap(7), &mut out), Ok(4));
/// assert_eq!(out, [0, 2, 3, 5, 9, 9]);
/// assert_eq!(walk(&ticks, &values, two.with_gap(8), &mut out), Ok(2));
/// assert_eq!(out[..2], [0, 5]);
/// assert_eq!(walk(&ticks, &values, two.with_gap(0), &mut out), Err(Refusal::Gap));
/// ```
pub fn walk(
    ticks: &[u32],
    values: &[i16],
    limits: impl Into<Limits>,
    out: &mut [u16],
) -> Result<usize, Refusal> {
    ffi::walk(ticks, values, ffi::Limits::of(limits), out).value()
}

/// What [`gallop`] returns.
#[derive(Clone, Copy, Debug, PartialEq, Eq, Hash)]
pub struct Galloped {
    /// The kept number.
    pub kept: usize,
    /// The probe total.
    pub probes: usize,
}

/// From sample i, beginning with 0, probes the links to i+2, i+4, i+8, ... until one is invalid. Low
/// is the last valid offset, or 1; high is the invalid one. While low < high - 1, probes the offset
/// (low + high) / 2, rounded down, and moves low there if that link is valid, high if not. Keeps
/// sample i + low and goes on from there.
///
/// A probe past the last sample is invalid, and counts.
///
/// A stop is a kept sample after the first. One that advances by r samples takes exactly
/// 2 floor(log2 r) + 1 probes, the last stop too, and the total is the sum of these. For s stops of a
/// trace of n samples it is at most s (2 floor(log2(n - 1)) + 1), and at most 2 (n - 1) - s, which is
/// reached exactly where no stop advances by more than 2 samples. One sample takes no probe.
///
/// The output, its promise and the refusals are those of [`walk`].
///
/// ```
/// use kovrelna::{gallop, Galloped, Tolerance};
///
/// let (ticks, values) = ([0, 1, 2, 3, 4], [0, 2, 0, -2, 0]);
/// let mut out = [9; 5];
/// let answer = gallop(&ticks, &values, Tolerance::Counts(2.0), &mut out);
/// assert_eq!(answer, Ok(Galloped { kept: 2, probes: 5 }));
/// assert_eq!(out, [0, 4, 9, 9, 9]);
///
/// let stop = |link: &[u16]| 2 * (link[1] - link[0]).ilog2() + 1;
/// assert_eq!(out[..2].windows(2).map(stop).sum::<u32>(), 5);
/// ```
pub fn gallop(
    ticks: &[u32],
    values: &[i16],
    limits: impl Into<Limits>,
    out: &mut [u16],
) -> Result<Galloped, Refusal> {
    let answer = ffi::gallop(ticks, values, ffi::Limits::of(limits), out);
    Refusal::check(answer.number, answer.value)?;
    Ok(Galloped {
        kept: answer.value as usize,
        probes: answer.probes as usize,
    })
}

/// The kept list of valid links with fewest samples. Of several, the one whose second sample is
/// latest, then its third, and so on.
///
/// Returns the kept number: the first that many entries of `out` are the kept list, and those after
/// them are as they were. The refusals are those of [`walk`].
///
/// ```
/// use kovrelna::{minimum, walk, Tolerance};
///
/// let (ticks, values) = ([0, 1, 2, 3, 4], [0, 3, 0, 3, 0]);
/// let two = Tolerance::Counts(2.0);
/// let mut out = [9; 5];
/// assert_eq!(minimum(&ticks, &values, two, &mut out), Ok(3));
/// assert_eq!(out, [0, 3, 4, 9, 9]);
/// assert_eq!(walk(&ticks, &values, two, &mut out), Ok(5));
/// ```
pub fn minimum(
    ticks: &[u32],
    values: &[i16],
    limits: impl Into<Limits>,
    out: &mut [u16],
) -> Result<usize, Refusal> {
    ffi::minimum(ticks, values, ffi::Limits::of(limits), out).value()
}

/// What [`least`] returns.
#[derive(Clone, Copy, Debug, PartialEq, Eq, Hash)]
pub struct Least {
    /// The kept number.
    pub kept: usize,
    /// The least error, in lowest terms.
    pub error: Ratio,
}

/// The least error over the kept lists of at most `allowance` samples that obey the gap limit, where a
/// list's error is that of its worst link; and the list that [`minimum`] keeps with that error as the
/// tolerance under the same gap limit. [`GAP_MAX`] is no gap limit.
///
/// The first entries of `out` are the kept list, and those after them are as they were. No kept list
/// that obeys the gap limit and has at most `allowance` samples has a lesser error.
///
/// Refusals: [`Refusal::Length`] if the trace is none or has more than 256 samples, [`Refusal::Tick`],
/// [`Refusal::Span`], [`Refusal::Gap`], [`Refusal::Allowance`] if the allowance is below 2 or above
/// 4,096, [`Refusal::Holes`], and [`Refusal::Room`] if `out` has fewer entries than the trace has
/// samples. The shortest kept list that obeys the gap limit has both ends of the trace and the two
/// samples beside each hole; [`Refusal::Holes`] is given exactly if it has more than `allowance`
/// samples.
///
/// ```
/// use kovrelna::{least, Least, Ratio, Refusal, GAP_MAX};
///
/// let (ticks, values) = ([0, 1, 2, 3, 4], [0, 3, 0, 3, 0]);
/// let mut out = [9; 5];
/// let error = Ratio { p: 2, q: 1 };
/// assert_eq!(least(&ticks, &values, GAP_MAX, 4, &mut out), Ok(Least { kept: 3, error }));
/// assert_eq!(out, [0, 3, 4, 9, 9]);
/// assert_eq!(least(&ticks, &values, GAP_MAX, 1, &mut out), Err(Refusal::Allowance));
///
/// // Samples 2 and 3 lie 8 ticks apart.
/// let (ticks, values) = ([0, 1, 2, 10, 11, 12], [0; 6]);
/// let mut out = [9; 6];
/// assert_eq!(least(&ticks, &values, 7, 3, &mut out), Err(Refusal::Holes));
/// let error = Ratio { p: 0, q: 1 };
/// assert_eq!(least(&ticks, &values, 7, 4, &mut out), Ok(Least { kept: 4, error }));
/// assert_eq!(out, [0, 2, 3, 5, 9, 9]);
/// ```
pub fn least(
    ticks: &[u32],
    values: &[i16],
    gap: u32,
    allowance: u64,
    out: &mut [u16],
) -> Result<Least, Refusal> {
    let answer = ffi::least(ticks, values, gap, allowance, out);
    Refusal::check(answer.number, answer.value)?;
    Ok(Least {
        kept: answer.value as usize,
        error: Ratio {
            p: answer.p,
            q: answer.q,
        },
    })
}

/// The most tolerances of a [`scan`].
pub const TOLERANCES_MAX: usize = 16;

impl ffi::Tolerances {
    /// The tolerances as C takes them. Of more than 16 it has the first 16 with the whole count, so that
    /// they are refused.
    fn of(tolerances: &[Tolerance]) -> Self {
        let mut list = [ffi::Tolerance::default(); TOLERANCES_MAX];
        for (entry, &tolerance) in list.iter_mut().zip(tolerances) {
            *entry = tolerance.into();
        }
        ffi::Tolerances {
            count: tolerances.len() as u64,
            list,
        }
    }
}

/// What [`walk`] keeps at each of 1 to 16 tolerances under one gap limit, found in a single pass over the
/// trace. The tolerances may repeat, and come in any order and in any form. [`GAP_MAX`] is no gap limit.
///
/// Returns the kept number at each tolerance, and 0 from the number of tolerances on. The lists lie one
/// after another in `out`, each in a part with an entry for each sample: for a trace of n samples the
/// entries from a n on, as many as the kept number at a, are the list of [`walk`] at tolerance a. All other
/// entries are as they were: the rest of each part, and what lies behind the last part.
///
/// In the pass, once sample j has been taken in, from sample 1 on, the samples kept so far with sample j as
/// the last are the lists of [`walk`] of samples 0 to j.
///
/// Refusals: [`Refusal::Length`], [`Refusal::Tick`], [`Refusal::Span`], [`Refusal::Count`],
/// [`Refusal::ToleranceAt`], [`Refusal::Gap`], and [`Refusal::Room`] if `out` has fewer entries than the
/// number of tolerances times that of samples.
///
/// ```
/// use kovrelna::{scan, Refusal, Tolerance, GAP_MAX};
///
/// let (ticks, values) = ([0, 1, 2, 3, 4], [0, 2, 0, -2, 0]);
/// let ratio = |p, q| Tolerance::Ratio { p, q };
/// let tolerances = [Tolerance::Counts(2.0), ratio(8, 3), ratio(1, 2)];
/// let mut out = [9; 16];
/// let kept = scan(&ticks, &values, &tolerances, GAP_MAX, &mut out)?;
/// assert_eq!(kept[..4], [3, 2, 4, 0]);
/// assert_eq!(out, [0, 2, 4, 9, 9, 0, 4, 9, 9, 9, 0, 1, 3, 4, 9, 9]);
/// let lists: Vec<&[u16]> = out.chunks(5).zip(kept).map(|(part, kept)| &part[..kept]).collect();
/// assert_eq!(lists[..3], [&[0, 2, 4][..], &[0, 4], &[0, 1, 3, 4]]);
///
/// let answer = scan(&ticks, &values, &tolerances, GAP_MAX, &mut out[..14]);
/// assert_eq!(answer, Err(Refusal::Room(15)));
/// let answer = scan(&ticks, &values, &[ratio(1, 1), ratio(1, 0)], GAP_MAX, &mut out);
/// assert_eq!(answer, Err(Refusal::ToleranceAt(1)));
/// assert_eq!(scan(&ticks, &values, &[ratio(1, 1); 17], 1, &mut out), Err(Refusal::Count));
///
/// // Samples 2 and 3 lie 8 ticks apart.
/// let (ticks, values) = ([0, 1, 2, 10, 11, 12], [0; 6]);
/// let kept = scan(&ticks, &values, &[ratio(2, 1)], 7, &mut out)?;
/// assert_eq!(out[..kept[0]], [0, 2, 3, 5]);
/// # Ok::<(), Refusal>(())
/// ```
pub fn scan(
    ticks: &[u32],
    values: &[i16],
    tolerances: &[Tolerance],
    gap: u32,
    out: &mut [u16],
) -> Result<[usize; TOLERANCES_MAX], Refusal> {
    let answer = ffi::scan(ticks, values, ffi::Tolerances::of(tolerances), gap, out);
    if answer.number == 4 {
        return Err(Refusal::ToleranceAt(answer.value as usize));
    }
    Refusal::check(answer.number, answer.value)?;
    Ok(answer.kept.map(|kept| kept as usize))
}

/// The largest k of a [`View`].
pub const VIEW_K_MAX: u32 = 32;

/// The most samples that a [`View`] keeps: both ends and 2 k inner ones at the largest k.
pub const VIEW_SAMPLES_MAX: usize = 66;

/// The state of a live view, which keeps a few samples of a trace while it grows: with k from 0 to 32,
/// both ends and at most 2 k inner samples, those between the ends. It is begun from k alone, and each
/// new sample is added to it in place.
///
/// A state is plain data: it may be copied, saved and restored.
///
/// ```
/// use kovrelna::{Refusal, View};
///
/// let (ticks, values) = ([0, 1, 2, 3, 4, 5, 6, 7], [-4, -4, 0, 4, -4, 4, -4, 0]);
/// let mut view = View::begin(1)?;
/// assert_eq!(view.list(), [0]);
/// for n in 2..=8 {
///     view.add(&ticks[..n], &values[..n])?;
/// }
/// assert_eq!(view.list(), [0, 4, 5, 7]);
///
/// // The samples so far are lent once more, with no new one.
/// let before = view;
/// assert_eq!(view.add(&ticks, &values), Err(Refusal::View));
/// assert_eq!(view, before);
/// assert_eq!(View::begin(33), Err(Refusal::View));
/// # Ok::<(), Refusal>(())
/// ```
#[repr(C)]
#[derive(Clone, Copy, Debug, PartialEq, Eq, Hash)]
pub struct View {
    /// Half the most inner samples that the view keeps.
    pub k: u32,
    /// The kept number.
    pub count: u32,
    /// The kept list in the first `count` entries. Those behind it mean nothing, and additions leave
    /// them as they were.
    pub samples: [u16; VIEW_SAMPLES_MAX],
}

impl View {
    /// Begins a view: this k and the list 0, which is the view of the first sample. All entries of its
    /// samples are 0.
    ///
    /// Refusal: [`Refusal::View`] if k is above 32.
    pub fn begin(k: u64) -> Result<View, Refusal> {
        let answer = ffi::view_begin(k);
        Refusal::check(answer.number, answer.value)?;
        Ok(answer.view)
    }

    /// Adds a new sample to the view of the samples before it. The trace has all of these, with the new
    /// sample last, so that the first addition is lent two samples.
    ///
    /// The new sample is put at the end of the list. If that makes 2 k + 1 inner samples, the one whose
    /// neighbours in the list have the link with the least error is dropped, the earliest among equals:
    /// so the new sample never is, and the one before it, the last until then, may be. No gap limit
    /// applies.
    ///
    /// For a view that was begun on the first sample and changed only by additions, with k and the
    /// earlier samples unaltered, the list's error, that of its worst link, is at most twice that of
    /// every kept list of the trace with at most k inner samples; so it is at most twice the error of
    /// [`least`] with the allowance k + 2 and no gap limit, for as many samples as that takes. For a
    /// state set by hand there is no such bound.
    ///
    /// An addition checks every tick that it is lent and, where it drops a sample, looks at each sample
    /// at most twice: its time grows in proportion to the number of samples lent. So a whole trace of n
    /// samples, added one by one, takes time in proportion to n squared.
    ///
    /// Refusals: [`Refusal::Length`], [`Refusal::Tick`], [`Refusal::Span`] of the trace with the new
    /// sample; [`Refusal::View`] if k is above 32, if the list is no kept list of the samples before the
    /// new one (a count of 0 or above 66 is none, and of a trace of one sample there is none), or if it
    /// has more than 2 k inner samples. A refused addition leaves the whole state as it was.
    pub fn add(&mut self, ticks: &[u32], values: &[i16]) -> Result<(), Refusal> {
        ffi::view_add(self, ticks, values).value()?;
        Ok(())
    }

    /// The kept list: the first `count` entries of `samples`, all of them if `count` is above 66.
    pub fn list(&self) -> &[u16] {
        &self.samples[..VIEW_SAMPLES_MAX.min(self.count as usize)]
    }
}

/// A trace with a kept list of it.
#[derive(Clone, Copy, Debug)]
pub struct ReducedTrace<'a> {
    /// The ticks of the trace.
    pub ticks: &'a [u32],
    /// The values of the trace.
    pub values: &'a [i16],
    /// The kept list.
    pub list: &'a [u16],
}

/// Adds two traces with the same ticks sample by sample, and joins their two kept lists into the rising
/// list of the samples in either, each once. The sums are the values of the summed trace, whose ticks
/// are those of either trace; the joined list is a kept list of it.
///
/// Returns its kept number: the first that many entries of `joined` are the joined list, and the first
/// entries of `sums`, one for each sample, are the sums. The entries after them are as they were.
///
/// If every link of the first list is valid on the first trace with the parts U1 above and D1 below, and
/// every link of the second list on the second trace with U2 and D2, under the same gap limit, then every
/// link of the joined list is valid on the summed trace at U1 + D1 + U2 + D2, above and below alike, under
/// that gap limit; with equal parts T1 and T2 that is 2 (T1 + T2). This holds for any fractions, whether
/// they are allowed as tolerances or not. It does not hold with U1 + U2 above and D1 + D2 below, which for
/// equal parts is T1 + T2.
///
/// Refusals: [`Refusal::Length`], [`Refusal::Tick`], [`Refusal::Span`] of the first trace, then of the
/// second; [`Refusal::List`] of the first list, then of the second; [`Refusal::Mismatch`];
/// [`Refusal::Overflow`]; last [`Refusal::Room`] if either output has fewer entries than the traces have
/// samples.
///
/// ```
/// use kovrelna::{judge, measure, sum, Measure, Parts, Ratio, ReducedTrace, Refusal, Side};
/// use kovrelna::{Tolerance, Verdict};
///
/// let ticks = [0, 1, 2, 3, 4];
/// let first = ReducedTrace { ticks: &ticks, values: &[-6, -6, 0, 6, -6], list: &[0, 1, 3, 4] };
/// let second = ReducedTrace { ticks: &ticks, values: &[3, 4, 2, 4, 3], list: &[0, 4] };
/// let (mut sums, mut joined) = ([9; 6], [9; 6]);
/// assert_eq!(sum(first, second, &mut sums, &mut joined), Ok(4));
/// assert_eq!((sums, joined), ([-3, -2, 2, 10, -3, 9], [0, 1, 3, 4, 9, 9]));
///
/// // The lists are within 0 and 1, the joined list within 2 and no less.
/// let within = |trace: ReducedTrace, counts| {
///     judge(trace.ticks, trace.values, trace.list, Tolerance::Counts(counts))
/// };
/// assert_eq!(within(first, 0.0), Ok(Verdict::Within));
/// assert_eq!(within(second, 1.0), Ok(Verdict::Within));
/// let summed = ReducedTrace { ticks: &ticks, values: &sums[..5], list: &joined[..4] };
/// assert_eq!(within(summed, 2.0), Ok(Verdict::Within));
/// assert_eq!(measure(&ticks, summed.values, 1, 3)?.error, Ratio { p: 2, q: 1 });
///
/// // The second list is within 2 above and 1 below. In the joined list sample 2 lies 3 below its line.
/// let second = ReducedTrace { values: &[3, 5, 2, 5, 3], ..second };
/// let parts = Parts { above: Ratio { p: 2, q: 1 }, below: Ratio { p: 1, q: 1 } };
/// let verdict = judge(&ticks, second.values, second.list, Tolerance::Parts(parts));
/// assert_eq!(verdict, Ok(Verdict::Within));
/// assert_eq!(sum(first, second, &mut sums, &mut joined), Ok(4));
/// let below = Measure { error: Ratio { p: 3, q: 1 }, sample: 2, side: Side::Below };
/// assert_eq!(measure(&ticks, &sums[..5], 1, 3), Ok(below));
///
/// let late = ReducedTrace { ticks: &[0, 1, 2, 3, 5], ..second };
/// assert_eq!(sum(first, late, &mut sums, &mut joined), Err(Refusal::Mismatch(4)));
/// let high = ReducedTrace { values: &[3, 4, 2, 32_762, 3], ..second };
/// assert_eq!(sum(first, high, &mut sums, &mut joined), Err(Refusal::Overflow(3)));
/// assert_eq!(sum(first, second, &mut sums, &mut joined[..4]), Err(Refusal::Room(5)));
/// # Ok::<(), Refusal>(())
/// ```
pub fn sum(
    first: ReducedTrace,
    second: ReducedTrace,
    sums: &mut [i16],
    joined: &mut [u16],
) -> Result<usize, Refusal> {
    ffi::sum(first, second, sums, joined).value()
}

/// Writes the value of each range code: a code is 32 e + m with m below 32, and its value is 2^e times
/// (m + 32), minus 32. Every code is legal.
///
/// Returns the number of values written, one for each code; the entries of `out` after them are as
/// they were. Refusals: [`Refusal::Length`] if there are no codes or more than 4,096,
/// [`Refusal::Room`].
///
/// ```
/// use kovrelna::{expand, Refusal};
///
/// let mut out = [9; 6];
/// assert_eq!(expand(&[31, 32, 63, 64, 255], &mut out), Ok(5));
/// assert_eq!(out, [31, 32, 94, 96, 8032, 9]);
/// assert_eq!(expand(&[7, 7, 7], &mut out[..2]), Err(Refusal::Room(3)));
/// ```
pub fn expand(codes: &[u8], out: &mut [i16]) -> Result<usize, Refusal> {
    ffi::expand(codes, out).value()
}

/// Writes the value of each range code as [`expand`] does, with a table of the caller's own in place of
/// its values: code c has the value `table[c]`.
///
/// The table has 256 values, of any sign, each above the one before. All of it is checked at each call,
/// whatever codes occur. An empty table is refused too: it does not mean the values of [`expand`].
///
/// Returns the number of values written, one for each code; the entries of `out` after them are as
/// they were. Refusals: [`Refusal::Length`] if there are no codes or more than 4,096; then
/// [`Refusal::Table`]; then [`Refusal::Room`].
///
/// ```
/// use kovrelna::{expand_with, Refusal};
///
/// let mut table = [0; 256];
/// (0..).zip(&mut table).for_each(|(code, value)| *value = 100 * (code - 200));
/// let mut out = [9; 4];
/// assert_eq!(expand_with(&[0, 200, 255], &table, &mut out), Ok(3));
/// assert_eq!(out, [-20_000, 0, 5_500, 9]);
/// assert_eq!(expand_with(&[7], &table[..255], &mut out), Err(Refusal::Table(0)));
/// table[31] = table[30];
/// assert_eq!(expand_with(&[7], &table, &mut out), Err(Refusal::Table(31)));
/// ```
pub fn expand_with(codes: &[u8], table: &[i16], out: &mut [i16]) -> Result<usize, Refusal> {
    ffi::expand_with(codes, table, out).value()
}

/// Writes the record of the listed samples and the tolerance into the buffer, beginning with the byte
/// at `place`.
///
/// A record consists of commands of one byte, here hexadecimal, with fixed operands, high byte first,
/// signed ones in two's complement:
///
/// | Byte | Operands |
/// |---|---|
/// | 54 | tolerance with equal parts: p (5 bytes), q (3) |
/// | 42 | tolerance with unequal parts: p (5), q (3) of the part above, then of the part below |
/// | 41 | first sample: tick (4), value (2) |
/// | 53 | short step: advance (1, from 1), change of value (1, signed) |
/// | 4C | long step: advance (3, from 1), new value (2) |
/// | 45 | end: the number of samples given (2) |
///
/// They come in the order 54 or 42, 41, any steps, 45, and nothing more. The tolerance, or each part of
/// it, is in lowest terms. A step is short exactly if its advance is at most 255 and its change from -128
/// to 127. A record of n samples has at most 21 + 6 n bytes, and any record at most 24,597. The gap limit
/// is asked of the links and is not part of the record.
///
/// Returns the record's length; the bytes before and after the record are as they were. Refusals:
/// [`Refusal::Length`], [`Refusal::Tick`], [`Refusal::Span`], [`Refusal::Tolerance`],
/// [`Refusal::Gap`], [`Refusal::List`], [`Refusal::Link`], and [`Refusal::Room`] with the record's
/// length; from a place past the end of the buffer there is no room.
///
/// ```
/// use kovrelna::{write, Parts, Ratio, Refusal, Tolerance};
///
/// let (ticks, values) = ([0, 1, 3], [0, 1, 1]);
/// let tolerance = Tolerance::Ratio { p: 4, q: 6 };
/// let mut buffer = [9; 25];
/// assert_eq!(write(&ticks, &values, &[0, 2], tolerance, &mut buffer, 2), Ok(22));
/// assert_eq!(buffer[..11], [9, 9, 0x54, 0, 0, 0, 0, 2, 0, 0, 3]);
/// assert_eq!(buffer[11..18], [0x41, 0, 0, 0, 0, 0, 0]);
/// assert_eq!(buffer[18..], [0x53, 3, 1, 0x45, 0, 2, 9]);
/// let answer = write(&ticks, &values, &[0, 2], tolerance, &mut buffer, 4);
/// assert_eq!(answer, Err(Refusal::Room(22)));
/// let answer = write(&ticks, &values, &[0, 2], tolerance.with_gap(1), &mut buffer, 2);
/// assert_eq!(answer, Err(Refusal::Link(0)));
///
/// let parts = Parts { above: Ratio { p: 2, q: 3 }, below: Ratio { p: 1, q: 1 } };
/// let mut buffer = [9; 30];
/// let answer = write(&ticks, &values, &[0, 2], Tolerance::Parts(parts), &mut buffer, 0);
/// assert_eq!(answer, Ok(30));
/// assert_eq!(buffer[..9], [0x42, 0, 0, 0, 0, 2, 0, 0, 3]);
/// assert_eq!(buffer[9..17], [0, 0, 0, 0, 1, 0, 0, 1]);
/// assert_eq!(buffer[17..24], [0x41, 0, 0, 0, 0, 0, 0]);
/// ```
pub fn write(
    ticks: &[u32],
    values: &[i16],
    list: &[u16],
    limits: impl Into<Limits>,
    buffer: &mut [u8],
    place: usize,
) -> Result<usize, Refusal> {
    ffi::write(ticks, values, list, ffi::Limits::of(limits), buffer, place).value()
}

/// What [`read`] returns.
#[derive(Clone, Copy, Debug, PartialEq, Eq, Hash)]
pub struct Content {
    /// The number of samples.
    pub samples: usize,
    /// The record's tolerance, each part in lowest terms.
    pub tolerance: Parts,
}

/// Reads a record, as [`write()`] describes it: its samples fill the first entries of `ticks` and of
/// `values`; the entries after them are as they were.
///
/// Refusals: [`Refusal::Record`], and [`Refusal::Room`] with the number of samples, as each output
/// needs an entry for each. A fault lies at the first byte of the first command that breaks a rule or
/// is cut off, at the first byte after a whole 45 command, or at the record's end where a command is
/// missing. A 42 with equal parts breaks a rule.
///
/// ```
/// use kovrelna::{read, Content, Parts, Ratio, Refusal};
///
/// let record = [
///     0x54, 0, 0, 0, 0, 2, 0, 0, 3, // tolerance 2/3
///     0x41, 0, 0, 0, 0, 0, 0, // tick 0, value 0
///     0x53, 3, 1, // 3 ticks on, 1 up
///     0x45, 0, 2, // two samples
/// ];
/// let (mut ticks, mut values) = ([9; 3], [9; 2]);
/// let ratio = Ratio { p: 2, q: 3 };
/// let tolerance = Parts { above: ratio, below: ratio };
/// assert_eq!(read(&record, &mut ticks, &mut values), Ok(Content { samples: 2, tolerance }));
/// assert_eq!((ticks, values), ([0, 3, 9], [0, 1]));
/// assert_eq!(read(&record[..18], &mut ticks, &mut values), Err(Refusal::Record(16)));
/// assert_eq!(read(&record, &mut ticks, &mut values[..1]), Err(Refusal::Room(2)));
///
/// let with_parts = |below: [u8; 8]| [&[0x42], &record[1..9], &below, &record[9..]].concat();
/// let content = read(&with_parts([0, 0, 0, 0, 1, 0, 0, 1]), &mut ticks, &mut values)?;
/// assert_eq!(content.tolerance.to_string(), "2/3 1/1");
/// let equal = with_parts([0, 0, 0, 0, 2, 0, 0, 3]);
/// assert_eq!(read(&equal, &mut ticks, &mut values), Err(Refusal::Record(0)));
/// # Ok::<(), Refusal>(())
/// ```
pub fn read(record: &[u8], ticks: &mut [u32], values: &mut [i16]) -> Result<Content, Refusal> {
    let content = ffi::read(record, ticks, values);
    Refusal::check(content.number, content.value)?;
    Ok(Content {
        samples: content.value as usize,
        tolerance: Parts::of(content.p, content.q, content.below_p, content.below_q),
    })
}

/// Whether two records are the same: their samples agree, and so do their tolerances, both parts. For
/// accepted records that is so exactly if their bytes agree. Whether the samples alone agree, [`read`] of
/// each shows. Refusals: [`Refusal::Record`] for the first, then [`Refusal::SecondRecord`] for the second;
/// [`Refusal::Record`] for two faulty records with the same bytes.
///
/// ```
/// use kovrelna::{same, write, Refusal, Tolerance};
///
/// let mut records = [[0; 22]; 2];
/// for (record, counts) in records.iter_mut().zip([1.0, 2.5]) {
///     write(&[0, 1, 3], &[0, 1, 1], &[0, 2], Tolerance::Counts(counts), record, 0)?;
/// }
/// assert_eq!(same(&records[0], &records[0]), Ok(true));
/// assert_eq!(same(&records[0], &records[1]), Ok(false));
/// assert_eq!(same(&records[0], &records[1][..21]), Err(Refusal::SecondRecord(19)));
/// # Ok::<(), Refusal>(())
/// ```
pub fn same(first: &[u8], second: &[u8]) -> Result<bool, Refusal> {
    let verdict = ffi::same(first, second);
    Refusal::check(verdict.number, verdict.value)?;
    Ok(verdict.passed != 0)
}

/// What [`report`] says of a channel: its samples, what [`walk`] keeps of them, and the error of that
/// list with its sample; or a refusal's number beside zeros. The default is zeros, with 0/1 as the
/// error.
#[derive(Clone, Copy, Debug, Default, PartialEq, Eq, Hash)]
#[repr(C)]
pub struct Summary {
    /// The number of samples; 0 if the channel is refused.
    pub samples: usize,
    /// Walk's kept number; 0 if the channel is refused.
    pub kept: usize,
    /// The error of the worst link of walk's list, in lowest terms, whichever side of the line it is on;
    /// 0/1 if the channel is refused.
    pub error: Ratio,
    /// The sample of the [`measure`] of the first link with that error, numbered in the channel's own
    /// trace; 0 where there is no link, or if the channel is refused.
    pub sample: usize,
    /// 0; or 1, 2 or 3 if the channel is refused, the number of [`Refusal::Length`], [`Refusal::Tick`]
    /// or [`Refusal::Span`].
    pub number: u32,
}

/// What [`report`] returns. A refused channel adds nothing.
#[derive(Clone, Copy, Debug, PartialEq, Eq, Hash)]
pub struct Totals {
    /// The samples of all channels.
    pub samples: usize,
    /// Walk's kept numbers, added up.
    pub kept: usize,
    /// The largest error of a channel, in lowest terms; 0/1 where there is none.
    pub error: Ratio,
}

/// Reports on a crate: up to 64 channels, whose traces come end to end in `ticks` and in `values`, with
/// the number of samples of each in `lengths`.
///
/// The first entries of `out` are a summary for each channel, and those after them are as they were. A
/// summary depends on the channel's own trace and on the limits alone. A channel that is no trace is
/// refused in its own summary and does not end the report.
///
/// Refusals: [`Refusal::Crate`] if there are no channels, more than 64, or the lengths do not add up to
/// the length of `ticks` and to that of `values`; then [`Refusal::Tolerance`]; then [`Refusal::Gap`];
/// then [`Refusal::Room`] if `out` has fewer entries than there are channels.
///
/// ```
/// use kovrelna::{report, Ratio, Refusal, Summary, Tolerance, Totals};
///
/// let ticks = [0, 1, 2, 3, 4, 5, 5, 7];
/// let values = [0, 2, 0, -2, 0, 1, 1, 9];
/// let lengths = [5, 0, 2, 1];
/// let two = Tolerance::Counts(2.0);
/// let mut out = [Summary::default(); 4];
/// let error = Ratio { p: 2, q: 1 };
/// let totals = Totals { samples: 6, kept: 4, error };
/// assert_eq!(report(&ticks, &values, &lengths, two, &mut out), Ok(totals));
/// assert_eq!(out[0], Summary { samples: 5, kept: 3, error, sample: 1, number: 0 });
/// // No samples; a tick not above the one before.
/// assert_eq!(out[1], Summary { number: 1, ..Summary::default() });
/// assert_eq!(out[2], Summary { number: 2, ..Summary::default() });
/// assert_eq!(out[3], Summary { samples: 1, kept: 1, ..Summary::default() });
/// let answer = report(&ticks, &values, &lengths[..3], two, &mut out);
/// assert_eq!(answer, Err(Refusal::Crate));
/// ```
pub fn report(
    ticks: &[u32],
    values: &[i16],
    lengths: &[usize],
    limits: impl Into<Limits>,
    out: &mut [Summary],
) -> Result<Totals, Refusal> {
    let answer = ffi::report(ticks, values, lengths, ffi::Limits::of(limits), out);
    Refusal::check(answer.number, answer.value)?;
    Ok(Totals {
        samples: answer.samples as usize,
        kept: answer.kept as usize,
        error: Ratio {
            p: answer.p,
            q: answer.q,
        },
    })
}

/// A pedestal run of a crate: the traces of its channels end to end, with the number of samples of each
/// in `lengths`.
#[derive(Clone, Copy, Debug)]
pub struct Run<'a> {
    /// The ticks of all channels.
    pub ticks: &'a [u32],
    /// The values of all channels.
    pub values: &'a [i16],
    /// The number of samples of each channel.
    pub lengths: &'a [usize],
}

/// What [`pedestals`] returns.
#[derive(Clone, Copy, Debug, PartialEq, Eq, Hash)]
pub struct Pedestals {
    /// How many channels have moved.
    pub moved: usize,
    /// How many channels are noisy.
    pub noisy: usize,
}

/// Compares two pedestal runs of a crate channel by channel: today's, and one before.
///
/// A channel has n samples in either run; S is their sum and Q the sum of their squares, today's S1 and
/// Q1, the other run's S2 and Q2. At tolerance p/q the channel has moved if |S1 - S2| times q exceeds p
/// times n: its means S/n differ by more than p/q. It is noisy if n Q1 - S1 squared exceeds k squared
/// times (n Q2 - S2 squared): its standard deviation is more than `k` times that of the run before.
/// Equality is neither.
///
/// Returns how many channels have moved and how many are noisy: the first that many entries of `moved`
/// and of `noisy` are exactly those channels, counted from 0, in channel order; the entries after them
/// are as they were. The ticks of the two runs need not agree.
///
/// Refusals: [`Refusal::Factor`] if `k` is below 1 or above 16; [`Refusal::Crate`] if either run has no
/// channels, more than 64, or lengths that do not add up to the length of its ticks and to that of its
/// values, or if the runs have unequal channel counts; [`Refusal::Tolerance`], also if the parts of the
/// tolerance differ; then for each channel in turn [`Refusal::Channel`] if its trace is refused in today's
/// run, then in the one before, and [`Refusal::Samples`] if the runs differ in its number of samples; last
/// [`Refusal::Room`] if either list has fewer entries than there are channels.
///
/// ```
/// use kovrelna::{pedestals, Parts, Pedestals, Ratio, Refusal, Run, Tolerance};
///
/// let ticks = [0, 1, 2, 3, 0, 1, 2, 3, 0, 1, 2, 3];
/// let lengths = [4, 4, 4];
/// let today = Run {
///     ticks: &ticks,
///     values: &[11, 13, 11, 13, -5, -5, -5, -4, 0, 2, 0, 2],
///     lengths: &lengths,
/// };
/// let before = Run { values: &[10, 12, 10, 12, -5, -5, -5, -5, 0, 1, 0, 1], ..today };
/// let half = Tolerance::Ratio { p: 1, q: 2 };
/// let (mut moved, mut noisy) = ([9; 3], [9; 3]);
/// let answer = pedestals(today, before, half, 2, &mut moved, &mut noisy);
/// assert_eq!(answer, Ok(Pedestals { moved: 1, noisy: 1 }));
/// // Channel 0 has moved and channel 1 is noisy. Channel 2 is at both limits.
/// assert_eq!((moved, noisy), ([0, 9, 9], [1, 9, 9]));
///
/// // Parts that are equal as numbers; parts that differ.
/// let parts = |p, q| Parts { above: Ratio { p: 1, q: 2 }, below: Ratio { p, q } };
/// let answer = pedestals(today, before, parts(2, 4).into(), 2, &mut moved, &mut noisy);
/// assert_eq!(answer, Ok(Pedestals { moved: 1, noisy: 1 }));
/// let answer = pedestals(today, before, parts(2, 3).into(), 2, &mut moved, &mut noisy);
/// assert_eq!(answer, Err(Refusal::Tolerance));
///
/// // Without the last channel's last sample; with a tick of channel 1 that is not above the one before.
/// let short = Run { ticks: &ticks[..11], values: &before.values[..11], lengths: &[4, 4, 3] };
/// let answer = pedestals(today, short, half, 2, &mut moved, &mut noisy);
/// assert_eq!(answer, Err(Refusal::Samples(2)));
/// let stuck = Run { ticks: &[0, 1, 2, 3, 0, 1, 1, 3, 0, 1, 2, 3], ..before };
/// let answer = pedestals(today, stuck, half, 2, &mut moved, &mut noisy);
/// assert_eq!(answer, Err(Refusal::Channel { number: 2, channel: 1 }));
/// let answer = pedestals(today, stuck, half, 17, &mut moved, &mut noisy);
/// assert_eq!(answer, Err(Refusal::Factor));
/// ```
pub fn pedestals(
    today: Run,
    before: Run,
    tolerance: Tolerance,
    k: u64,
    moved: &mut [u16],
    noisy: &mut [u16],
) -> Result<Pedestals, Refusal> {
    let answer = ffi::pedestals(today, before, tolerance.into(), k, moved, noisy);
    if let number @ 1..=3 = answer.number {
        let channel = answer.value as usize;
        return Err(Refusal::Channel { number, channel });
    }
    Refusal::check(answer.number, answer.value)?;
    Ok(Pedestals {
        moved: answer.moved as usize,
        noisy: answer.noisy as usize,
    })
}
