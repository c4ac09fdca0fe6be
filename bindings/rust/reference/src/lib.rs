//! The slow reference: document 01 and what document 02 says of the calls once more, in exact whole
//! numbers, clear before fast. It knows nothing of the library that is compared with it.
//!
//! - [`Fraction`]: exact fractions, compared by cross multiplication.
//! - [`Parts`]: the two parts of a tolerance.
//! - [`Limits`]: what a link is asked to meet.
//! - [`above_line`], [`deviation`], [`link_error`], [`link_parts`], [`link_obeys`], [`link_valid`],
//!   [`valid_ends`]: links of a trace.
//! - [`Side`], [`Measure`], [`link_measure`]: a link's error, the sample where it occurs, and its side.
//! - [`list_error`], [`list_parts`], [`worst_sample`], [`list_obeys`], [`longest_crossed`],
//!   [`beside_holes`]: kept lists.
//! - [`Form`], [`held`]: the four forms of a tolerance.
//! - [`trace_refusal`], [`list_refusal`]: rows 1 to 3 and row 6 of the table of refusals.
//! - [`measure`]: the call.
//! - [`Invalid`], [`judge`]: the call.
//! - [`Fault`], [`GreedyFault`], [`judge_greedy`]: the call.
//! - [`Method`], [`Reduced`], [`reduce`]: the calls walk, gallop and minimum.
//! - [`Least`], [`least`]: the call.
//! - [`kept_lists`]: every kept list.
//! - [`fewest`], [`fewest_obeying`]: how short a kept list of valid links can be, and one that obeys a
//!   gap limit.
//! - [`record`]: range codes and records.
//! - [`report`]: the report on a crate.
//! - [`pedestals`]: two pedestal runs of a crate, compared.
//! - [`scans`]: the scan of a trace at several tolerances.
//! - [`views`]: the live view of a trace that grows.
//! - [`sums`]: two traces with kept lists, added.
//! - [`generate`]: repeatable random traces, tolerances, lists, states of views, range tables, contents of
//!   records, crates, pedestal runs and traces to be added.

pub mod generate;
pub mod pedestals;
pub mod record;
pub mod report;
pub mod scans;
pub mod sums;
pub mod views;

use std::cmp::Reverse;

/// The most samples a trace has.
pub const SAMPLES: usize = 4_096;
/// The most samples a trace has for least.
pub const LEAST_SAMPLES: usize = 256;
/// The greatest difference between the last tick and the first.
pub const SPAN: u32 = 1_048_575;
/// The greatest denominator of a tolerance.
pub const DENOMINATOR: i128 = 1_048_575;
/// The greatest tolerance.
pub const TOLERANCE: i128 = 65_535;
/// The greatest gap limit.
pub const GAP: u32 = 1_048_575;

/// A row of the table of refusals: its number and what is returned with it.
pub type Row = (u32, u64);

/// p/q, with q above 0.
#[derive(Clone, Copy, Debug, PartialEq, Eq)]
pub struct Fraction {
    pub p: i128,
    pub q: i128,
}

impl Fraction {
    /// Whether this fraction is at most the other.
    pub fn at_most(self, other: Fraction) -> bool {
        self.p * other.q <= other.p * self.q
    }

    /// Half of p/q: p over 2q.
    pub fn half(self) -> Fraction {
        Fraction {
            p: self.p,
            q: 2 * self.q,
        }
    }

    /// The same fraction in lowest terms; zero is 0/1.
    pub fn lowest(self) -> Fraction {
        let (mut a, mut b) = (self.p, self.q);
        while b != 0 {
            (a, b) = (b, a % b);
        }
        Fraction {
            p: self.p / a,
            q: self.q / a,
        }
    }

    /// The sum of two fractions.
    pub fn plus(self, other: Fraction) -> Fraction {
        Fraction {
            p: self.p * other.q + other.p * self.q,
            q: self.q * other.q,
        }
    }
}

/// The parts of a tolerance: for the samples above the line, and for those below it.
#[derive(Clone, Copy, Debug, PartialEq, Eq)]
pub struct Parts {
    pub above: Fraction,
    pub below: Fraction,
}

impl From<Fraction> for Parts {
    /// The same part above and below.
    fn from(both: Fraction) -> Self {
        Parts {
            above: both,
            below: both,
        }
    }
}

impl Parts {
    /// The fraction that both parts are, if they are equal as numbers.
    pub fn one(self) -> Option<Fraction> {
        let Parts { above, below } = self;
        (above.at_most(below) && below.at_most(above)).then_some(above)
    }

    /// The smaller part.
    pub fn smaller(self) -> Fraction {
        ordered(self.above, self.below).0
    }

    /// The larger part.
    pub fn larger(self) -> Fraction {
        ordered(self.above, self.below).1
    }

    /// The part above and the part below, together.
    pub fn sum(self) -> Fraction {
        self.above.plus(self.below)
    }

    /// The part below for the samples above the line, and the part above for those below it.
    pub fn exchanged(self) -> Parts {
        Parts {
            above: self.below,
            below: self.above,
        }
    }

    /// Whether a sample that lies so much above the line, below it if that is negative, is within its part.
    fn allow(self, Fraction { p, q }: Fraction) -> bool {
        let part = if p < 0 { self.below } else { self.above };
        Fraction { p: p.abs(), q }.at_most(part)
    }
}

/// What a link is asked to meet: a tolerance, in one of its forms or as its parts, and a gap limit, if
/// there is one.
#[derive(Clone, Copy, Debug)]
pub struct Limits<T> {
    pub tolerance: T,
    pub gap: Option<u32>,
}

impl<T> From<T> for Limits<T> {
    /// No gap limit.
    fn from(tolerance: T) -> Self {
        Limits {
            tolerance,
            gap: None,
        }
    }
}

impl From<Fraction> for Limits<Parts> {
    /// The same part above and below, and no gap limit.
    fn from(both: Fraction) -> Self {
        Parts::from(both).into()
    }
}

impl Limits<Parts> {
    /// So many n-ths of the smaller part above, and the rest of it below, under the same gap limit.
    pub fn shared(self, above: i128, n: i128) -> Self {
        let Fraction { p, q } = self.tolerance.smaller();
        let share = |k: i128| Fraction { p: k * p, q: n * q };
        Limits {
            tolerance: Parts {
                above: share(above),
                below: share(n - above),
            },
            gap: self.gap,
        }
    }
}

impl Limits<Form> {
    /// Row 4 or row 15; or the limits with each part of the tolerance in lowest terms.
    pub fn held(self) -> Result<Limits<Parts>, Row> {
        let tolerance = held(self.tolerance).ok_or((4, 0))?;
        check_gap(self.gap)?;
        Ok(Limits {
            tolerance,
            gap: self.gap,
        })
    }
}

/// Row 15, if there is a gap limit and it is not allowed.
fn check_gap(gap: Option<u32>) -> Result<(), Row> {
    match gap {
        Some(gap) if !(1..=GAP).contains(&gap) => Err((15, 0)),
        _ => Ok(()),
    }
}

/// By how much value k lies above the straight line through samples i and j; negative if it lies below.
pub fn above_line(ticks: &[u32], values: &[i16], i: usize, j: usize, k: usize) -> Fraction {
    let t = |sample: usize| i128::from(ticks[sample]);
    let v = |sample: usize| i128::from(values[sample]);
    Fraction {
        p: (v(k) - v(i)) * (t(j) - t(i)) - (v(j) - v(i)) * (t(k) - t(i)),
        q: t(j) - t(i),
    }
}

/// The vertical distance from value k to the straight line through samples i and j.
pub fn deviation(ticks: &[u32], values: &[i16], i: usize, j: usize, k: usize) -> Fraction {
    let Fraction { p, q } = above_line(ticks, values, i, j, k);
    Fraction { p: p.abs(), q }
}

/// The greatest deviation between samples i and j, 0 where nothing lies between; in lowest terms.
pub fn link_error(ticks: &[u32], values: &[i16], i: usize, j: usize) -> Fraction {
    let mut error = Fraction { p: 0, q: 1 };
    for k in i + 1..j {
        let deviation = deviation(ticks, values, i, j, k);
        if !deviation.at_most(error) {
            error = deviation;
        }
    }
    error.lowest()
}

/// The least parts with which every sample between i and j is within its own: how far those above the line
/// lie above it at most, and those below it below; 0 where there are none. In lowest terms.
pub fn link_parts(ticks: &[u32], values: &[i16], i: usize, j: usize) -> Parts {
    let heights = (i + 1..j).map(|k| above_line(ticks, values, i, j, k).p);
    let (highest, lowest) = heights.fold((0, 0), |(highest, lowest), height| {
        (height.max(highest), height.min(lowest))
    });
    let q = i128::from(ticks[j]) - i128::from(ticks[i]);
    Parts {
        above: Fraction { p: highest, q }.lowest(),
        below: Fraction { p: -lowest, q }.lowest(),
    }
}

/// Where a sample lies beside a link: on its line, above it, below it, or before a hole that alone makes
/// the link invalid.
#[derive(Clone, Copy, Debug, PartialEq, Eq)]
pub enum Side {
    On,
    Above,
    Below,
    Gap,
}

/// A link's error in lowest terms, a sample, and where it lies.
#[derive(Clone, Copy, Debug, PartialEq, Eq)]
pub struct Measure {
    pub error: Fraction,
    pub sample: usize,
    pub side: Side,
}

/// The link's error, and the first sample whose deviation it is; sample i if it is 0.
pub fn link_measure(ticks: &[u32], values: &[i16], i: usize, j: usize) -> Measure {
    let error = link_error(ticks, values, i, j);
    if error.p == 0 {
        return Measure {
            error,
            sample: i,
            side: Side::On,
        };
    }
    // No deviation is above the error.
    let sample = (i + 1..j)
        .find(|&k| error.at_most(deviation(ticks, values, i, j, k)))
        .expect("some deviation is the error");
    let side = match above_line(ticks, values, i, j, sample).p {
        1.. => Side::Above,
        _ => Side::Below,
    };
    Measure {
        error,
        sample,
        side,
    }
}

/// The error of the list's worst link, 0 where there is none.
pub fn list_error(ticks: &[u32], values: &[i16], list: &[u16]) -> Fraction {
    let mut worst = Fraction { p: 0, q: 1 };
    for link in list.windows(2) {
        let error = link_error(ticks, values, link[0].into(), link[1].into());
        if !error.at_most(worst) {
            worst = error;
        }
    }
    worst
}

/// The least parts with which every link of the list is within both, 0 where there is none.
pub fn list_parts(ticks: &[u32], values: &[i16], list: &[u16]) -> Parts {
    let mut worst = Parts::from(Fraction { p: 0, q: 1 });
    for link in list.windows(2) {
        let parts = link_parts(ticks, values, link[0].into(), link[1].into());
        worst = Parts {
            above: ordered(worst.above, parts.above).1,
            below: ordered(worst.below, parts.below).1,
        };
    }
    worst
}

/// The sample of the measure of the first link whose error is the list's, 0 where there is no link.
pub fn worst_sample(ticks: &[u32], values: &[i16], list: &[u16]) -> usize {
    let error = list_error(ticks, values, list);
    let mut measures = list
        .windows(2)
        .map(|link| link_measure(ticks, values, link[0].into(), link[1].into()));
    let worst = measures.find(|measure| measure.error == error);
    worst.map_or(0, |measure| measure.sample)
}

/// Whether samples k and k + 1 lie more ticks apart than the gap limit.
fn is_hole(ticks: &[u32], k: usize, gap: Option<u32>) -> bool {
    gap.is_some_and(|gap| ticks[k + 1] - ticks[k] > gap)
}

/// Whether the link goes one step or crosses no hole.
pub fn link_obeys(ticks: &[u32], i: usize, j: usize, gap: Option<u32>) -> bool {
    j == i + 1 || (i..j).all(|k| !is_hole(ticks, k, gap))
}

/// Whether each link of the list obeys the gap limit.
pub fn list_obeys(ticks: &[u32], list: &[u16], gap: Option<u32>) -> bool {
    list.windows(2)
        .all(|link| link_obeys(ticks, link[0].into(), link[1].into(), gap))
}

/// The longest step that a link of more than one step crosses: the least gap limit that the list obeys.
/// Nothing if there is none, and it obeys every gap limit.
pub fn longest_crossed(ticks: &[u32], list: &[u16]) -> Option<u32> {
    let links = list.windows(2).filter(|link| link[1] - link[0] > 1);
    let steps = links.flat_map(|link| {
        let ticks = &ticks[usize::from(link[0])..=usize::from(link[1])];
        ticks.windows(2).map(|step| step[1] - step[0])
    });
    steps.max()
}

/// Both ends of the trace and the two samples beside each hole.
pub fn beside_holes(ticks: &[u32], gap: Option<u32>) -> Vec<u16> {
    let last = ticks.len() - 1;
    let hole = |k: usize| is_hole(ticks, k, gap);
    (0..=last)
        .filter(|&k| k == 0 || k == last || hole(k - 1) || hole(k))
        .map(|k| k as u16)
        .collect()
}

/// Whether the link obeys the gap limit, and each sample between its ends that lies above the line is at
/// most the part above over it, each that lies below at most the part below under it.
pub fn link_valid(
    ticks: &[u32],
    values: &[i16],
    i: usize,
    j: usize,
    limits: impl Into<Limits<Parts>>,
) -> bool {
    let Limits { tolerance, gap } = limits.into();
    link_obeys(ticks, i, j, gap)
        && (i + 1..j).all(|k| tolerance.allow(above_line(ticks, values, i, j, k)))
}

/// The samples to which a link from i is valid, rising. Sample k is at most U above the line from sample i
/// to sample j exactly if the slope of that line, (vj - vi) / (tj - ti), is at least
/// (vk - vi - U) / (tk - ti), and at most D below it exactly if the slope is at most
/// (vk - vi + D) / (tk - ti); slopes here are times both denominators. Where no slope is left, no later link is
/// valid. Across a hole only a link of one step is.
pub fn valid_ends(
    ticks: &[u32],
    values: &[i16],
    i: usize,
    limits: impl Into<Limits<Parts>>,
) -> Vec<usize> {
    let Limits { tolerance, gap } = limits.into();
    let Parts { above, below } = tolerance;
    let (scale, u, d) = (above.q * below.q, above.p * below.q, below.p * above.q);
    let mut ends = Vec::new();
    let mut crossed = false;
    // No slope is below or above these.
    let whole = |p| Fraction { p, q: 1 };
    let (mut least, mut greatest) = (whole(-(1 << 60)), whole(1 << 60));
    for j in i + 1..ticks.len() {
        if !least.at_most(greatest) {
            break;
        }
        let rise = scale * (i128::from(values[j]) - i128::from(values[i]));
        let run = i128::from(ticks[j]) - i128::from(ticks[i]);
        let slope = |rise| Fraction { p: rise, q: run };
        crossed |= is_hole(ticks, j - 1, gap);
        let obeys = j == i + 1 || !crossed;
        if obeys && least.at_most(slope(rise)) && slope(rise).at_most(greatest) {
            ends.push(j);
        }
        let (low, high) = (slope(rise - u), slope(rise + d));
        if least.at_most(low) {
            least = low;
        }
        if high.at_most(greatest) {
            greatest = high;
        }
    }
    ends
}

/// The four forms of a tolerance.
#[derive(Clone, Copy, Debug)]
pub enum Form {
    /// p, q.
    Ratio(u64, u64),
    /// Counts.
    Counts(f64),
    /// Noise, multiple.
    Noise(f64, f64),
    /// p and q of the part above, p and q of the part below.
    Parts((u64, u64), (u64, u64)),
}

/// p/q in lowest terms, if it is allowed as a tolerance.
fn held_ratio(p: u64, q: u64) -> Option<Fraction> {
    let (p, q) = (i128::from(p), i128::from(q));
    let allowed = (1..=DENOMINATOR).contains(&q) && p <= TOLERANCE * q;
    allowed.then(|| Fraction { p, q }.lowest())
}

/// The parts of the tolerance, each in lowest terms, if it is allowed.
pub fn held(form: Form) -> Option<Parts> {
    let fraction = match form {
        Form::Parts(above, below) => {
            let [above, below] = [above, below].map(|(p, q)| held_ratio(p, q));
            return Some(Parts {
                above: above?,
                below: below?,
            });
        }
        Form::Ratio(p, q) => held_ratio(p, q)?,
        Form::Counts(counts) => Fraction {
            p: steps(counts, 6, TOLERANCE)?,
            q: 64,
        },
        Form::Noise(noise, multiple) => Fraction {
            p: steps(noise, 6, 1_023)? * steps(multiple, 3, 63)?,
            q: 64 * 8,
        },
    };
    Some(fraction.lowest().into())
}

/// 2^shift times x, if x is from 0 to `most` and that product is whole. Decided by the bits of x.
fn steps(x: f64, shift: i32, most: i128) -> Option<i128> {
    let bits = x.to_bits();
    let negative = bits >> 63 == 1;
    let exponent = (bits >> 52 & 0x7ff) as i32;
    let fraction = i128::from(bits & 0xf_ffff_ffff_ffff);
    // x is mantissa times 2^power, with the sign.
    let (mut mantissa, mut power) = match exponent {
        0x7ff => return None, // an infinity or not a number
        0 => (fraction, -1_074),
        _ => (fraction + (1 << 52), exponent - 1_075),
    };
    if mantissa == 0 {
        return Some(0); // zero or minus zero
    }
    while mantissa % 2 == 0 {
        mantissa /= 2;
        power += 1;
    }
    // The mantissa is odd: below power 0 the product is not whole. At power 64 it is beyond `most`.
    let power = power + shift;
    if negative || !(0..64).contains(&power) {
        return None;
    }
    let product = mantissa << power;
    (product <= most << shift).then_some(product)
}

/// The first of rows 1, 2 and 3 that fits this trace.
pub fn trace_refusal(ticks: &[u32], values: &[i16]) -> Option<Row> {
    let samples = ticks.len();
    if samples == 0 || samples > SAMPLES || values.len() != samples {
        return Some((1, 0));
    }
    if let Some(sample) = (1..samples).find(|&k| ticks[k] <= ticks[k - 1]) {
        return Some((2, sample as u64));
    }
    let beyond = (0..samples).find(|&k| ticks[k] - ticks[0] > SPAN)?;
    Some((3, beyond as u64))
}

/// Row 6, if this is no kept list of a trace with so many samples.
pub fn list_refusal(samples: usize, list: &[u16]) -> Option<Row> {
    for (position, &entry) in list.iter().enumerate() {
        let risen = match position {
            0 => entry == 0,
            _ => entry > list[position - 1],
        };
        if !risen || usize::from(entry) >= samples {
            return Some((6, position as u64));
        }
    }
    match list.last() {
        Some(&entry) if usize::from(entry) == samples - 1 => None,
        _ => Some((6, list.len() as u64)),
    }
}

/// The first row that fits, or the measure of the link from sample i to sample j.
pub fn measure(ticks: &[u32], values: &[i16], i: usize, j: usize) -> Result<Measure, Row> {
    if let Some(row) = trace_refusal(ticks, values) {
        return Err(row);
    }
    let samples = 0..ticks.len();
    if !samples.contains(&i) {
        return Err((6, 0));
    }
    if !samples.contains(&j) || j <= i {
        return Err((6, 1));
    }
    Ok(link_measure(ticks, values, i, j))
}

/// A list's first invalid link: its position, and where it strays.
#[derive(Clone, Copy, Debug, PartialEq, Eq)]
pub struct Invalid {
    pub link: usize,
    pub measure: Measure,
}

/// Where an invalid link strays: its measure, if some sample is not within its part of the tolerance; the
/// sample of the measure may be within its own. Otherwise only the gap limit makes it invalid: its error, and
/// the sample before its first hole.
fn strays(
    ticks: &[u32],
    values: &[i16],
    i: usize,
    j: usize,
    Limits { tolerance, gap }: Limits<Parts>,
) -> Measure {
    let measure = link_measure(ticks, values, i, j);
    if !link_valid(ticks, values, i, j, tolerance) {
        return measure;
    }
    let hole = (i..j).find(|&k| is_hole(ticks, k, gap));
    Measure {
        sample: hole.expect("an invalid link within the tolerance crosses a hole"),
        side: Side::Gap,
        ..measure
    }
}

/// The first row that fits a proposed list, or the limits with each part of the tolerance in lowest terms.
fn proposed(
    ticks: &[u32],
    values: &[i16],
    list: &[u16],
    limits: Limits<Form>,
) -> Result<Limits<Parts>, Row> {
    if let Some(row) = trace_refusal(ticks, values) {
        return Err(row);
    }
    let limits = limits.held()?;
    match list_refusal(ticks.len(), list) {
        Some(row) => Err(row),
        None => Ok(limits),
    }
}

/// The first row that fits, or the first invalid link, or nothing if all are valid.
pub fn judge(
    ticks: &[u32],
    values: &[i16],
    list: &[u16],
    limits: impl Into<Limits<Form>>,
) -> Result<Option<Invalid>, Row> {
    let limits = proposed(ticks, values, list, limits.into())?;
    for (link, ends) in list.windows(2).enumerate() {
        let (i, j) = (usize::from(ends[0]), usize::from(ends[1]));
        if !link_valid(ticks, values, i, j, limits) {
            let measure = strays(ticks, values, i, j, limits);
            return Ok(Some(Invalid { link, measure }));
        }
    }
    Ok(None)
}

/// What is at fault: a link, which is invalid, or the stop at its end, as the link from the same start to the
/// sample after it is valid too.
#[derive(Clone, Copy, Debug, PartialEq, Eq)]
pub enum Fault {
    Link,
    Stop,
}

/// A list's first link at fault: its position, and the fault.
#[derive(Clone, Copy, Debug, PartialEq, Eq)]
pub struct GreedyFault {
    pub link: usize,
    pub fault: Fault,
}

/// The first row that fits, or the first link at fault, or nothing if none is. Looks at every sample of each
/// link, and of the link to the sample after each stop but the last sample.
pub fn judge_greedy(
    ticks: &[u32],
    values: &[i16],
    list: &[u16],
    limits: impl Into<Limits<Form>>,
) -> Result<Option<GreedyFault>, Row> {
    let limits = proposed(ticks, values, list, limits.into())?;
    let valid = |i, j| link_valid(ticks, values, i, j, limits);
    let fault = |i, j| match valid(i, j) {
        false => Some(Fault::Link),
        true if j + 1 < ticks.len() && valid(i, j + 1) => Some(Fault::Stop),
        true => None,
    };
    let links = list.windows(2).enumerate();
    let mut faults = links.filter_map(|(link, ends)| {
        let fault = fault(ends[0].into(), ends[1].into())?;
        Some(GreedyFault { link, fault })
    });
    Ok(faults.next())
}

/// How a kept list is found.
#[derive(Clone, Copy, Debug, PartialEq, Eq)]
pub enum Method {
    Walk,
    Gallop,
    Minimum,
}

/// Every method.
pub const METHODS: [Method; 3] = [Method::Walk, Method::Gallop, Method::Minimum];

/// Up to so many samples, minimum tries every kept list.
pub const TRIED: usize = 12;

/// A kept list, with the probe total of gallop; 0 for other methods.
#[derive(Clone, Debug, PartialEq, Eq)]
pub struct Reduced {
    pub list: Vec<u16>,
    pub probes: usize,
}

/// The first row that fits, or the method's list. The output has `room` entries.
pub fn reduce(
    method: Method,
    ticks: &[u32],
    values: &[i16],
    limits: impl Into<Limits<Form>>,
    room: usize,
) -> Result<Reduced, Row> {
    if let Some(row) = trace_refusal(ticks, values) {
        return Err(row);
    }
    let limits = limits.into().held()?;
    let samples = ticks.len();
    if room < samples {
        return Err((10, samples as u64));
    }
    let last = samples - 1;
    let valid = |i, j| link_valid(ticks, values, i, j, limits);
    let mut probes = 0;
    let list = match method {
        Method::Walk => stops(last, |i| walk_stop(i, last, valid)),
        Method::Gallop => stops(last, |i| gallop_stop(i, last, valid, &mut probes)),
        Method::Minimum if samples <= TRIED => minimum_of_all(samples, valid),
        Method::Minimum => minimum_by_table(last, |i| valid_ends(ticks, values, i, limits)),
    };
    Ok(Reduced { list, probes })
}

/// Sample 0 and each next stop, up to the last sample.
fn stops(last: usize, mut next: impl FnMut(usize) -> usize) -> Vec<u16> {
    let mut list = vec![0];
    let mut i = 0;
    while i < last {
        i = next(i);
        list.push(i as u16);
    }
    list
}

/// The sample before the first invalid link from i, or the last sample if none is invalid.
fn walk_stop(i: usize, last: usize, valid: impl Fn(usize, usize) -> bool) -> usize {
    match (i + 1..=last).find(|&j| !valid(i, j)) {
        Some(j) => j - 1,
        None => last,
    }
}

/// The stop from i by doubling and bisection; every probe is counted.
fn gallop_stop(
    i: usize,
    last: usize,
    valid: impl Fn(usize, usize) -> bool,
    probes: &mut usize,
) -> usize {
    let mut probe = |offset: usize| {
        *probes += 1;
        i + offset <= last && valid(i, i + offset)
    };
    let (mut low, mut high) = (1, 2);
    while probe(high) {
        low = high;
        high *= 2;
    }
    while low < high - 1 {
        let middle = (low + high) / 2;
        if probe(middle) {
            low = middle;
        } else {
            high = middle;
        }
    }
    i + low
}

/// Every kept list of a trace with so many samples: each set of samples between the ends.
pub fn kept_lists(samples: usize) -> impl Iterator<Item = Vec<u16>> {
    (0..1u64 << samples.saturating_sub(2)).map(move |set| {
        let kept = |k: usize| k == 0 || k == samples - 1 || set >> (k - 1) & 1 == 1;
        (0..samples)
            .filter(|&k| kept(k))
            .map(|k| k as u16)
            .collect()
    })
}

/// Of all kept lists with valid links the shortest; of several, the one whose second sample is
/// latest, then its third, and so on.
fn minimum_of_all(samples: usize, valid: impl Fn(usize, usize) -> bool) -> Vec<u16> {
    let valid: Vec<Vec<bool>> = (0..samples)
        .map(|j| (0..j).map(|i| valid(i, j)).collect())
        .collect();
    kept_lists(samples)
        .filter(|list| {
            list.windows(2)
                .all(|link| valid[usize::from(link[1])][usize::from(link[0])])
        })
        .min_by_key(|list| (list.len(), Reverse(list.clone())))
        .expect("links between neighbours are valid")
}

/// The same by a table from the last sample back: how many samples the shortest list from each
/// sample to the last has, and the latest sample that may come next in it. `ends` gives the valid
/// links from a sample.
fn minimum_by_table(last: usize, ends: impl Fn(usize) -> Vec<usize>) -> Vec<u16> {
    let (mut fewest, mut next) = (vec![1; last + 1], vec![last; last + 1]);
    for i in (0..last).rev() {
        next[i] = ends(i)
            .into_iter()
            .min_by_key(|&j| (fewest[j], Reverse(j)))
            .expect("a link between neighbours is valid");
        fewest[i] = fewest[next[i]] + 1;
    }
    stops(last, |i| next[i])
}

/// The least error over kept lists of at most so many samples that obey the gap limit, and the minimum's
/// list at that error under the same gap limit.
#[derive(Clone, Debug, PartialEq, Eq)]
pub struct Least {
    pub list: Vec<u16>,
    pub error: Fraction,
}

/// The first row that fits, or the least error and its list. The output has `room` entries.
pub fn least(
    ticks: &[u32],
    values: &[i16],
    gap: Option<u32>,
    allowance: u64,
    room: usize,
) -> Result<Least, Row> {
    let samples = ticks.len();
    if samples > LEAST_SAMPLES {
        return Err((1, 0));
    }
    if let Some(row) = trace_refusal(ticks, values) {
        return Err(row);
    }
    check_gap(gap)?;
    if !(2..=SAMPLES as u64).contains(&allowance) {
        return Err((5, 0));
    }
    let allowance = allowance as usize;
    if fewest_obeying(ticks, gap) > allowance {
        return Err((16, 0));
    }
    if room < samples {
        return Err((10, samples as u64));
    }
    let error = match samples {
        ..=TRIED => least_of_all(ticks, values, gap, allowance),
        _ => least_by_table(ticks, values, gap, allowance),
    }
    .expect("some list obeys and is short enough");
    let limits = Limits {
        tolerance: Form::Ratio(error.p as u64, error.q as u64),
        gap,
    };
    let Reduced { list, .. } = reduce(Method::Minimum, ticks, values, limits, room)?;
    Ok(Least { list, error })
}

/// The lesser and the greater of two fractions.
fn ordered(a: Fraction, b: Fraction) -> (Fraction, Fraction) {
    if a.at_most(b) {
        (a, b)
    } else {
        (b, a)
    }
}

/// The least of these fractions, if there are any.
fn least_of(fractions: impl Iterator<Item = Fraction>) -> Option<Fraction> {
    fractions.reduce(|a, b| ordered(a, b).0)
}

/// The least error of all kept lists of at most so many samples that obey the gap limit, if there are any.
fn least_of_all(
    ticks: &[u32],
    values: &[i16],
    gap: Option<u32>,
    allowance: usize,
) -> Option<Fraction> {
    let lists = kept_lists(ticks.len())
        .filter(|list| list.len() <= allowance && list_obeys(ticks, list, gap));
    least_of(lists.map(|list| list_error(ticks, values, &list)))
}

/// The same by tables: the least error of a list from sample 0 to each sample, with at most two samples,
/// three, and so on. The trace has at least two samples.
fn least_by_table(
    ticks: &[u32],
    values: &[i16],
    gap: Option<u32>,
    allowance: usize,
) -> Option<Fraction> {
    let last = ticks.len() - 1;
    // Nothing where a link does not obey.
    let error = |i, j| link_obeys(ticks, i, j, gap).then(|| link_error(ticks, values, i, j));
    let errors: Vec<Vec<Option<Fraction>>> = (0..=last)
        .map(|j| (0..j).map(|i| error(i, j)).collect())
        .collect();
    let zero = Some(Fraction { p: 0, q: 1 });
    let mut least: Vec<Option<Fraction>> = (1..=last).map(|j| errors[j][0]).collect();
    least.insert(0, zero);
    for _ in 3..=allowance.min(last + 1) {
        let through = |j: usize, i: usize| Some(ordered(least[i]?, errors[j][i]?).1);
        let best = |j: usize| least_of((0..j).filter_map(|i| through(j, i)));
        least = (0..=last)
            .map(|j| if j == 0 { zero } else { best(j) })
            .collect();
    }
    least[last]
}

/// How many samples the shortest kept list of valid links has. Tries every link.
pub fn fewest(ticks: &[u32], values: &[i16], limits: impl Into<Limits<Parts>>) -> usize {
    let limits = limits.into();
    fewest_of(ticks.len(), |i, j| link_valid(ticks, values, i, j, limits))
}

/// How many samples the shortest kept list that obeys the gap limit has. Tries every link.
pub fn fewest_obeying(ticks: &[u32], gap: Option<u32>) -> usize {
    fewest_of(ticks.len(), |i, j| link_obeys(ticks, i, j, gap))
}

/// How many samples the shortest kept list of these links has. Those of one step are among them.
fn fewest_of(samples: usize, link: impl Fn(usize, usize) -> bool) -> usize {
    // The fewest from sample 0 to each sample.
    let mut fewest = vec![1];
    for j in 1..samples {
        let before = (0..j).filter(|&i| link(i, j)).map(|i| fewest[i]).min();
        fewest.push(before.expect("a link between neighbours is among them") + 1);
    }
    fewest[samples - 1]
}

#[cfg(test)]
mod tests {
    use super::*;
    use generate::{
        any_limited, any_list, any_parts, any_trace, exceptional, near_parts, squeezed, tied,
        Random, Trace,
    };

    const EVEN: [u32; 5] = [0, 1, 2, 3, 4];

    fn fraction(p: i128, q: i128) -> Fraction {
        Fraction { p, q }
    }

    /// The parts U above and D below, each as p and q.
    fn parts(above: (i128, i128), below: (i128, i128)) -> Parts {
        let [above, below] = [above, below].map(|(p, q)| fraction(p, q));
        Parts { above, below }
    }

    /// The form of these parts.
    fn form(Parts { above, below }: Parts) -> Form {
        let ratio = |Fraction { p, q }: Fraction| (p as u64, q as u64);
        Form::Parts(ratio(above), ratio(below))
    }

    #[test]
    fn figures() {
        let zigzag = [0, 3, 0, 3, 0];
        assert_eq!(link_error(&EVEN, &zigzag, 0, 1), fraction(0, 1));
        assert_eq!(link_error(&EVEN, &zigzag, 0, 2), fraction(3, 1));
        assert_eq!(link_error(&EVEN, &zigzag, 0, 3), fraction(2, 1));
        assert_eq!(link_error(&EVEN, &zigzag, 0, 4), fraction(3, 1));
        assert_eq!(list_error(&EVEN, &zigzag, &[0, 3, 4]), fraction(2, 1));
        assert_eq!(list_error(&EVEN, &zigzag, &[0, 1, 4]), fraction(2, 1));
        assert_eq!(list_error(&EVEN, &zigzag, &[0, 2, 4]), fraction(3, 1));
        let (ticks, values) = ([0, 1, 3], [0, 1, 1]);
        assert_eq!(deviation(&ticks, &values, 0, 2, 1), fraction(2, 3));
        assert!(link_valid(&ticks, &values, 0, 2, fraction(4, 6)));
        assert!(!link_valid(&ticks, &values, 0, 2, fraction(665, 1000)));
        assert_eq!(trace_refusal(&[0, 1_048_575], &[0, 0]), None);
        assert_eq!(trace_refusal(&[0, 1_048_576], &[0, 0]), Some((3, 1)));
        assert_eq!(trace_refusal(&[5, 5], &[0, 0]), Some((2, 1)));
    }

    #[test]
    fn measures() {
        use Side::{Above, Below, On};
        let (wave, zigzag) = ([0, 2, 0, -2, 0], [0, 3, 0, 3, 0]);
        type Case<'a> = (
            &'a [u32],
            &'a [i16],
            (usize, usize),
            (i128, i128),
            usize,
            Side,
        );
        let cases: [Case; 9] = [
            (&[0, 1, 3], &[0, 1, 1], (0, 2), (2, 3), 1, Above),
            (&[0, 1, 3], &[0, 0, 0], (0, 2), (0, 1), 0, On),
            (&[0, 1, 3], &[0, 1, 1], (1, 2), (0, 1), 1, On),
            (&EVEN, &wave, (0, 4), (2, 1), 1, Above),
            (&EVEN, &wave, (2, 4), (2, 1), 3, Below),
            (&EVEN, &wave, (1, 4), (8, 3), 3, Below),
            (&EVEN, &zigzag, (0, 3), (2, 1), 1, Above),
            (&EVEN, &zigzag, (1, 4), (2, 1), 2, Below),
            (&EVEN[..4], &[1, 0, 1, -1], (0, 3), (4, 3), 2, Above),
        ];
        for (ticks, values, (i, j), (p, q), sample, side) in cases {
            let expected = Measure {
                error: fraction(p, q),
                sample,
                side,
            };
            assert_eq!(measure(ticks, values, i, j), Ok(expected), "{values:?}");
        }
        for (i, j, value) in [(5, 5, 0), (5, 0, 0), (4, 5, 1), (3, 3, 1), (3, 2, 1)] {
            assert_eq!(measure(&EVEN, &wave, i, j), Err((6, value)), "{i} {j}");
        }
        assert_eq!(measure(&[7], &[7], 0, 0), Err((6, 1)));
        assert_eq!(measure(&[5, 5], &[0, 0], 9, 9), Err((2, 1)));
    }

    /// Every deviation by itself: the first of the greatest is the measure's, and its sample lies above the
    /// line exactly if the slope to it from sample i is greater than that of the line.
    #[test]
    fn measures_by_all_deviations() {
        let random = &mut Random::new(15);
        for _ in 0..1_500 {
            let samples = random.within(2, 12) as usize;
            let trace = match random.below(2) {
                0 => any_trace(samples, random),
                _ => tied(samples, random),
            };
            let Trace { ticks, values } = &trace;
            for (i, j) in (1..samples).flat_map(|j| (0..j).map(move |i| (i, j))) {
                let mut deviations: Vec<(usize, Fraction)> = (i + 1..j)
                    .map(|k| (k, deviation(ticks, values, i, j, k)))
                    .collect();
                // They have the same denominator.
                deviations.sort_by_key(|&(k, Fraction { p, .. })| (Reverse(p), k));
                let slope = |k: usize| Fraction {
                    p: i128::from(values[k]) - i128::from(values[i]),
                    q: i128::from(ticks[k] - ticks[i]),
                };
                let (sample, error, side) = match deviations.first() {
                    Some(&(k, error)) if error.p > 0 => match slope(k).at_most(slope(j)) {
                        false => (k, error, Side::Above),
                        true => (k, error, Side::Below),
                    },
                    _ => (i, fraction(0, 1), Side::On),
                };
                let expected = Measure {
                    error: error.lowest(),
                    sample,
                    side,
                };
                let found = link_measure(ticks, values, i, j);
                assert_eq!(found, expected, "{i} {j} {trace:?}");
            }
        }
    }

    /// A link that the tolerance makes invalid, one that only the gap limit does, with an error and without,
    /// and one that both do.
    #[test]
    fn invalid_links() {
        let (ticks, values) = ([0, 1, 2, 5, 6, 9], [0, 2, 0, 0, 0, 0]);
        let judged = |list: &[u16], p, gap| {
            let limits = Limits {
                tolerance: Form::Ratio(p, 1),
                gap: Some(gap),
            };
            judge(&ticks, &values, list, limits).unwrap()
        };
        let invalid = |link, p, sample, side| {
            let error = fraction(p, 1);
            let measure = Measure {
                error,
                sample,
                side,
            };
            Some(Invalid { link, measure })
        };
        assert_eq!(judged(&[0, 5], 2, 3), None);
        assert_eq!(judged(&[0, 5], 1, 3), invalid(0, 2, 1, Side::Above));
        assert_eq!(judged(&[0, 5], 2, 2), invalid(0, 2, 2, Side::Gap));
        assert_eq!(judged(&[0, 5], 1, 2), invalid(0, 2, 1, Side::Above));
        assert_eq!(judged(&[0, 1, 2, 3, 5], 0, 2), invalid(3, 0, 4, Side::Gap));
    }

    /// Greedy lists and others; each fault, and a link that is invalid where the one to the next sample is
    /// valid; the next sample is not the next kept one; parts and gap limits; the rows.
    #[test]
    fn greedy_lists() {
        let (zigzag, wave, rise) = ([0, 3, 0, 3, 0], [0, 2, 0, -2, 0], [-2, 0, 2, 2, 0]);
        let fault = |link, fault| Some(GreedyFault { link, fault });
        let (link, stop) = (Fault::Link, Fault::Stop);
        type Case<'a> = (&'a [i16; 5], (u64, u64), &'a [u16], Option<GreedyFault>);
        let cases: [Case; 14] = [
            (&zigzag, (2, 2), &[0, 1, 2, 3, 4], None),
            (&zigzag, (2, 2), &[0, 3, 4], None),
            (&zigzag, (2, 2), &[0, 1, 4], None),
            (&zigzag, (2, 2), &[0, 4], fault(0, link)),
            (&wave, (2, 2), &[0, 2, 4], None),
            (&wave, (2, 2), &[0, 4], None),
            (&wave, (2, 2), &[0, 1, 4], fault(0, stop)),
            (&wave, (2, 2), &[0, 3, 4], fault(0, link)),
            (&wave, (2, 2), &[0, 2, 3, 4], fault(1, stop)),
            (&wave, (2, 1), &[0, 2, 3, 4], None),
            (&wave, (1, 2), &[0, 1, 3, 4], None),
            (&wave, (1, 2), &[0, 2, 3, 4], fault(0, link)),
            (&rise, (1, 1), &[0, 1, 3, 4], fault(0, stop)),
            (&rise, (1, 1), &[0, 2, 4], None),
        ];
        for (values, (above, below), list, expected) in cases {
            let tolerance = Form::Parts((above, 1), (below, 1));
            let answer = judge_greedy(&EVEN, values, list, tolerance);
            assert_eq!(answer, Ok(expected), "{values:?} {list:?} {tolerance:?}");
        }
        let (ticks, values) = ([0, 1, 2, 10, 11, 12], [0; 6]);
        let judged = |list: &[u16], gap| {
            let limits = Limits {
                tolerance: Form::Ratio(0, 1),
                gap: Some(gap),
            };
            judge_greedy(&ticks, &values, list, limits)
        };
        assert_eq!(judged(&[0, 2, 3, 5], 7), Ok(None));
        assert_eq!(judged(&[0, 2, 3, 5], 8), Ok(fault(0, stop)));
        assert_eq!(judged(&[0, 2, 3, 4, 5], 7), Ok(fault(2, stop)));
        assert_eq!(judged(&[0, 2, 5], 7), Ok(fault(1, link)));
        assert_eq!(judged(&[], 0), Err((15, 0)));
        assert_eq!(judged(&[0, 2], 7), Err((6, 2)));
        let one = judge_greedy(&[7], &[7], &[0], Form::Ratio(0, 1));
        assert_eq!(one, Ok(None));
        let row = judge_greedy(&[5, 5], &[0, 0], &[], Form::Ratio(1, 0));
        assert_eq!(row, Err((2, 1)));
    }

    /// Links with a sample above the line and one below, each exactly at its part, one step beyond it, and
    /// beside a part of 0. Judge names the sample that is farthest from the line, within its own part or not.
    #[test]
    fn links_above_and_below() {
        let values = [0, 4, 0, -3, 0];
        let (ends, sides) = ([0, 4], |p| parts((4, 1), (p, 1)));
        assert_eq!(link_parts(&EVEN, &values, 0, 4), sides(3));
        assert_eq!(
            list_parts(&EVEN, &values, &[0, 1, 4]),
            parts((0, 1), (13, 3))
        );
        assert_eq!(
            list_parts(&EVEN, &values, &[0, 1, 2, 3, 4]),
            parts((0, 1), (0, 1))
        );
        let valid = |tolerance: Parts| link_valid(&EVEN, &values, 0, 4, tolerance);
        assert!(valid(sides(3)) && !valid(sides(3).exchanged()));
        assert!(!valid(parts((4, 1), (2_999, 1_000))) && valid(parts((4, 1), (3_001, 1_000))));
        assert!(!valid(parts((3_999, 1_000), (3, 1))) && !valid(parts((65_535, 1), (0, 1))));
        assert!(!valid(parts((0, 1), (65_535, 1))));
        let judged = |tolerance: Parts| judge(&EVEN, &values, &ends, form(tolerance)).unwrap();
        assert_eq!(judged(sides(3)), None);
        // Sample 1 is within its part in the first three, sample 3 in the last.
        for tolerance in [
            sides(2),
            sides(0),
            parts((9, 1), (2, 1)),
            parts((3, 1), (9, 1)),
        ] {
            let measure = Measure {
                error: fraction(4, 1),
                sample: 1,
                side: Side::Above,
            };
            assert_eq!(judged(tolerance), Some(Invalid { link: 0, measure }));
        }
        let (ticks, values) = ([0, 1, 2, 3], [1, 0, 1, -1]);
        let invalid = judge(&ticks, &values, &[0, 3], Form::Parts((5, 1), (0, 1))).unwrap();
        let measure = Measure {
            error: fraction(4, 3),
            sample: 2,
            side: Side::Above,
        };
        assert_eq!(invalid, Some(Invalid { link: 0, measure }));
        assert_eq!(link_parts(&ticks, &values, 0, 3), parts((4, 3), (1, 3)));
    }

    /// A hole alone makes a link invalid exactly if it is within both parts.
    #[test]
    fn holes_beside_parts() {
        let (ticks, values) = ([0, 1, 2, 5, 6], [0, 2, 0, -1, 0]);
        let judged = |above, below| {
            let limits = Limits {
                tolerance: Form::Parts((above, 1), (below, 1)),
                gap: Some(2),
            };
            let invalid = judge(&ticks, &values, &[0, 4], limits).unwrap();
            let Measure {
                error,
                sample,
                side,
            } = invalid.unwrap().measure;
            assert_eq!(error, fraction(2, 1));
            (sample, side)
        };
        assert_eq!(judged(2, 1), (2, Side::Gap));
        assert_eq!(judged(9, 1), (2, Side::Gap));
        assert_eq!(judged(2, 0), (1, Side::Above));
        assert_eq!(judged(1, 2), (1, Side::Above));
    }

    #[test]
    fn reductions() {
        let (zigzag, wave) = ([0, 3, 0, 3, 0], [0, 2, 0, -2, 0]);
        let all: &[u16] = &[0, 1, 2, 3, 4];
        let (most, turned): (&[u16], &[u16]) = (&[0, 2, 3, 4], &[0, 1, 3, 4]);
        type Case<'a> = (
            &'a [i16; 5],
            (i128, i128),
            &'a [u16],
            &'a [u16],
            usize,
            &'a [u16],
        );
        let cases: [Case; 5] = [
            (&zigzag, (2, 2), all, all, 4, &[0, 3, 4]),
            (&zigzag, (3, 3), &[0, 4], &[0, 4], 5, &[0, 4]),
            (&wave, (2, 2), &[0, 2, 4], &[0, 4], 5, &[0, 4]),
            (&wave, (2, 1), most, most, 5, most),
            (&wave, (1, 2), turned, turned, 5, turned),
        ];
        for (values, (above, below), walk, gallop, probes, minimum) in cases {
            let tolerance = form(parts((above, 1), (below, 1)));
            let reduced = |method| reduce(method, &EVEN, values, tolerance, 5).unwrap();
            assert_eq!(reduced(Method::Walk).list, walk, "{values:?} {tolerance:?}");
            assert_eq!(
                (reduced(Method::Gallop).list, reduced(Method::Gallop).probes),
                (gallop.to_vec(), probes),
                "{values:?} {tolerance:?}"
            );
            assert_eq!(
                reduced(Method::Minimum).list,
                minimum,
                "{values:?} {tolerance:?}"
            );
        }
    }

    /// The size of greedy lists. No kept list whose samples lie at most a above and at most b below its lines,
    /// where a + b is at most the smaller part, is shorter. This does not hold for half of each part, for
    /// a + b at most the larger part, nor for each within the smaller part.
    #[test]
    fn size_bound() {
        let walk = |values: &[i16], tolerance: Parts| {
            let samples = values.len();
            reduce(
                Method::Walk,
                &EVEN[..samples],
                values,
                form(tolerance),
                samples,
            )
            .unwrap()
            .list
        };
        let ends = |values: &[i16]| {
            let last = values.len() - 1;
            link_parts(&EVEN[..=last], values, 0, last)
        };
        let values = [1, 1, 0, 1];
        assert_eq!(walk(&values, parts((0, 1), (3, 1))), [0, 1, 3]);
        assert_eq!(ends(&values), parts((0, 1), (1, 1)));
        let values = [1, 1, -1];
        assert_eq!(walk(&values, parts((1, 2), (2, 1))), [0, 1, 2]);
        assert_eq!(ends(&values), parts((1, 1), (0, 1)));
        let values = [0, 2, 1, 3];
        assert_eq!(walk(&values, parts((1, 1), (3, 1))), [0, 1, 3]);
        assert_eq!(ends(&values), parts((1, 1), (1, 1)));

        let random = &mut Random::new(22);
        // Lists within the smaller part together, of those within both parts.
        let mut seen = [0; 2];
        for _ in 0..600 {
            let samples = random.within(3, 8) as usize;
            let (trace, gap) = any_limited(samples, random);
            let Trace { ticks, values } = &trace;
            let gap = Some(gap);
            for tolerance in tolerances(&trace, random) {
                let limits = Limits {
                    tolerance: form(tolerance),
                    gap,
                };
                let greedy = [Method::Walk, Method::Gallop].map(|method| {
                    let reduced = reduce(method, ticks, values, limits, samples);
                    reduced.unwrap().list.len()
                });
                for list in kept_lists(samples).filter(|list| list_obeys(ticks, list, gap)) {
                    let together = list_parts(ticks, values, &list).sum();
                    let bounded = together.at_most(tolerance.smaller());
                    let shorter = greedy.iter().any(|&kept| list.len() < kept);
                    assert!(!bounded || !shorter, "{list:?} {limits:?}\n{trace:?}");
                    seen[usize::from(bounded)] += 1;
                }
            }
        }
        assert!(seen.iter().all(|&count| count > 3_000), "{seen:?}");
    }

    /// The parts a and b of shared limits add up to the smaller part.
    #[test]
    fn shares() {
        let limits = Limits::from(parts((3, 2), (5, 3)));
        for (above, shared) in [
            (0, parts((0, 8), (12, 8))),
            (1, parts((3, 8), (9, 8))),
            (4, parts((12, 8), (0, 8))),
        ] {
            assert_eq!(limits.shared(above, 4).tolerance, shared);
        }
        let half = Limits::from(fraction(3, 2)).shared(1, 2).tolerance;
        assert_eq!(half, fraction(3, 4).into());
        assert_eq!(parts((3, 2), (5, 3)).smaller(), fraction(3, 2));
        assert_eq!(parts((5, 3), (3, 2)).smaller(), fraction(3, 2));
        assert_eq!(parts((3, 2), (5, 3)).sum().lowest(), fraction(19, 6));
        assert_eq!(parts((2, 2), (1, 1)).one(), Some(fraction(2, 2)));
        assert_eq!(parts((2, 2), (2, 1)).one(), None);
    }

    /// The figures of document 02: six samples, of which the middle two lie 8 ticks apart; and a shorter list
    /// that does not obey the gap limit.
    #[test]
    fn holes() {
        let (ticks, values) = ([0, 1, 2, 10, 11, 12], [0; 6]);
        let under = |gap| Limits {
            tolerance: Form::Ratio(0, 1),
            gap: Some(gap),
        };
        for (gap, list, probes) in [
            (7, &[0, 2, 3, 5][..], 7),
            (8, &[0, 5], 5),
            (GAP, &[0, 5], 5),
        ] {
            for method in METHODS {
                let reduced = reduce(method, &ticks, &values, under(gap), 6).unwrap();
                assert_eq!(reduced.list, list, "{method:?} {gap}");
                let counted = if method == Method::Gallop { probes } else { 0 };
                assert_eq!(reduced.probes, counted, "{method:?} {gap}");
            }
            assert_eq!(beside_holes(&ticks, Some(gap)), list, "{gap}");
        }
        assert_eq!(least(&ticks, &values, Some(7), 3, 6), Err((16, 0)));
        let found = least(&ticks, &values, Some(7), 4, 6).unwrap();
        assert_eq!(
            (found.error, &found.list[..]),
            (fraction(0, 1), &[0, 2, 3, 5][..])
        );
        // Rows 15 and 16 in their places.
        for gap in [0, GAP + 1] {
            assert_eq!(least(&ticks, &values, Some(gap), 1, 0), Err((15, 0)));
            assert_eq!(judge(&ticks, &values, &[], under(gap)), Err((15, 0)));
            let row = reduce(Method::Walk, &ticks, &values, under(gap), 0);
            assert_eq!(row, Err((15, 0)));
        }
        assert_eq!(least(&ticks, &values, Some(7), 1, 0), Err((5, 0)));
        assert_eq!(least(&ticks, &values, Some(7), 3, 0), Err((16, 0)));
        assert_eq!(least(&ticks, &values, Some(7), 4, 0), Err((10, 6)));
        // A link of one step is valid, also across a hole.
        let judged = |list: &[u16], gap| judge(&ticks, &values, list, under(gap));
        assert_eq!(judged(&[0, 2, 3, 5], 7), Ok(None));
        let measure = Measure {
            error: fraction(0, 1),
            sample: 2,
            side: Side::Gap,
        };
        let invalid = |link| Ok(Some(Invalid { link, measure }));
        assert_eq!(judged(&[0, 2, 5], 7), invalid(1));
        assert_eq!(judged(&[0, 3, 5], 7), invalid(0));
        assert_eq!(judged(&[0, 3, 5], 8), Ok(None));
        assert!(link_obeys(&ticks, 2, 3, Some(7)) && !link_obeys(&ticks, 2, 4, Some(7)));
        let kept = reduce(Method::Walk, &[0, 2, 3], &[0; 3], under(1), 3);
        assert_eq!(kept.unwrap().list, [0, 1, 2]);
        assert_eq!(list_error(&[0, 2, 3], &[0; 3], &[0, 2]), fraction(0, 1));
    }

    /// The shortest list that obeys a gap limit has both ends and the samples beside each hole: the search
    /// over all links that obey, all kept lists where they can be tried, and that list agree.
    #[test]
    fn shortest_that_obeys() {
        let random = &mut Random::new(12);
        // Lists of both ends alone, of every sample, and others.
        let mut seen = [0; 3];
        for _ in 0..3_000 {
            let most = random.choose(&[TRIED as i64, 60]);
            let samples = random.within(1, most) as usize;
            let (Trace { ticks, .. }, gap) = any_limited(samples, random);
            let list = beside_holes(&ticks, Some(gap));
            assert_eq!(list_refusal(samples, &list), None);
            assert!(list_obeys(&ticks, &list, Some(gap)), "{gap} {ticks:?}");
            let found = fewest_obeying(&ticks, Some(gap));
            assert_eq!(found, list.len(), "{gap} {ticks:?}");
            if samples <= TRIED {
                let lists = kept_lists(samples).filter(|list| list_obeys(&ticks, list, Some(gap)));
                let tried = lists.map(|list| list.len()).min();
                assert_eq!(tried, Some(found), "{gap} {ticks:?}");
            }
            match found {
                kept if kept == samples => seen[0] += 1,
                2 => seen[1] += 1,
                _ => seen[2] += 1,
            }
        }
        assert!(seen.iter().all(|&count| count > 200), "{seen:?}");
    }

    /// A list obeys exactly the gap limits from the longest step on that it crosses.
    #[test]
    fn gap_limits_of_a_list() {
        let random = &mut Random::new(16);
        let mut obeyed = [0; 2];
        for _ in 0..3_000 {
            let samples = random.within(1, 12) as usize;
            let (Trace { ticks, .. }, gap) = any_limited(samples, random);
            let list = any_list(&ticks, gap, random);
            let steps = ticks.windows(2).map(|step| step[1] - step[0]);
            for gap in steps.flat_map(|step| [step - 1, step]).chain([gap]) {
                let obeys = list_obeys(&ticks, &list, Some(gap));
                let from = longest_crossed(&ticks, &list);
                assert_eq!(obeys, from <= Some(gap), "{gap} {list:?} {ticks:?}");
                obeyed[usize::from(obeys)] += 1;
            }
        }
        assert!(obeyed.iter().all(|&count| count > 1_000), "{obeyed:?}");
    }

    /// The largest gap limit is none.
    #[test]
    fn no_gap_limit() {
        let random = &mut Random::new(13);
        for _ in 0..1_000 {
            let samples = random.within(1, 30) as usize;
            let trace = any_trace(samples, random);
            let Trace { ticks, values } = &trace;
            let allowance = random.within(2, samples as i64 + 2) as u64;
            let under = |gap| least(ticks, values, gap, allowance, samples);
            assert_eq!(under(Some(GAP)), under(None), "{trace:?}");
            for tolerance in tolerances(&trace, random) {
                let gap = Some(GAP);
                for method in METHODS {
                    let under = |gap| {
                        let limits = Limits {
                            tolerance: form(tolerance),
                            gap,
                        };
                        reduce(method, ticks, values, limits, samples)
                    };
                    assert_eq!(under(gap), under(None), "{method:?} {trace:?}");
                }
                let limits = Limits { tolerance, gap };
                assert_eq!(
                    fewest(ticks, values, limits),
                    fewest(ticks, values, tolerance)
                );
            }
        }
    }

    /// Parts at which the links of a trace begin to be valid, and others.
    fn tolerances(Trace { ticks, values }: &Trace, random: &mut Random) -> Vec<Parts> {
        let mut tolerances = vec![fraction(0, 1).into(), any_parts(random)];
        if ticks.len() > 2 {
            let i = random.below(ticks.len() as u64 - 2) as usize;
            let j = random.within(i as i64 + 2, ticks.len() as i64 - 1) as usize;
            let error = link_error(ticks, values, i, j);
            let parts = link_parts(ticks, values, i, j);
            tolerances.extend([error.into(), parts, near_parts(parts, random)]);
        }
        tolerances
    }

    /// The greatest height above a link's line and the greatest depth below it are its least parts, and the
    /// greater of them its error.
    #[test]
    fn parts_of_links() {
        let random = &mut Random::new(23);
        for _ in 0..1_500 {
            let samples = random.within(2, 12) as usize;
            let trace = any_trace(samples, random);
            let Trace { ticks, values } = &trace;
            for (i, j) in (1..samples).flat_map(|j| (0..j).map(move |i| (i, j))) {
                let found = link_parts(ticks, values, i, j);
                let heights: Vec<Fraction> = (i + 1..j)
                    .map(|k| above_line(ticks, values, i, j, k))
                    .collect();
                let most = |sign: i128| {
                    let of_sign = heights.iter().map(|height| sign * height.p).max();
                    let p = of_sign.unwrap_or(0).max(0);
                    fraction(p, (ticks[j] - ticks[i]).into()).lowest()
                };
                let expected = Parts {
                    above: most(1),
                    below: most(-1),
                };
                assert_eq!(found, expected, "{i} {j} {trace:?}");
                let error = found.larger();
                assert_eq!(error, link_error(ticks, values, i, j), "{i} {j} {trace:?}");
            }
        }
    }

    /// The link from end to end of a squeezed trace is valid at its parts, and with either of them just below
    /// it is not: where neither is 0, no other slope is left.
    #[test]
    fn squeezed_traces() {
        let random = &mut Random::new(24);
        // Parts that are both 0, of which one is, and neither.
        let mut seen = [0; 3];
        for _ in 0..2_000 {
            let samples = random.within(2, 30) as usize;
            let (trace, least) = squeezed(samples, random);
            let Trace { ticks, values } = &trace;
            assert_eq!(trace_refusal(ticks, values), None);
            assert!(ticks.len() <= samples, "{trace:?}");
            let last = ticks.len() - 1;
            let ends = |tolerance: Parts| valid_ends(ticks, values, 0, tolerance);
            assert!(ends(least).contains(&last), "{least:?} {trace:?}");
            let Parts { above, below } = least;
            if above.p > 0 {
                let above = generate::just_below(above);
                assert!(!ends(Parts { above, below }).contains(&last));
            }
            if below.p > 0 {
                let below = generate::just_below(below);
                assert!(!ends(Parts { above, below }).contains(&last));
            }
            seen[[above, below].iter().filter(|part| part.p > 0).count()] += 1;
        }
        assert!(seen.iter().all(|&count| count > 100), "{seen:?}");
    }

    /// Exceptional traces, whatever their scale: on many, walk's list is another with the parts exchanged, with
    /// the smaller part for both, and with the larger; and a sample that judge names is within its own part.
    #[test]
    fn exceptional_traces() {
        let random = &mut Random::new(25);
        let mut seen = [0; 4];
        for _ in 0..500 {
            let (trace, tolerance) = exceptional(random);
            let Trace { ticks, values } = &trace;
            assert_eq!(trace_refusal(ticks, values), None);
            let samples = ticks.len();
            let walk = |parts| reduce(Method::Walk, ticks, values, form(parts), samples).unwrap();
            let [smaller, larger] = [tolerance.smaller(), tolerance.larger()];
            let others = [tolerance.exchanged(), smaller.into(), larger.into()];
            for (other, seen) in others.into_iter().zip(&mut seen) {
                *seen += usize::from(walk(other) != walk(tolerance));
            }
            let ends = [0, samples as u16 - 1];
            if let Some(invalid) = judge(ticks, values, &ends, form(tolerance)).unwrap() {
                let sample = invalid.measure.sample;
                let height = above_line(ticks, values, 0, samples - 1, sample);
                seen[3] += usize::from(tolerance.allow(height));
            }
        }
        assert!(seen.iter().all(|&count| count > 50), "{seen:?}");
    }

    #[test]
    fn ends_of_valid_links() {
        let random = &mut Random::new(3);
        for _ in 0..3_000 {
            let samples = random.within(1, 40) as usize;
            let (trace, gap) = any_limited(samples, random);
            let Trace { ticks, values } = &trace;
            let gap = Some(gap);
            for tolerance in tolerances(&trace, random) {
                let limits = Limits { tolerance, gap };
                for i in 0..samples {
                    let ends: Vec<usize> = (i + 1..samples)
                        .filter(|&j| link_valid(ticks, values, i, j, limits))
                        .collect();
                    let found = valid_ends(ticks, values, i, limits);
                    assert_eq!(found, ends, "{i} {trace:?} {limits:?}");
                }
            }
        }
    }

    /// Trying every kept list, the table over both tests of a link, and the fewest samples agree.
    #[test]
    fn minima() {
        let random = &mut Random::new(4);
        for _ in 0..4_000 {
            let samples = random.within(1, TRIED as i64) as usize;
            let (trace, gap) = any_limited(samples, random);
            let Trace { ticks, values } = &trace;
            let gap = Some(gap);
            for tolerance in tolerances(&trace, random) {
                let limits = Limits { tolerance, gap };
                let valid = |i, j| link_valid(ticks, values, i, j, limits);
                let list = minimum_of_all(samples, valid);
                let ends = |i| (i + 1..samples).filter(|&j| valid(i, j)).collect();
                let by_table = minimum_by_table(samples - 1, ends);
                assert_eq!(by_table, list, "{trace:?} {limits:?}");
                let ends = |i| valid_ends(ticks, values, i, limits);
                let by_table = minimum_by_table(samples - 1, ends);
                assert_eq!(by_table, list, "{trace:?} {limits:?}");
                assert_eq!(fewest(ticks, values, limits), list.len());
            }
        }
    }

    #[test]
    fn least_errors() {
        let zigzag = [0, 3, 0, 3, 0];
        for (allowance, p, list) in [
            (2, 3, &[0, 4][..]),
            (3, 2, &[0, 3, 4]),
            (4, 2, &[0, 3, 4]),
            (5, 0, &[0, 1, 2, 3, 4]),
            (4_096, 0, &[0, 1, 2, 3, 4]),
        ] {
            let least = least(&EVEN, &zigzag, None, allowance, 5).unwrap();
            assert_eq!((least.error, &least.list[..]), (fraction(p, 1), list));
        }
        assert_eq!(least(&EVEN, &zigzag, None, 1, 5), Err((5, 0)));
        assert_eq!(least(&[7], &[7], Some(1), 2, 1).unwrap().list, [0]);
    }

    /// Trying every kept list and the tables agree, also where no list is short enough.
    #[test]
    fn least_by_both() {
        let random = &mut Random::new(7);
        let mut found = [0; 2];
        for _ in 0..1_000 {
            let samples = random.within(2, 10) as usize;
            let (Trace { ticks, values }, gap) = any_limited(samples, random);
            for allowance in 2..=samples + 1 {
                let error = least_of_all(&ticks, &values, Some(gap), allowance);
                let by_table = least_by_table(&ticks, &values, Some(gap), allowance);
                assert_eq!(by_table, error);
                found[usize::from(error.is_some())] += 1;
            }
        }
        assert!(found.iter().all(|&count| count > 200), "{found:?}");
    }

    #[test]
    fn every_kept_list() {
        let lists = |samples| kept_lists(samples).collect::<Vec<_>>();
        assert_eq!(lists(1), [[0]]);
        assert_eq!(lists(2), [[0, 1]]);
        assert_eq!(lists(3), [&[0, 2][..], &[0, 1, 2]]);
        for samples in 2..=TRIED {
            let mut lists = lists(samples);
            assert!(lists
                .iter()
                .all(|list| list_refusal(samples, list).is_none()));
            lists.sort();
            lists.dedup();
            assert_eq!(lists.len(), 1 << (samples - 2));
        }
    }

    #[test]
    fn shortest_lists() {
        let zigzag = [0, 3, 0, 3, 0];
        for (p, q, expected) in [(3, 1, 2), (2, 1, 3), (3, 2, 5), (0, 1, 5)] {
            assert_eq!(fewest(&EVEN, &zigzag, fraction(p, q)), expected, "{p}/{q}");
        }
        assert_eq!(fewest(&EVEN, &zigzag, fraction(6, 1).half()), 2);
        assert_eq!(fewest(&EVEN, &zigzag, fraction(5, 1).half()), 3);
        assert_eq!(fewest(&[7], &[7], fraction(0, 1)), 1);
    }

    #[test]
    fn forms() {
        let both = |p, q| Some(Parts::from(fraction(p, q)));
        assert_eq!(held(Form::Ratio(4, 6)), both(2, 3));
        assert_eq!(held(Form::Ratio(0, 7)), both(0, 1));
        assert_eq!(held(Form::Counts(0.75)), both(3, 4));
        assert_eq!(held(Form::Counts(-0.0)), both(0, 1));
        assert_eq!(held(Form::Counts(65_535.0)), both(65_535, 1));
        assert_eq!(held(Form::Counts(65_535.015_625)), None);
        assert_eq!(held(Form::Counts(0.007_812_5)), None);
        assert_eq!(held(Form::Counts(-1.0)), None);
        assert_eq!(held(Form::Counts(f64::MAX)), None);
        assert_eq!(held(Form::Noise(1.5, 2.125)), both(51, 16));
        assert_eq!(held(Form::Noise(1_023.0, 63.0)), both(64_449, 1));
        assert_eq!(held(Form::Noise(0.0, f64::NAN)), None);
        let (good, bad) = ((4, 6), [(1, 0), (0, 1_048_576), (65_536, 1)]);
        assert_eq!(held(Form::Parts(good, (2, 2))), Some(parts((2, 3), (1, 1))));
        assert_eq!(held(Form::Parts((2, 2), (1, 1))), both(1, 1));
        for bad in bad {
            assert_eq!(held(Form::Parts(good, bad)), None);
            assert_eq!(held(Form::Parts(bad, good)), None);
            assert_eq!(held(Form::Parts(bad, bad)), None);
        }
    }

    #[test]
    fn lists() {
        let cases: [(&[u16], Option<Row>); 7] = [
            (&[0, 3, 4], None),
            (&[], Some((6, 0))),
            (&[1, 4], Some((6, 0))),
            (&[0, 2, 2, 4], Some((6, 2))),
            (&[0, 5], Some((6, 1))),
            (&[0, 3], Some((6, 2))),
            (&[0], Some((6, 1))),
        ];
        for (list, row) in cases {
            assert_eq!(list_refusal(5, list), row, "{list:?}");
        }
        assert_eq!(list_refusal(1, &[0]), None);
    }
}
