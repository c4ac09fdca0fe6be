//! Repeatable random traces, tolerances, lists, states of views, range tables, contents of records, crates,
//! pedestal runs and traces to be added, chosen to find mistakes.
//!
//! - [`Random`]: numbers from a seed.
//! - [`Trace`], [`Kind`], [`trace`]: traces within the limits, of several kinds.
//! - [`Shape`], [`adversarial`]: traces on which a wrong method differs from a right one.
//! - [`any_trace`]: of either sort.
//! - [`tied`], [`repeated`]: traces with equal deviations, and with equally bad links.
//! - [`Holes`], [`with_holes`], [`gap_limit`], [`any_limited`]: traces and gap limits that matter to them.
//! - [`kept_list`], [`obeying_list`], [`any_list`], [`spoilt`], [`damaged`]: kept lists, and lists with one or
//!   more faults.
//! - [`growing`], [`view_k`], [`view_state`], [`damage_view`]: traces for views, with ties and without, and
//!   states of views and others.
//! - [`just_below`], [`just_above`], [`near_parts`]: the tolerances nearest to a link's error, and to its
//!   parts.
//! - [`any_ratio`], [`any_parts`], [`written`], [`bad_ratio`], [`bad_parts`]: tolerances that are allowed, in
//!   lowest terms and not, and others.
//! - [`squeezed`], [`exceptional`]: traces with parts at which few slopes are left, and on which unequal parts
//!   differ from equal ones.
//! - [`range_table`], [`damaged_table`]: range tables that are allowed, and others.
//! - [`content`]: contents of records.
//! - [`Channels`], [`crate_of`], [`channels`]: crates whose channels are traces and others.
//! - [`damage_trace`], [`damage_crate`]: what makes a trace, or the lists of a crate, none.
//! - [`Runs`], [`runs`]: pedestal runs at the limits of what has moved and is noisy, and beside them.
//! - [`summands`]: traces to be added, with sums at the ends of the range, with joined lists at the bound of
//!   their error, and others.
//! - [`overflow`], [`damage_summand`]: what makes them none.

use crate::pedestals::{Sums, FACTOR};
use crate::record::Content;
use crate::sums::Summand;
use crate::views::{State, ENTRIES, K};
use crate::{
    beside_holes, link_parts, Fraction, Parts, DENOMINATOR, GAP, SAMPLES, SPAN, TOLERANCE,
};
use std::collections::BTreeMap;

/// A generator (splitmix64): the same seed gives the same numbers.
pub struct Random(u64);

impl Random {
    pub fn new(seed: u64) -> Random {
        Random(seed)
    }

    /// Any 64 bits.
    pub fn bits(&mut self) -> u64 {
        self.0 = self.0.wrapping_add(0x9e37_79b9_7f4a_7c15);
        let mut z = self.0;
        z = (z ^ z >> 30).wrapping_mul(0xbf58_476d_1ce4_e5b9);
        z = (z ^ z >> 27).wrapping_mul(0x94d0_49bb_1331_11eb);
        z ^ z >> 31
    }

    /// From 0 to `count` - 1.
    pub fn below(&mut self, count: u64) -> u64 {
        self.bits() % count
    }

    /// From `low` to `high`, both included.
    pub fn within(&mut self, low: i64, high: i64) -> i64 {
        low + self.below((high - low + 1) as u64) as i64
    }

    /// One of these.
    pub fn choose<T: Copy>(&mut self, from: &[T]) -> T {
        from[self.below(from.len() as u64) as usize]
    }
}

/// A trace.
#[derive(Clone, Debug)]
pub struct Trace {
    pub ticks: Vec<u32>,
    pub values: Vec<i16>,
}

/// What a trace's values look like.
#[derive(Clone, Copy, Debug, PartialEq)]
pub enum Kind {
    /// From -4 to 4.
    Small,
    /// Over the whole range.
    Wide,
    /// Runs of equal values.
    Plateaus,
    /// Runs of equal changes, ended by the range.
    Ramps,
    /// Up and down in turn.
    Zigzag,
    /// Single values far from the rest.
    Spikes,
    /// At or near the ends of the range.
    Saturated,
    /// Pulses with exponential tails, over a baseline with noise.
    Pulses,
}

/// Every kind.
pub const KINDS: [Kind; 8] = [
    Kind::Small,
    Kind::Wide,
    Kind::Plateaus,
    Kind::Ramps,
    Kind::Zigzag,
    Kind::Spikes,
    Kind::Saturated,
    Kind::Pulses,
];

/// A trace of this kind with 1 to 4,096 samples. Its ticks rise by ones, by little, or spread over
/// exactly the greatest span, evenly or in bursts; they begin at 0, anywhere, or so that the last is
/// the greatest u32.
pub fn trace(kind: Kind, samples: usize, random: &mut Random) -> Trace {
    Trace {
        ticks: ticks(samples, random),
        values: values(kind, samples, random),
    }
}

fn ticks(samples: usize, random: &mut Random) -> Vec<u32> {
    let longest = SPAN / (samples as u32 - 1).max(1);
    let (step, one_in) = random.choose(&[(1, 1), (4, 1), (longest, 1), (longest, 8)]);
    let mut offsets = vec![0];
    for k in 1..samples {
        let step = if random.below(one_in) == 0 { step } else { 1 };
        offsets.push(offsets[k - 1] + 1 + random.below(step.into()) as u32);
    }
    if samples > 1 && step == longest {
        offsets[samples - 1] = SPAN;
    }
    begun(&offsets, random)
}

/// Ticks with these offsets, which begin at 0, anywhere, or so that the last is the greatest u32.
fn begun(offsets: &[u32], random: &mut Random) -> Vec<u32> {
    let latest = u32::MAX - offsets[offsets.len() - 1];
    let anywhere = random.below(u64::from(latest) + 1) as u32;
    let first = random.choose(&[0, anywhere, latest]);
    offsets.iter().map(|offset| first + offset).collect()
}

fn values(kind: Kind, samples: usize, random: &mut Random) -> Vec<i16> {
    let (low, high) = (i64::from(i16::MIN), i64::from(i16::MAX));
    let size = random.choose(&[1, 3, 50, 2_000, high]);
    let base = random.within(low, high);
    let run = random.within(2, 12);
    let (mut value, mut change, mut height) = (base, 0, 0);
    (0..samples as i64)
        .map(|k| {
            value = match kind {
                Kind::Small => random.within(-4, 4),
                Kind::Wide => random.within(low, high),
                Kind::Plateaus if k % run == 0 => random.within(-size, size),
                Kind::Plateaus => value,
                Kind::Ramps => {
                    if k % run == 0 {
                        change = random.within(-size, size);
                    }
                    value + change
                }
                Kind::Zigzag if k % 2 == 0 => random.within(0, size),
                Kind::Zigzag => random.within(-size, 0),
                Kind::Spikes if random.below(6) == 0 => random.within(low, high),
                Kind::Spikes => base + random.within(-1, 1),
                Kind::Saturated => random.choose(&[low, low, low + 1, 0, high - 1, high, high]),
                Kind::Pulses => {
                    height = height * run / (run + 1);
                    if random.below(20) == 0 {
                        height += random.within(0, size);
                    }
                    base + height + random.within(-2, 2)
                }
            }
            .clamp(low, high);
            value as i16
        })
        .collect()
}

/// A shape on which a wrong method differs from a right one.
#[derive(Clone, Copy, Debug, PartialEq)]
pub enum Shape {
    /// A straight line in whole values, with a few samples one off: cones stay barely open.
    Line,
    /// Beside a straight line, so far above it or so far below it: either side has a part of its own.
    Band,
    /// Ever steeper: each sample closes the cone on one side.
    Bow,
    /// Up and down by the same height, with a few samples on the line: validity falls and rises again.
    Swing,
    /// On the line at 0, 2, 4, 8, .. samples from every start of a stretch, beside it elsewhere: a
    /// doubling search passes over invalid links.
    Doubling,
    /// The ends of the range only: the greatest products.
    Ends,
    /// A kind with each value twice: several shortest lists.
    Doubled,
    /// A kind, then the same backwards: several shortest lists.
    Mirrored,
}

/// Every shape.
pub const SHAPES: [Shape; 8] = [
    Shape::Line,
    Shape::Band,
    Shape::Bow,
    Shape::Swing,
    Shape::Doubling,
    Shape::Ends,
    Shape::Doubled,
    Shape::Mirrored,
];

/// A trace of this shape with 1 to 4,096 samples and ticks as those of `trace`.
pub fn adversarial(shape: Shape, samples: usize, random: &mut Random) -> Trace {
    let ticks = ticks(samples, random);
    let values = shaped(shape, &ticks, random);
    Trace { ticks, values }
}

fn shaped(shape: Shape, ticks: &[u32], random: &mut Random) -> Vec<i16> {
    let samples = ticks.len();
    let kind = random.choose(&KINDS);
    let of_kind = values(kind, samples, random);
    let (low, high) = (i64::from(i16::MIN), i64::from(i16::MAX));
    let span = i64::from(ticks[samples - 1] - ticks[0]).max(1);
    let (from, to) = (random.within(low, high), random.within(low, high));
    let height = random.choose(&[1, 3, 7, 500, high]);
    let depth = random.choose(&[0, 1, 2, 9, 300, high]);
    let period = random.choose(&[8, 32, 4_096]);
    let edge = random.below(samples as u64) as usize;
    let values = (0..samples).map(|k| {
        let at = i64::from(ticks[k] - ticks[0]);
        let off = random.below(9) == 0;
        let value = match shape {
            Shape::Line => from + (to - from) * at / span + i64::from(off),
            Shape::Band => {
                let beside = random.choose(&[height, height, -depth, -depth, 0]);
                from + (to - from) * at / span + beside + i64::from(off)
            }
            Shape::Bow => from + height * at / span * at / span + i64::from(off),
            Shape::Swing if off => 0,
            Shape::Swing => height * (k as i64 % 2),
            Shape::Doubling if (k % period).is_power_of_two() || k % period == 0 => 0,
            Shape::Doubling => random.choose(&[-height, height]),
            Shape::Ends if k < edge || off => low,
            Shape::Ends => high,
            Shape::Doubled => of_kind[k / 2].into(),
            Shape::Mirrored => of_kind[k.min(samples - 1 - k)].into(),
        };
        value.clamp(low, high) as i16
    });
    values.collect()
}

/// A trace of any kind or shape.
pub fn any_trace(samples: usize, random: &mut Random) -> Trace {
    let ticks = ticks(samples, random);
    any_on(ticks, random)
}

/// A trace with these ticks, of any kind or shape.
fn any_on(ticks: Vec<u32>, random: &mut Random) -> Trace {
    let values = match random.below(2) {
        0 => values(random.choose(&KINDS), ticks.len(), random),
        _ => shaped(random.choose(&SHAPES), &ticks, random),
    };
    Trace { ticks, values }
}

/// A trace with steps that are the same backwards, so that links between opposite samples have their
/// deviations in equal pairs: on one side of the line where the values are the same backwards, on either
/// where they are so and turned over (-1 - v for v). In some the span is the greatest; in some one value or
/// one tick is one off.
pub fn tied(samples: usize, random: &mut Random) -> Trace {
    let Trace { ticks, mut values } = any_trace(samples, random);
    let last = samples - 1;
    let mut offsets = vec![0];
    for k in 0..last {
        let same = k.min(last - 1 - k);
        offsets.push(offsets[k] + (ticks[same + 1] - ticks[same]));
    }
    let more = random.choose(&[0, 0, (SPAN - offsets[last]) / 2]);
    let turned = random.below(2) == 0;
    for k in samples / 2..samples {
        let opposite = values[last - k];
        if 2 * k == last {
            offsets[k] += more;
        } else {
            offsets[k] += 2 * more;
            values[k] = if turned { !opposite } else { opposite };
        }
    }
    let at = random.below(samples as u64) as usize;
    match random.below(6) {
        0 => values[at] = values[at].saturating_add(random.choose(&[-1, 1])),
        1 if at > 0 && offsets[at] - offsets[at - 1] > 1 => offsets[at] -= 1,
        _ => (),
    }
    let ticks = begun(&offsets, random);
    Trace { ticks, values }
}

/// A trace of a few samples over and over, in some with a longer step after each time: kept lists have
/// equally bad links.
pub fn repeated(samples: usize, random: &mut Random) -> Trace {
    let few = any_trace(random.within(3, 8) as usize, random).values;
    let longer = random.choose(&[0, 1, 9]);
    let offsets: Vec<u32> = (0..samples)
        .map(|k| (k + longer * (k / few.len())) as u32)
        .collect();
    let values = few.iter().copied().cycle().take(samples);
    Trace {
        ticks: begun(&offsets, random),
        values: values.collect(),
    }
}

/// Where a trace has holes.
#[derive(Clone, Copy, Debug, PartialEq)]
pub enum Holes {
    Nowhere,
    /// At the first step.
    First,
    /// At the last step.
    Last,
    /// At two steps in a row or more, with single samples between them.
    Row,
    /// At one step in five, drawn for each.
    Scattered,
    Everywhere,
}

/// Every place of them.
pub const HOLES: [Holes; 6] = [
    Holes::Nowhere,
    Holes::First,
    Holes::Last,
    Holes::Row,
    Holes::Scattered,
    Holes::Everywhere,
];

/// A trace of any kind or shape with 1 to 4,096 samples, and a gap limit under which it has holes there
/// alone, as far as it has so many steps. Holes are one tick longer than the gap limit; in some traces one
/// of them is longer, up to exactly the greatest span. Most other steps are exactly the gap limit or one
/// tick shorter.
pub fn with_holes(holes: Holes, samples: usize, random: &mut Random) -> (Trace, u32) {
    let steps = samples - 1;
    let longest = SPAN / (steps as u32).max(1);
    let any = random.within(1, i64::from(longest) - 1) as u32;
    let gap = random.choose(&[1, 2, 7, any, longest - 1]);
    let from = random.below(steps.max(1) as u64) as usize;
    let row = from..from + random.within(2, 5) as usize;
    let hole: Vec<bool> = (0..steps)
        .map(|k| match holes {
            Holes::Nowhere => false,
            Holes::First => k == 0,
            Holes::Last => k == steps - 1,
            Holes::Row => row.contains(&k),
            Holes::Scattered => random.below(5) == 0,
            Holes::Everywhere => true,
        })
        .collect();
    let mut offsets = vec![0];
    for k in 0..steps {
        let any = random.within(1, gap.into()) as u32;
        let shorter = random.choose(&[gap, gap, (gap - 1).max(1), any]);
        offsets.push(offsets[k] + if hole[k] { gap + 1 } else { shorter });
    }
    let places: Vec<usize> = (0..steps).filter(|&k| hole[k]).collect();
    if !places.is_empty() && random.below(3) == 0 {
        let rest = SPAN - offsets[steps];
        let any = random.below(u64::from(rest) + 1) as u32;
        let more = random.choose(&[any, rest]);
        offsets[random.choose(&places) + 1..]
            .iter_mut()
            .for_each(|offset| *offset += more);
    }
    let ticks = begun(&offsets, random);
    (any_on(ticks, random), gap)
}

/// A gap limit that matters to these ticks, of a trace or of the channels of a crate: where they rise, the
/// ticks of one of their steps, or one tick more or less; the least and the greatest too.
pub fn gap_limit(ticks: &[u32], random: &mut Random) -> u32 {
    let steps = ticks.windows(2).filter(|step| step[0] < step[1]);
    let mut steps: Vec<u32> = steps.map(|step| step[1] - step[0]).collect();
    if steps.is_empty() {
        steps.push(1);
    }
    let step = random.choose(&steps).min(GAP);
    random
        .choose(&[step, step, step - 1, step - 1, step + 1, 1, GAP])
        .clamp(1, GAP)
}

/// A trace of any kind or shape, and a gap limit: none, one that matters to it, or one under which it has
/// holes in certain places.
pub fn any_limited(samples: usize, random: &mut Random) -> (Trace, u32) {
    let kind = random.below(3);
    if kind == 2 {
        return with_holes(random.choose(&HOLES), samples, random);
    }
    let trace = any_trace(samples, random);
    let gap = match kind {
        0 => GAP,
        _ => gap_limit(&trace.ticks, random),
    };
    (trace, gap)
}

/// A kept list of a trace with so many samples: few, some or most of them.
pub fn kept_list(samples: usize, random: &mut Random) -> Vec<u16> {
    let one_in = random.choose(&[1, 2, 4, 16, 1_000]);
    (0..samples as u16)
        .filter(|&k| k == 0 || usize::from(k) == samples - 1 || random.below(one_in) == 0)
        .collect()
}

/// A kept list of these ticks that obeys the gap limit: few, some or most of the samples, and those beside
/// each hole.
pub fn obeying_list(ticks: &[u32], gap: u32, random: &mut Random) -> Vec<u16> {
    let mut list = kept_list(ticks.len(), random);
    list.extend(beside_holes(ticks, Some(gap)));
    list.sort();
    list.dedup();
    list
}

/// A kept list of these ticks; half of them obey the gap limit.
pub fn any_list(ticks: &[u32], gap: u32, random: &mut Random) -> Vec<u16> {
    match random.below(2) {
        0 => kept_list(ticks.len(), random),
        _ => obeying_list(ticks, gap, random),
    }
}

/// The kept list with one entry between its ends moved to the next sample or the one before, or left out, or
/// with one added; still a kept list. A sample that is kept already is not added again.
pub fn spoilt(list: &[u16], samples: usize, random: &mut Random) -> Vec<u16> {
    let mut list = list.to_vec();
    let inner = list.len().saturating_sub(2) as u64;
    let change = if inner > 0 { random.below(4) } else { 3 };
    let at = 1 + random.below(inner.max(1)) as usize;
    match change {
        0 => list[at] += 1,
        1 => list[at] -= 1,
        2 => drop(list.remove(at)),
        _ => list.push(random.below(samples as u64) as u16),
    }
    list.sort();
    list.dedup();
    list
}

/// The kept list with one fault or several at places drawn for each. It may still be a kept list
/// where the trace is short.
pub fn damaged(list: &[u16], samples: usize, random: &mut Random) -> Vec<u16> {
    let mut list = list.to_vec();
    for _ in 0..random.within(1, 3) {
        let at = random.below(list.len() as u64 + 1) as usize;
        match random.below(7) {
            0 => list.clear(),
            1 => list.truncate(at),
            2 => list.insert(at, random.below(samples as u64) as u16),
            3 => list.insert(at, random.choose(&[samples as u16, 4_096, u16::MAX])),
            4 if at < list.len() => drop(list.remove(at)),
            5 if at < list.len() => list.insert(at, list[at]),
            6 if at < list.len() => list[at] = random.below(samples as u64) as u16,
            _ => list.push(random.below(samples as u64) as u16),
        }
    }
    list
}

/// A trace that grows in a view: of any kind or shape, with equal deviations, with equally bad links, or of
/// one value.
pub fn growing(samples: usize, random: &mut Random) -> Trace {
    match random.below(6) {
        0..=2 => any_trace(samples, random),
        3 => tied(samples, random),
        4 => repeated(samples, random),
        _ => {
            let mut trace = any_trace(samples, random);
            trace.values = vec![trace.values[0]; samples];
            trace
        }
    }
}

/// A k for the view of a trace with so many samples: the least and the greatest, small ones, any, and the one
/// that the samples just fill.
pub fn view_k(samples: usize, random: &mut Random) -> u32 {
    let any = random.below(u64::from(K) + 1) as u32;
    let filled = (samples as u32 / 2).saturating_sub(1).min(K);
    random.choose(&[0, 1, 1, 2, 2, 3, any, filled, K])
}

/// A state with a kept list of so many samples that has at most 2 k inner samples, few of them or all that
/// there may be, and anything behind it.
pub fn view_state(k: u32, samples: usize, random: &mut Random) -> State {
    let mut list = kept_list(samples, random);
    let most = 2 * k as usize + 2;
    while list.len() > most {
        list.remove(random.within(1, list.len() as i64 - 2) as usize);
    }
    let entries = [(); ENTRIES].map(|_| random.bits() as u16);
    let count = 0;
    State { k, count, entries }.with_list(&list)
}

/// Changes k, the count or one of the first entries, so that this may be no view any more.
pub fn damage_view(state: &mut State, random: &mut Random) {
    let at = random.below(u64::from(state.count).clamp(1, ENTRIES as u64)) as usize;
    let any = random.bits() as u32;
    match random.below(9) {
        0 => state.k = random.choose(&[K + 1, K + 2, 1 << 31, u32::MAX, any]),
        // Too few for the list, if it has inner samples.
        1 => state.k = random.choose(&[0, state.count.saturating_sub(3) / 2]),
        2 => state.count = random.choose(&[0, 67, 68, 1 << 16, u32::MAX, any]),
        // The same count, if it is cut to 16 bits or to 31.
        3 => state.count |= random.choose(&[1 << 16, 1 << 31]),
        4 => state.count = state.count.wrapping_add(random.choose(&[1, u32::MAX])),
        5 => state.entries[at] = state.entries[at].wrapping_add(random.choose(&[1, u16::MAX])),
        6 => state.entries[at] = state.entries[at.saturating_sub(1)],
        7 => state.entries.swap(at, at.saturating_sub(1)),
        _ => state.entries[at] = random.choose(&[0, 4_095, 4_096, u16::MAX]),
    }
}

/// For p/q above 0 in lowest terms, q at most 1,048,575: the r/s below it with p s - r q = 1 and s
/// as great as a tolerance allows. No fraction with that s lies between.
pub fn just_below(fraction: Fraction) -> Fraction {
    nearest(fraction, -1, DENOMINATOR)
}

/// The same above p/q, which may be 0, with r q - p s = 1; p/q itself if that is the greatest tolerance.
pub fn just_above(fraction: Fraction) -> Fraction {
    match fraction.p == TOLERANCE * fraction.q {
        true => fraction,
        false => nearest(fraction, 1, DENOMINATOR),
    }
}

/// The r/s with r q - p s = step, which is 1 or -1, and s at most so great.
fn nearest(Fraction { p, q }: Fraction, step: i128, most: i128) -> Fraction {
    let s = most - (most + step * inverse(p, q)).rem_euclid(q);
    Fraction {
        p: (p * s + step) / q,
        q: s,
    }
}

/// Each part as it is, or the nearest to it above or below; a quarter of them any other. The nearest have
/// denominators up to the greatest for the part above, and up to one less for the part below.
pub fn near_parts(Parts { above, below }: Parts, random: &mut Random) -> Parts {
    let mut near = |part: Fraction, most: i128| match random.below(8) {
        0..=2 => part,
        3 if part.p > 0 => nearest(part, -1, most),
        4 if part.p < TOLERANCE * part.q => nearest(part, 1, most),
        5 | 6 => any_ratio(random),
        _ => part,
    };
    Parts {
        above: near(above, DENOMINATOR),
        below: near(below, DENOMINATOR - 1),
    }
}

/// A ratio that is allowed as a tolerance, in lowest terms.
pub fn any_ratio(random: &mut Random) -> Fraction {
    let q = random.choose(&[1, 6, 1_000, DENOMINATOR]);
    let q = 1 + i128::from(random.below(q as u64));
    let most = random.choose(&[0, 1, 6, 1_000, TOLERANCE]) * q;
    let any = i128::from(random.below(most as u64 + 1));
    let p = random.choose(&[any, any, most]);
    Fraction { p, q }.lowest()
}

/// Parts that are allowed, in lowest terms: equal; any two; one of them 0; with the same numerator; with
/// numerators one apart; as near each other as can be; at the limits.
pub fn any_parts(random: &mut Random) -> Parts {
    let above = any_ratio(random);
    let zero = Fraction { p: 0, q: 1 };
    let below = match random.below(8) {
        0 => above,
        1 | 2 => any_ratio(random),
        3 => zero,
        // The same numerator, over a denominator that has no factor of it.
        4 => Fraction {
            p: above.p,
            q: (above.q + above.p.max(1)).min(DENOMINATOR),
        },
        5 => Fraction {
            p: (above.p + 1).min(TOLERANCE * above.q),
            q: above.q,
        },
        6 => just_above(above),
        _ => {
            let least = Fraction {
                p: 1,
                q: DENOMINATOR,
            };
            let greatest = Fraction { p: TOLERANCE, q: 1 };
            random.choose(&[zero, least, just_below(greatest), greatest])
        }
    };
    let below = below.lowest();
    match random.below(2) {
        0 => Parts { above, below },
        _ => Parts { above, below }.exchanged(),
    }
}

/// p and q of the part above and of the part below, each in lowest terms or not.
pub fn written(Parts { above, below }: Parts, random: &mut Random) -> [(u64, u64); 2] {
    [above, below].map(|Fraction { p, q }| {
        let most = DENOMINATOR / q;
        let any = random.within(1, most as i64) as i128;
        let times = random.choose(&[1, 2.min(most), any, most]);
        ((p * times) as u64, (q * times) as u64)
    })
}

/// A ratio that is not allowed as a tolerance, at a limit or beyond it; some are allowed if they are cut to
/// 32 bits.
pub fn bad_ratio(random: &mut Random) -> (u64, u64) {
    let (q, most) = (DENOMINATOR as u64, TOLERANCE as u64);
    random.choose(&[
        (0, 0),
        (1, 0),
        (0, q + 1),
        (1, 1 << 32 | 1),
        (0, u64::MAX),
        (most + 1, 1),
        (most * q + 1, q),
        (1 << 48, 1),
        (u64::MAX, u64::MAX),
        (u64::MAX, 1),
    ])
}

/// The same of parts of which the one above is not allowed, the one below, or neither.
pub fn bad_parts(random: &mut Random) -> [(u64, u64); 2] {
    let mut parts = written(any_parts(random), random);
    let (from, to) = random.choose(&[(0, 1), (1, 2), (0, 2)]);
    parts[from..to].fill_with(|| bad_ratio(random));
    parts
}

/// A trace of at most so many samples, at least two, beside the line from its first sample to its last, and
/// the least parts at which the link between these is valid. Those above the line lie above it by fractions
/// over one number, those below it by fractions over another, which has no factor in common with the first:
/// where both parts are reached, that slope alone is left.
pub fn squeezed(samples: usize, random: &mut Random) -> (Trace, Parts) {
    let (one, other) =
        random.choose(&[(1, 1), (2, 3), (5, 7), (16, 15), (128, 127), (1_025, 1_023)]);
    let (one, other) = random.choose(&[(one, other), (other, one)]);
    let period = one * other;
    // As many periods as there is room for, which the samples may share.
    let periods = random.within(1, (i64::from(SPAN) / period).min(samples as i64));
    let last = periods * period;
    let steep = random.choose(&[1, 7, period / 2, period + 1]);
    let rise = random
        .within(-steep, steep)
        .clamp(-65_000 / periods, 65_000 / periods);
    let (height, depth) = (random.below(4) as i64, random.below(9) as i64);
    // Above the line, rounded up, below it, rounded down, and on it: the ticks between the samples, and how far
    // from that the value is.
    let sides = [(other, height), (one, -depth), (period, 0)];
    let mut inner = BTreeMap::new();
    for k in 2..samples {
        let any = random.below(3) as usize;
        let side = if k < 4 { k - 2 } else { any };
        let (step, beside) = sides[side];
        let at = step * random.within(0, last / step);
        let line = match side {
            0 => -(-rise * at).div_euclid(period),
            _ => (rise * at).div_euclid(period),
        };
        inner.insert(at, line + random.choose(&[beside, beside, 0]));
    }
    inner.insert(0, 0);
    inner.insert(last, rise * periods);
    let offsets: Vec<u32> = inner.keys().map(|&at| at as u32).collect();
    let (least, most) = (inner.values().min(), inner.values().max());
    let lowest = i64::from(i16::MIN) - least.expect("there are two samples");
    let highest = i64::from(i16::MAX) - most.expect("there are two samples");
    let level = random.choose(&[lowest, (lowest + highest) / 2, highest]);
    let trace = Trace {
        values: inner.values().map(|value| (level + value) as i16).collect(),
        ticks: begun(&offsets, random),
    };
    let parts = link_parts(&trace.ticks, &trace.values, 0, trace.ticks.len() - 1);
    (trace, parts)
}

/// Traces with parts on which wrong readings of unequal parts differ from the right one: within half of each
/// part, within the larger part together, and within the smaller one each there are shorter lists than the
/// greedy ones; the sample farthest from the line is within its own part. Times any whole number, anywhere,
/// and turned over with the parts exchanged.
pub fn exceptional(random: &mut Random) -> (Trace, Parts) {
    type Case<'a> = (&'a [i64], (i128, i128), (i128, i128));
    let cases: [Case; 5] = [
        (&[1, 1, 0, 1], (0, 1), (3, 1)),
        (&[1, 1, -1], (1, 2), (2, 1)),
        (&[0, 2, 1, 3], (1, 1), (3, 1)),
        (&[1, 0, 1, -1], (5, 1), (0, 1)),
        (&[0, 2, 0, -2, 0], (2, 1), (1, 1)),
    ];
    let (values, above, below) = random.choose(&cases);
    let times = random.choose(&[1, 2, 3, 500, 8_000]);
    let apart = random.choose(&[1, 2, 9, SPAN / 4]);
    let offsets: Vec<u32> = (0..values.len() as u32).map(|k| apart * k).collect();
    let level = random.choose(&[0, 0, -7_000, 7_000]);
    let turned = random.below(2) == 0;
    let sign = if turned { -1 } else { 1 };
    let value = |value: &i64| (level + sign * times * value) as i16;
    let part = |(p, q): (i128, i128)| Fraction {
        p: i128::from(times) * p,
        q,
    };
    let parts = Parts {
        above: part(above).lowest(),
        below: part(below).lowest(),
    };
    let trace = Trace {
        ticks: begun(&offsets, random),
        values: values.iter().map(value).collect(),
    };
    (trace, if turned { parts.exchanged() } else { parts })
}

/// A range table that is allowed. It rises by ones, by little, by much, or as the built-in values do; in
/// some the rise to one code is such that the first value is the least i16 and the last the greatest.
/// Others begin with the least i16, end with the greatest, or neither.
pub fn range_table(random: &mut Random) -> Vec<i16> {
    let (low, high) = (i64::from(i16::MIN), i64::from(i16::MAX));
    let kind = random.below(4);
    let mut offsets = vec![0];
    for code in 1..256 {
        let rise = match kind {
            0 => 1,
            1 => random.within(1, 4),
            2 => random.within(1, 257),
            _ => 1 << ((code - 1) / 32),
        };
        offsets.push(offsets[code - 1] + rise);
    }
    if random.below(3) == 0 {
        let (code, rest) = (random.within(1, 255) as usize, high - low - offsets[255]);
        offsets[code..]
            .iter_mut()
            .for_each(|offset| *offset += rest);
    }
    let latest = high - offsets[255];
    let any = random.within(low, latest);
    let first = random.choose(&[low, any, latest]);
    offsets
        .iter()
        .map(|offset| (first + offset) as i16)
        .collect()
}

/// The table with one or two values that are equal to the one before, just below it or far below it, at
/// code 1, at code 255 or at any; with another length; or with both. It is never allowed.
pub fn damaged_table(table: &[i16], random: &mut Random) -> Vec<i16> {
    let mut table = table.to_vec();
    let (values, length) = random.choose(&[(1, false), (2, false), (0, true), (1, true)]);
    for _ in 0..values {
        let any = random.within(1, 255) as usize;
        let code = random.choose(&[any, any, 1, 255]);
        match random.below(4) {
            0 => table[code] = table[code - 1],
            1 => table[code] = table[code - 1].saturating_sub(1),
            2 => table[code] = i16::MIN,
            _ => table[code - 1] = i16::MAX,
        }
    }
    if length {
        table.resize(random.choose(&[0, 1, 255, 257, 512]), i16::MAX);
    }
    table
}

/// The content of a record with so many samples: steps at the limits of short ones and others, up to
/// exactly the greatest span; ticks as those of a trace; any tolerance, with unequal parts in some.
pub fn content(samples: usize, random: &mut Random) -> Content {
    let (low, high) = (i64::from(i16::MIN), i64::from(i16::MAX));
    let any = random.within(low, high);
    let mut value = random.choose(&[low, 0, any, high]);
    let (mut offsets, mut values) = (vec![0], vec![value as i16]);
    for k in 1..samples {
        // Later steps need a tick each.
        let most = SPAN - offsets[k - 1] - (samples - 1 - k) as u32;
        let any = 1 + random.below(most.into()) as u32;
        let advance = random.choose(&[1, 2, 3, 254, 255, 256, any, most]);
        offsets.push(offsets[k - 1] + advance.min(most));
        let any = random.within(low, high) - value;
        let change = random.choose(&[0, 1, -1, 126, 127, 128, -127, -128, -129, any]);
        if (low..=high).contains(&(value + change)) {
            value += change;
        }
        values.push(value as i16);
    }
    Content {
        tolerance: match random.below(3) {
            0 => any_ratio(random).into(),
            _ => any_parts(random),
        },
        samples: begun(&offsets, random).into_iter().zip(values).collect(),
    }
}

/// The channels of a crate, end to end, with the length of each.
#[derive(Clone, Debug, Default)]
pub struct Channels {
    pub ticks: Vec<u32>,
    pub values: Vec<i16>,
    pub lengths: Vec<usize>,
}

impl Channels {
    pub fn push(&mut self, trace: &Trace) {
        self.ticks.extend(&trace.ticks);
        self.values.extend(&trace.values);
        self.lengths.push(trace.ticks.len());
    }

    /// The channels by themselves.
    pub fn traces(&self) -> Vec<Trace> {
        let mut from = 0;
        let trace = |&length: &usize| {
            let part = from..from + length;
            from += length;
            Trace {
                ticks: self.ticks[part.clone()].to_vec(),
                values: self.values[part].to_vec(),
            }
        };
        self.lengths.iter().map(trace).collect()
    }
}

/// The crate of these channels.
pub fn crate_of(traces: &[Trace]) -> Channels {
    let mut channels = Channels::default();
    traces.iter().for_each(|trace| channels.push(trace));
    channels
}

/// A crate with so many channels: traces of up to `most` samples of any kind or shape, some of which repeat a
/// few samples, and among them channels that are none.
pub fn channels(count: usize, most: usize, random: &mut Random) -> Channels {
    let mut channels = Channels::default();
    for _ in 0..count {
        let samples = random.within(1, most as i64) as usize;
        let mut trace = match random.below(4) {
            0 => repeated(samples, random),
            _ => any_trace(samples, random),
        };
        if random.below(24) < 9 {
            damage_trace(&mut trace, random);
        }
        channels.push(&trace);
    }
    channels
}

/// Leaves no samples, a tick that is not above the one before, a span that is too long, or too many
/// samples, at a place drawn for it. Of a trace without samples nothing is changed; a short one may
/// still be a trace.
pub fn damage_trace(Trace { ticks, values }: &mut Trace, random: &mut Random) {
    if ticks.is_empty() {
        return;
    }
    let at = random.below(ticks.len() as u64) as usize;
    match random.below(9) {
        0..=2 => ticks.clear(),
        3 => ticks.insert(at, ticks[at]),
        4 => ticks[..=at].reverse(),
        5..=7 => ticks[at..].iter_mut().for_each(|tick| *tick ^= 1 << 31),
        _ => *ticks = (0..(SAMPLES + 1 + at % 2) as u32).collect(),
    }
    values.resize(ticks.len(), 7);
}

/// Changes the lengths of the channels or the lists so that they do not add up, or so that there are no
/// channels or too many. A crate without channels stays as it is.
pub fn damage_crate(channels: &mut Channels, random: &mut Random) {
    let lengths = &mut channels.lengths;
    if lengths.is_empty() {
        return;
    }
    let at = random.below(lengths.len() as u64) as usize;
    match random.below(9) {
        0 => lengths[at] = lengths[at].wrapping_add(1),
        1 => lengths[at] = lengths[at].wrapping_sub(1),
        2 => lengths.clear(),
        3 => lengths.resize(65, 0),
        4 => drop(channels.ticks.pop()),
        5 => channels.values.push(0),
        // The sum is that of the lists if it is cut to 64 bits, or to 32.
        6 => lengths.extend([usize::MAX, 1]),
        7 => lengths.push(1 << 32),
        _ => lengths
            .iter_mut()
            .take(2)
            .for_each(|length| *length ^= 1 << 63),
    }
}

/// Two pedestal runs of a crate, channel by channel, with a tolerance and a noise factor.
#[derive(Clone, Debug)]
pub struct Runs {
    pub today: Vec<Trace>,
    pub before: Vec<Trace>,
    pub tolerance: Fraction,
    pub k: u64,
}

/// Two runs of so many channels with traces of up to `most` samples. Most channels are alike, at the limit
/// of both tests, but for up to two values that are one higher or lower in either run; the others are any
/// two traces. The tolerance is the difference of the means at that limit, or just below it.
pub fn runs(count: usize, most: usize, random: &mut Random) -> Runs {
    let any = random.within(1, most as i64) as usize;
    let samples = random.choose(&[any, any, any, most]);
    let any = 1 + random.below(FACTOR);
    let k = random.choose(&[1, 2, any, FACTOR]);
    let limits = at_the_limits(samples, k as i64, random);
    let [one, two] = limits.each_ref().map(|values| Sums::of(values));
    let (p, q) = ((one.s - two.s).abs(), one.n);
    let limit = Fraction { p, q }.lowest();
    let mut runs = Runs {
        today: Vec::new(),
        before: Vec::new(),
        tolerance: match random.below(4) {
            0 if p > 0 => just_below(limit),
            _ => limit,
        },
        k,
    };
    for _ in 0..count {
        let mut channel = limits.clone();
        if random.below(8) == 0 {
            let samples = random.within(1, most as i64) as usize;
            channel = [(); 2].map(|_| any_trace(samples, random).values);
        }
        for _ in 0..random.below(3) {
            let values = &mut channel[random.below(2) as usize];
            let at = random.below(values.len() as u64) as usize;
            values[at] = values[at].saturating_add(random.choose(&[-1, 1]));
        }
        let [today, before] = channel.map(|values| Trace {
            ticks: ticks(values.len(), random),
            values,
        });
        runs.today.push(today);
        runs.before.push(before);
    }
    runs
}

/// The values of a channel in two runs, today's first, of which n Q - S squared is today exactly k squared
/// times what it is in the run before: today's are the others times k, backwards, and begin elsewhere. They
/// are equal, near each other, or as far apart as can be; many begin or end where the range does.
fn at_the_limits(samples: usize, k: i64, random: &mut Random) -> [Vec<i16>; 2] {
    let (low, high) = (i64::from(i16::MIN), i64::from(i16::MAX));
    let widest = (high - low) / k;
    let any = random.within(0, widest);
    let width = random.choose(&[0, 1, 1, 2, 3, any, widest]).min(widest);
    let ends = random.below(2) == 0;
    let mut offsets: Vec<i64> = (0..samples)
        .map(|_| match ends {
            true => random.choose(&[0, width]),
            false => random.within(0, width),
        })
        .collect();
    let mut run = |k: i64| {
        offsets.reverse();
        let latest = high - k * width;
        let any = random.within(low, latest);
        let first = random.choose(&[low, any, latest]);
        let value = |offset: &i64| (first + k * offset) as i16;
        offsets.iter().map(value).collect()
    };
    [run(k), run(1)]
}

/// Two traces with the same ticks, of any kind or shape, each with a kept list; half of the lists obey a
/// gap limit that matters to the ticks. In some both lists are the same. A quarter of the pairs have values
/// so small that no sum is beyond the range; in another each sum is at an end of the range or just inside
/// it; in another the values of each trace lie beside a level line, as [`beside_a_line`] says.
pub fn summands(samples: usize, random: &mut Random) -> [Summand; 2] {
    let (one, gap) = any_limited(samples, random);
    let two = any_on(one.ticks.clone(), random);
    let mut pair = [one, two].map(|trace| Summand {
        list: any_list(&trace.ticks, gap, random),
        trace,
    });
    if random.below(8) == 0 {
        pair[1].list = pair[0].list.clone();
    }
    let [first, second] = &mut pair;
    match random.below(4) {
        0 => (),
        1 => {
            for values in [&mut first.trace.values, &mut second.trace.values] {
                values.iter_mut().for_each(|value| *value /= 2);
            }
        }
        2 => {
            let values = first.trace.values.iter().zip(&mut second.trace.values);
            values.for_each(|(one, two)| {
                let inside = random.choose(&[0, 0, 0, 1, 2]);
                *two = match one {
                    0.. => i16::MAX - one - inside,
                    _ => i16::MIN - one + inside,
                };
            });
        }
        _ => {
            first.trace.values = beside_a_line(samples, &first.list, &second.list, random);
            second.trace.values = beside_a_line(samples, &second.list, &first.list, random);
        }
    }
    if random.below(2) == 0 {
        pair.swap(0, 1);
    }
    pair
}

/// Values on a level line at the samples of the list, at a height below it (or above it) at those that only
/// the other list has, and at the same height on the other side at those in neither: samples between two of
/// the other list's deviate by twice the list's error.
fn beside_a_line(samples: usize, list: &[u16], other: &[u16], random: &mut Random) -> Vec<i16> {
    let height = random.choose(&[0, 0, 1, 3, 500, 8_000]);
    let height = random.choose(&[height, -height]);
    let level = random.within(-8_000, 8_000) as i16;
    let mut values = vec![level + height; samples];
    other
        .iter()
        .for_each(|&k| values[usize::from(k)] = level - height);
    list.iter().for_each(|&k| values[usize::from(k)] = level);
    values
}

/// Makes the sum at a sample drawn for it 32,768 or -32,769. Of traces without samples nothing is changed.
pub fn overflow([first, second]: &mut [Summand; 2], random: &mut Random) {
    let (one, two) = (&mut first.trace.values, &mut second.trace.values);
    let samples = one.len().min(two.len());
    if samples == 0 {
        return;
    }
    let at = random.below(samples as u64) as usize;
    if one[at] == 0 {
        one[at] = 1;
    }
    let sum = if one[at] > 0 { 32_768 } else { -32_769 };
    two[at] = (sum - i32::from(one[at])) as i16;
}

/// Damages the trace, its ticks beside those of another, or the list: a tick that is one off, all ticks from
/// a sample on, a value fewer, a sample fewer, or what makes a trace or a kept list none. Of a trace without
/// samples nothing is changed; a short one may still be a trace.
pub fn damage_summand(Summand { trace, list }: &mut Summand, random: &mut Random) {
    let samples = trace.ticks.len();
    if samples == 0 {
        return;
    }
    let any = random.below(samples as u64) as usize;
    let at = random.choose(&[0, any, samples - 1]);
    let one_off = random.choose(&[1, u32::MAX]);
    match random.below(7) {
        0 => damage_trace(trace, random),
        1 => drop(trace.values.pop()),
        2 => trace.ticks[at] = trace.ticks[at].wrapping_add(one_off),
        3 => trace.ticks[at..]
            .iter_mut()
            .for_each(|tick| *tick = tick.wrapping_add(one_off)),
        4 => {
            trace.ticks.pop();
            trace.values.pop();
            list.retain(|&k| usize::from(k) + 2 < samples);
            list.extend((samples > 1).then(|| samples as u16 - 2));
        }
        _ => *list = damaged(list, samples, random),
    }
}

/// The x from 0 to q - 1 with p x = 1 modulo q.
fn inverse(p: i128, q: i128) -> i128 {
    let (mut r, mut x) = ((q, p.rem_euclid(q)), (0, 1));
    while r.1 != 0 {
        let times = r.0 / r.1;
        r = (r.1, r.0 - times * r.1);
        x = (x.1, x.0 - times * x.1);
    }
    x.0.rem_euclid(q)
}

#[cfg(test)]
mod tests {
    use super::*;
    use crate::pedestals::{shift_over, spread_over};
    use crate::record::table_fault;
    use crate::sums::{bound, sum};
    use crate::views::{add, begin};
    use crate::{
        above_line, held, link_error, link_valid, list_error, list_obeys, list_parts, list_refusal,
        trace_refusal, Form,
    };

    #[test]
    fn traces_and_lists_are_within_the_limits() {
        let random = &mut Random::new(1);
        for samples in (1..=64).chain([4_095, 4_096]) {
            for kind in KINDS {
                let Trace { ticks, values } = trace(kind, samples, random);
                assert_eq!(trace_refusal(&ticks, &values), None, "{kind:?} {samples}");
                assert_eq!(list_refusal(samples, &kept_list(samples, random)), None);
            }
            for shape in SHAPES {
                let Trace { ticks, values } = adversarial(shape, samples, random);
                assert_eq!(trace_refusal(&ticks, &values), None, "{shape:?} {samples}");
            }
            let Trace { ticks, values } = repeated(samples, random);
            assert_eq!(trace_refusal(&ticks, &values), None, "{samples}");
        }
    }

    /// Links from end to end whose error occurs once, more than once on one side, and on either; and with a
    /// deviation at most one count below it. Spans that are the greatest, or one less.
    #[test]
    fn ties_of_every_sort() {
        let random = &mut Random::new(14);
        let (mut seen, mut spans) = ([0; 4], [0; 2]);
        for samples in (1..=40).flat_map(|n| [n; 60]).chain([4_095, 4_096]) {
            let Trace { ticks, values } = tied(samples, random);
            assert_eq!(trace_refusal(&ticks, &values), None, "{samples}");
            let last = samples - 1;
            let span = ticks[last] - ticks[0];
            if span + 1 >= SPAN {
                spans[(SPAN - span) as usize] += 1;
            }
            let heights: Vec<i128> = (1..last)
                .map(|k| above_line(&ticks, &values, 0, last, k).p)
                .collect();
            let Some(most) = heights.iter().map(|height| height.abs()).max() else {
                continue;
            };
            let is = |height: i128| heights.iter().filter(|&&here| here == height).count();
            if most > 0 {
                match (is(most), is(-most)) {
                    (1, 0) | (0, 1) => seen[0] += 1,
                    (0, _) | (_, 0) => seen[1] += 1,
                    _ => seen[2] += 1,
                }
            }
            let near = |height: &i128| (1..=i128::from(span)).contains(&(most - height.abs()));
            seen[3] += usize::from(heights.iter().any(near));
        }
        let seen = seen.iter().chain(&spans);
        assert!(seen.clone().min() > Some(&100), "{seen:?}");
    }

    /// Traces have holes where they should, of one tick and of more, and other steps of exactly the gap
    /// limit and of one tick less. Gap limits are allowed, and lists obey them.
    #[test]
    fn holes_of_every_sort() {
        let random = &mut Random::new(10);
        for samples in (1..=40).flat_map(|n| [n; 20]).chain([4_095, 4_096]) {
            for holes in HOLES {
                let (Trace { ticks, values }, gap) = with_holes(holes, samples, random);
                assert_eq!(trace_refusal(&ticks, &values), None, "{holes:?} {samples}");
                assert!((1..=GAP).contains(&gap));
                let found: Vec<bool> = ticks.windows(2).map(|k| k[1] - k[0] > gap).collect();
                let (count, steps) = (found.iter().filter(|&&hole| hole).count(), samples - 1);
                let as_wanted = steps == 0
                    || match holes {
                        Holes::Nowhere => count == 0,
                        Holes::First => found[0] && count == 1,
                        Holes::Last => found[steps - 1] && count == 1,
                        Holes::Row => {
                            let from = found.iter().position(|&hole| hole).unwrap();
                            let row = found[from..].iter().take_while(|&&hole| hole).count();
                            row == count && (count > 1 || from == steps - 1)
                        }
                        Holes::Scattered => true,
                        Holes::Everywhere => count == steps,
                    };
                assert!(as_wanted, "{holes:?} {gap} {ticks:?}");
                let list = obeying_list(&ticks, gap, random);
                assert_eq!(list_refusal(samples, &list), None);
                assert!(list_obeys(&ticks, &list, Some(gap)));
            }
        }
        // Steps of one tick less than the gap limit, of exactly it, and of one tick more and of more.
        let (mut steps, mut limits) = ([0; 4], [0; 2]);
        for _ in 0..2_000 {
            let samples = random.within(1, 12) as usize;
            let (Trace { ticks, .. }, gap) = any_limited(samples, random);
            assert!((1..=GAP).contains(&gap));
            limits[0] += u32::from(gap == 1);
            limits[1] += u32::from(gap == GAP);
            for step in ticks.windows(2).map(|step| step[1] - step[0]) {
                if step + 1 >= gap {
                    steps[(step + 1 - gap).min(3) as usize] += 1;
                }
            }
        }
        let seen = steps.iter().chain(&limits);
        assert!(seen.min() > Some(&100), "{steps:?} {limits:?}");
    }

    /// States that are views of so many samples, full ones and others, at every k; damaged ones that are
    /// none, and some that still are.
    #[test]
    fn states_of_every_sort() {
        let random = &mut Random::new(20);
        let (mut full, mut damaged) = ([0; 2], [0; 2]);
        let mut ks = [0; K as usize + 1];
        for _ in 0..20_000 {
            let samples = random.within(1, 80) as usize;
            let k = view_k(samples, random);
            let mut state = view_state(k, samples, random);
            assert!(state.view_of(samples).is_some(), "{samples} {state:?}");
            full[usize::from(state.count == 2 * k + 2)] += 1;
            ks[k as usize] += 1;
            damage_view(&mut state, random);
            damaged[usize::from(state.view_of(samples).is_some())] += 1;
        }
        let seen = full.iter().chain(&damaged).chain(&ks);
        assert!(seen.clone().min() > Some(&50), "{seen:?}");
    }

    /// Traces in which a view drops its first inner sample, its last and others, and those in which one that
    /// is dropped has an equal and in which it has none.
    #[test]
    fn growing_traces_of_every_sort() {
        let random = &mut Random::new(21);
        let (mut places, mut equals) = ([0; 3], [0; 2]);
        for _ in 0..1_000 {
            let samples = random.within(8, 30) as usize;
            let Trace { ticks, values } = growing(samples, random);
            assert_eq!(trace_refusal(&ticks, &values), None, "{samples}");
            let mut state = begin(2).unwrap();
            for n in 2..=samples {
                let before = state.list().unwrap().to_vec();
                state = add(&state, &ticks[..n], &values[..n]).unwrap();
                let list = [&before[..], &[n as u16 - 1]].concat();
                let after = state.list().unwrap();
                let Some(dropped) = list.iter().position(|sample| !after.contains(sample)) else {
                    continue;
                };
                let error = |at: usize| {
                    let (i, j) = (list[at - 1].into(), list[at + 1].into());
                    link_error(&ticks, &values, i, j)
                };
                let equal = (1..=5).any(|at| at != dropped && error(at) == error(dropped));
                equals[usize::from(equal)] += 1;
                places[usize::from(dropped > 1) + usize::from(dropped == 5)] += 1;
            }
        }
        let seen = places.iter().chain(&equals);
        assert!(seen.clone().min() > Some(&1_000), "{seen:?}");
    }

    #[test]
    fn contents_are_within_the_limits() {
        let random = &mut Random::new(6);
        for samples in (1..=64).chain([4_095, 4_096]) {
            let (ticks, values) = content(samples, random).trace();
            assert_eq!(trace_refusal(&ticks, &values), None, "{samples}");
            assert_eq!(values.len(), samples);
        }
    }

    /// A table is allowed, a damaged one never. The least and the greatest value come up at the ends, and
    /// every sort of fault.
    #[test]
    fn tables_of_every_sort() {
        let random = &mut Random::new(8);
        let (mut ends, mut faults) = ([0; 4], [0; 4]);
        for _ in 0..1_000 {
            let table = range_table(random);
            assert_eq!(table_fault(&table), None);
            let (least, greatest) = (table[0] == i16::MIN, table[255] == i16::MAX);
            ends[usize::from(least) + 2 * usize::from(greatest)] += 1;
            let fault = table_fault(&damaged_table(&table, random)).unwrap();
            // With 0, at code 1, at 2 to 254, at 255.
            faults[[0, 1, 254].partition_point(|&last| last < fault)] += 1;
        }
        let seen = ends.iter().chain(&faults);
        assert!(seen.min() > Some(&50), "{ends:?} {faults:?}");
    }

    /// Every sort of channel comes up, and the channels are end to end.
    #[test]
    fn channels_of_every_sort() {
        let random = &mut Random::new(7);
        let mut seen = [0; 4];
        for _ in 0..100 {
            let channels = channels(12, 9, random);
            assert_eq!(channels.lengths.len(), 12);
            assert_eq!(channels.lengths.iter().sum::<usize>(), channels.ticks.len());
            assert_eq!(channels.ticks.len(), channels.values.len());
            let traces = channels.traces();
            for trace in &traces {
                let row = trace_refusal(&trace.ticks, &trace.values);
                seen[row.map_or(0, |(number, _)| number as usize)] += 1;
            }
            let again = crate_of(&traces);
            assert_eq!(
                (again.ticks, again.values),
                (channels.ticks, channels.values)
            );
            assert_eq!(again.lengths, channels.lengths);
        }
        assert!(seen.iter().all(|&count| count > 20), "{seen:?}");
    }

    /// Pedestal runs are traces with as many samples in either run. Channels exactly at the limit of each
    /// test come up, and one unit above and below it; every factor, and the ends of the range.
    #[test]
    fn runs_at_the_limits() {
        let random = &mut Random::new(9);
        let (mut shifts, mut spreads, mut factors, mut ends) = ([0; 3], [0; 3], [0; 16], [0; 2]);
        for _ in 0..3_000 {
            let runs = runs(6, 9, random);
            factors[runs.k as usize - 1] += 1;
            for (today, before) in runs.today.iter().zip(&runs.before) {
                for Trace { ticks, values } in [today, before] {
                    assert_eq!(trace_refusal(ticks, values), None);
                    ends[0] += u32::from(values.iter().all(|&value| value == i16::MIN));
                    ends[1] += u32::from(values.iter().all(|&value| value == i16::MAX));
                }
                let (one, two) = (Sums::of(&today.values), Sums::of(&before.values));
                assert_eq!(one.n, two.n);
                let shift = shift_over(one, two, runs.tolerance);
                let spread = spread_over(one, two, runs.k);
                for (over, seen) in [(shift, &mut shifts), (spread, &mut spreads)] {
                    if (-1..=1).contains(&over) {
                        seen[(over + 1) as usize] += 1;
                    }
                }
            }
        }
        let seen = shifts.iter().chain(&spreads).chain(&factors).chain(&ends);
        assert!(
            seen.min() > Some(&25),
            "{shifts:?} {spreads:?} {factors:?} {ends:?}"
        );
    }

    /// Parts that are equal, of which either is 0, with the same numerator or denominator, one unit of both
    /// fractions apart, and at the limits; written in lowest terms and not.
    #[test]
    fn parts_of_every_sort() {
        let random = &mut Random::new(26);
        let (mut seen, mut forms) = ([0; 8], [0; 4]);
        for _ in 0..4_000 {
            let parts = any_parts(random);
            let [one, other] = written(parts, random);
            assert_eq!(held(Form::Parts(one, other)), Some(parts));
            let Parts { above, below } = parts;
            let unequal = parts.one().is_none();
            let greatest = Fraction { p: TOLERANCE, q: 1 };
            let sorts = [
                !unequal,
                unequal && above.p == 0,
                unequal && below.p == 0,
                unequal && above.p == below.p,
                unequal && above.q == below.q,
                (above.p * below.q - below.p * above.q).abs() == 1,
                unequal && above == greatest,
                unequal && below == greatest,
            ];
            (0..8).for_each(|sort| seen[sort] += usize::from(sorts[sort]));
            let lowest = [(one.1, above.q), (other.1, below.q)]
                .map(|(q, least)| usize::from(i128::from(q) == least));
            forms[lowest[0] + 2 * lowest[1]] += 1;
        }
        let seen = seen.iter().chain(&forms);
        assert!(seen.clone().min() > Some(&50), "{seen:?}");
    }

    /// Bad parts are bad above, below, and on either side.
    #[test]
    fn bad_parts_of_every_sort() {
        let random = &mut Random::new(27);
        let mut seen = [0; 3];
        for _ in 0..1_000 {
            let allowed = bad_parts(random).map(|(p, q)| held(Form::Ratio(p, q)).is_some());
            match allowed {
                [false, true] => seen[0] += 1,
                [true, false] => seen[1] += 1,
                [false, false] => seen[2] += 1,
                [true, true] => panic!("both parts are allowed"),
            }
        }
        assert!(seen.iter().all(|&count| count > 200), "{seen:?}");
    }

    /// Traces to be added are traces with the same ticks and with kept lists. Sums at either end of the range
    /// come up, and beyond it; lists that are the same, of both ends alone and of every sample; joined lists
    /// with errors above those of the two lists together, and exactly at the bound.
    #[test]
    fn summands_of_every_sort() {
        let random = &mut Random::new(18);
        let (mut ends, mut lists, mut errors) = ([0; 3], [0; 3], [0; 3]);
        for samples in (1..=40).flat_map(|n| [n; 120]).chain([4_095, 4_096]) {
            let pair = summands(samples, random);
            for Summand { trace, list } in &pair {
                assert_eq!(trace_refusal(&trace.ticks, &trace.values), None);
                assert_eq!(list_refusal(samples, list), None);
                lists[0] += u32::from(list.len() == 2);
                lists[1] += u32::from(list.len() == samples);
            }
            let [first, second] = &pair;
            assert_eq!(first.trace.ticks, second.trace.ticks);
            lists[2] += u32::from(first.list == second.list);
            let sum = match sum(first, second, (samples, samples)) {
                Ok(sum) => sum,
                Err((number, _)) => {
                    assert_eq!(number, 18);
                    ends[2] += 1;
                    continue;
                }
            };
            ends[0] += u32::from(sum.values.contains(&i16::MIN));
            ends[1] += u32::from(sum.values.contains(&i16::MAX));
            let ticks = &first.trace.ticks;
            let [one, two] = pair
                .each_ref()
                .map(|summand| list_parts(ticks, &summand.trace.values, &summand.list));
            let bound = bound(one, two);
            let joined = list_error(ticks, &sum.values, &sum.list);
            let place = match (joined.at_most(bound.half()), bound.at_most(joined)) {
                (true, _) => 0,
                (false, false) => 1,
                (false, true) => 2,
            };
            errors[place] += 1;
        }
        let seen = ends.iter().chain(&lists).chain(&errors);
        assert!(seen.min() > Some(&50), "{ends:?} {lists:?} {errors:?}");
    }

    /// A sum that overflows is refused as 18, and damage beside it by each earlier row.
    #[test]
    fn damaged_summands_of_every_sort() {
        let random = &mut Random::new(19);
        let mut seen = [0; 19];
        for _ in 0..4_000 {
            let samples = random.within(1, 12) as usize;
            let mut pair = summands(samples, random);
            overflow(&mut pair, random);
            let number = |[first, second]: &[Summand; 2]| {
                let (number, _) = sum(first, second, (samples, samples)).unwrap_err();
                number as usize
            };
            assert_eq!(number(&pair), 18);
            damage_summand(&mut pair[random.below(2) as usize], random);
            seen[number(&pair)] += 1;
        }
        let rows = [1, 2, 3, 6, 17];
        assert!(rows.iter().all(|&row| seen[row] > 100), "{seen:?}");
    }

    #[test]
    fn just_below_is_one_unit_away() {
        let random = &mut Random::new(2);
        for _ in 0..2_000 {
            let Trace { ticks, values } = trace(random.choose(&KINDS), 8, random);
            let error = link_error(&ticks, &values, 0, 7);
            assert!(link_valid(&ticks, &values, 0, 7, error));
            if error.p > 0 {
                let below = just_below(error);
                assert!(!link_valid(&ticks, &values, 0, 7, below));
                assert_eq!(error.p * below.q - below.p * error.q, 1, "{error:?}");
                assert!(below.p >= 0 && (1..=DENOMINATOR).contains(&below.q));
            }
            let above = just_above(error);
            let greatest = error.p == TOLERANCE * error.q;
            let apart = above.p * error.q - error.p * above.q;
            assert_eq!(apart, i128::from(!greatest), "{error:?}");
            assert!((1..=DENOMINATOR).contains(&above.q) && above.p <= TOLERANCE * above.q);
        }
    }

    /// Parts as they are, one unit of both fractions above and below, on either side; with denominators
    /// 1,048,575 and 1,048,574 too.
    #[test]
    fn near_parts_of_every_sort() {
        let random = &mut Random::new(28);
        let (mut seen, mut greatest) = ([[0; 3]; 2], 0);
        for _ in 0..3_000 {
            let parts = any_parts(random);
            let near = near_parts(parts, random);
            for (side, (one, other)) in [(parts.above, near.above), (parts.below, near.below)]
                .iter()
                .enumerate()
            {
                let form = Form::Ratio(other.p as u64, other.q as u64);
                assert!(held(form).is_some(), "{parts:?} {near:?}");
                let apart = other.p * one.q - one.p * other.q;
                if (-1..=1).contains(&apart) {
                    seen[side][(apart + 1) as usize] += 1;
                }
            }
            let unlike = near.above.q == DENOMINATOR && near.below.q == DENOMINATOR - 1;
            greatest += usize::from(unlike);
        }
        let least = seen.as_flattened().iter().min();
        assert!(least > Some(&50) && greatest > 5, "{seen:?} {greatest}");
    }
}
