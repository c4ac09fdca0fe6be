//! One random case of each sort: inputs are drawn, the library is called and everything that must hold
//! is checked. A check that fails panics, with its input.
//!
//! - [`FAMILIES`], [`any`]: every sort, and one drawn from them.
//! - [`held_tolerances`], [`links_measured`], [`judge_list`], [`codes`], [`codes_with_tables`],
//!   [`unequal_parts`], [`round_trip`], [`random_commands`], [`comparison`], [`random_faults`], [`crates`],
//!   [`pedestal_runs`], [`traces_scanned`], [`traces_viewed`], [`traces_summed`]: sorts that the tests run by
//!   themselves too.
//! - [`codes_and_room`]: codes, and the entries of their output.

use crate::compare::{
    exactly, exactly_parts, expand, expand_with, form, given, hold, judge, judge_greedy, least,
    measure, noise, pedestals, ratio, read, reduce, report, same, scan, view_add, view_begin,
    write,
};
use crate::greedy::{judge_lists, passing_lists};
use crate::measures::{self, judged};
use crate::reductions::{
    any_tolerance, least_list, lists, shortest_lists, size_bound_of_all, size_bounds, tolerances,
};
use crate::scans::{after_sample, scanned};
use crate::sums::added;
use crate::views::{grow, grown, within_twice};
use kovrelna::Tolerance::{self, Counts};
use kovrelna::GAP_MAX;
use kovrelna_reference::generate::{
    any_limited, any_list, any_parts, any_trace, bad_parts, channels, content, crate_of,
    damage_crate, damage_summand, damage_trace, damage_view, damaged, damaged_table, exceptional,
    gap_limit, growing, just_below, near_parts, overflow, range_table, runs, squeezed, summands,
    tied, view_k, view_state, written, Random, Runs, Trace,
};
use kovrelna_reference::record::{encode, end, first, long, short, tolerance, unequal, Content};
use kovrelna_reference::{
    beside_holes, held, link_error, link_obeys, list_error, list_obeys, list_parts,
    longest_crossed, trace_refusal, Fraction, Invalid, Measure, Parts, Side, METHODS, TRIED,
};

/// A sort of case: its name, how often it is drawn, and one case of it.
pub struct Family {
    pub name: &'static str,
    pub weight: u64,
    pub case: fn(&mut Random),
}

/// Every sort.
pub const FAMILIES: [Family; 32] = [
    Family {
        name: "tolerances",
        weight: 40,
        case: held_tolerances,
    },
    Family {
        name: "links measured",
        weight: 100,
        case: |random| {
            links_measured(40, random);
        },
    },
    Family {
        name: "links of the longest traces measured",
        weight: 1,
        case: |random| {
            links_measured(4_096, random);
        },
    },
    Family {
        name: "lists judged",
        weight: 100,
        case: lists_judged,
    },
    Family {
        name: "lists judged as greedy",
        weight: 60,
        case: |random| lists_judged_greedy(40, random),
    },
    Family {
        name: "lists of the longest traces judged as greedy",
        weight: 1,
        case: |random| lists_judged_greedy(4_096, random),
    },
    Family {
        name: "every list judged as greedy",
        weight: 20,
        case: every_list_judged_greedy,
    },
    Family {
        name: "traces reduced",
        weight: 200,
        case: |random| reduced(40, random),
    },
    Family {
        name: "longer traces reduced",
        weight: 10,
        case: |random| reduced(200, random),
    },
    Family {
        name: "longest traces reduced",
        weight: 1,
        case: longest,
    },
    Family {
        name: "shortest lists",
        weight: 20,
        case: shortest,
    },
    Family {
        name: "unequal parts",
        weight: 60,
        case: |random| {
            unequal_parts(random);
        },
    },
    Family {
        name: "least errors",
        weight: 60,
        case: |random| least_error(40, random),
    },
    Family {
        name: "least errors of the longest traces",
        weight: 1,
        case: |random| least_error(256, random),
    },
    Family {
        name: "traces scanned",
        weight: 100,
        case: |random| traces_scanned(40, random),
    },
    Family {
        name: "longest traces scanned",
        weight: 1,
        case: longest_scanned,
    },
    Family {
        name: "traces viewed",
        weight: 100,
        case: |random| traces_viewed(40, random),
    },
    Family {
        name: "longest traces viewed",
        weight: 1,
        case: longest_viewed,
    },
    Family {
        name: "traces summed",
        weight: 100,
        case: |random| traces_summed(40, random),
    },
    Family {
        name: "longest traces summed",
        weight: 1,
        case: |random| traces_summed(4_096, random),
    },
    Family {
        name: "codes",
        weight: 40,
        case: codes,
    },
    Family {
        name: "codes with tables",
        weight: 40,
        case: codes_with_tables,
    },
    Family {
        name: "records written",
        weight: 100,
        case: |random| {
            let samples = random.within(1, 40) as usize;
            let (trace, gap) = any_limited(samples, random);
            round_trip(&trace, gap, random);
        },
    },
    Family {
        name: "records damaged",
        weight: 200,
        case: |random| damaged_record(40, random),
    },
    Family {
        name: "longest records damaged",
        weight: 1,
        case: |random| damaged_record(4_096, random),
    },
    Family {
        name: "commands",
        weight: 100,
        case: |random| {
            random_commands(random);
        },
    },
    Family {
        name: "records compared",
        weight: 40,
        case: comparison,
    },
    Family {
        name: "faults",
        weight: 150,
        case: random_faults,
    },
    Family {
        name: "crates",
        weight: 40,
        case: |random| crates(64, 30, random),
    },
    Family {
        name: "crates of long traces",
        weight: 1,
        case: |random| crates(3, 4_096, random),
    },
    Family {
        name: "pedestal runs",
        weight: 60,
        case: |random| pedestal_runs(64, 12, random),
    },
    Family {
        name: "pedestal runs of long traces",
        weight: 2,
        case: |random| pedestal_runs(3, 4_096, random),
    },
];

/// A sort, drawn by weight.
pub fn any(random: &mut Random) -> &'static Family {
    let all = FAMILIES.iter().map(|family| family.weight).sum();
    let mut at = random.below(all);
    let drawn = FAMILIES.iter().find(|family| {
        let here = at < family.weight;
        at = at.saturating_sub(family.weight);
        here
    });
    drawn.unwrap_or(&FAMILIES[0])
}

/// Tolerances of every form, allowed and not.
pub fn held_tolerances(random: &mut Random) {
    let bits = f64::from_bits(random.bits());
    let near = random.below(2 * 128 * 1_024) as f64 / 128.0;
    let multiple = random.below(2 * 16 * 64) as f64 / 16.0;
    let most = random.choose(&[2, 64, 1_000, 1_048_577]);
    let q = random.below(most);
    let _ = hold(Counts(bits));
    let _ = hold(noise(near, multiple));
    let _ = hold(noise(bits, multiple));
    let _ = hold(noise(near, bits));
    let any = (random.below(65_540 * q + 2), q);
    let _ = hold(ratio(any.0, any.1));
    let [above, below] = written(any_parts(random), random);
    for parts in [
        [above, below],
        [any, below],
        [above, any],
        bad_parts(random),
    ] {
        let _ = hold(given(parts));
    }
}

/// Measures links of a trace of up to so many samples, with equal deviations or any: from end to end,
/// between opposite samples, between any, and of one step.
pub fn links_measured(most: i64, random: &mut Random) -> [Measure; 4] {
    let samples = random.within(2, most) as usize;
    let trace = match random.below(2) {
        0 => any_trace(samples, random),
        _ => tied(samples, random),
    };
    let last = samples - 1;
    let near = random.below(samples as u64 / 2) as usize;
    let i = random.below(last as u64) as usize;
    let j = random.within(i as i64 + 1, last as i64) as usize;
    let links = [(0, last), (near, last - near), (i, j), (i, i + 1)];
    links.map(|(i, j)| measures::link(&trace, i, j))
}

fn error(Trace { ticks, values }: &Trace, link: &[u16]) -> Fraction {
    link_error(ticks, values, link[0].into(), link[1].into())
}

/// How often judge said yes; and no for a link that the tolerance alone makes invalid, that the gap limit
/// alone does, with an error of 0 and with one above, and that both do. How often of these the sample that it
/// named was within its own part.
pub type Answers = [usize; 6];

/// Judges the list at an arbitrary tolerance, and for one of its links and the worst at the error
/// itself, one unit of the link's own fraction below it, and just below it, and near the parts of the list,
/// all under the gap limit. At its error it passes without a gap limit, under its longest step that is crossed,
/// and under the gap limit if it obeys that; one tick below that step it does not. It passes at its parts.
/// Counts the answers.
pub fn judge_list(
    trace: &Trace,
    gap: u32,
    list: &[u16],
    random: &mut Random,
    answers: &mut Answers,
) {
    let ticks = &trace.ticks;
    let mut tolerances = vec![any_tolerance(random)];
    let mut links: Vec<&[u16]> = list.windows(2).collect();
    links.sort_by(|a, b| {
        let (a, b) = (error(trace, a), error(trace, b));
        (a.p * b.q).cmp(&(b.p * a.q))
    });
    if let Some(&worst) = links.last() {
        let at_error = exactly(error(trace, worst));
        let passes = |gap| judged(trace, list, at_error.with_gap(gap)).is_none();
        assert!(passes(GAP_MAX), "{list:?} {trace:?}");
        let parts = list_parts(ticks, &trace.values, list);
        let at_parts = judged(trace, list, exactly_parts(parts));
        assert_eq!(at_parts, None, "{parts:?} {list:?} {trace:?}");
        tolerances.extend([(); 2].map(|_| exactly_parts(near_parts(parts, random))));
        let obeys = list_obeys(ticks, list, Some(gap));
        assert_eq!(passes(gap), obeys, "{gap} {list:?} {trace:?}");
        if let Some(step) = longest_crossed(ticks, list) {
            assert!(passes(step), "{step} {list:?} {trace:?}");
            let below = step > 1 && passes(step - 1);
            assert!(!below, "{step} {list:?} {trace:?}");
        }
        for link in [worst, random.choose(&links)] {
            let Fraction { p, q } = error(trace, link);
            tolerances.push(exactly(Fraction { p, q }));
            if p > 0 {
                let run = i128::from(ticks[usize::from(link[1])] - ticks[usize::from(link[0])]);
                let unit = Fraction {
                    p: p * (run / q) - 1,
                    q: run,
                };
                tolerances.extend([unit, just_below(Fraction { p, q })].map(exactly));
            }
        }
    }
    let obeys = |link: usize| {
        let (i, j) = (list[link].into(), list[link + 1].into());
        link_obeys(ticks, i, j, Some(gap))
    };
    for tolerance in tolerances {
        let answer = match judged(trace, list, tolerance.with_gap(gap)) {
            None => 0,
            Some(Invalid { link, measure }) => {
                answers[5] += usize::from(within_its_part(measure, tolerance));
                match measure.side {
                    Side::Gap if measure.error.p == 0 => 2,
                    Side::Gap => 3,
                    _ if obeys(link) => 1,
                    _ => 4,
                }
            }
        };
        answers[answer] += 1;
    }
}

/// Whether the sample that judge names beside an invalid link is within its own part of the tolerance.
fn within_its_part(Measure { error, side, .. }: Measure, tolerance: Tolerance) -> bool {
    let parts = held(form(tolerance)).expect("judge takes the tolerance");
    match side {
        Side::Above => error.at_most(parts.above),
        Side::Below => error.at_most(parts.below),
        _ => false,
    }
}

fn lists_judged(random: &mut Random) {
    let samples = random.within(1, 40) as usize;
    let (trace, gap) = any_limited(samples, random);
    let list = any_list(&trace.ticks, gap, random);
    judge_list(&trace, gap, &list, random, &mut [0; 6]);
}

/// A trace of up to so many samples, with lists of every sort judged as greedy ones.
fn lists_judged_greedy(most: i64, random: &mut Random) {
    let samples = random.within(1, most) as usize;
    let (trace, gap) = any_limited(samples, random);
    let tolerances = tolerances(&trace, random);
    let limits = random.choose(&tolerances).with_gap(gap);
    judge_lists(&trace, limits, random, &mut [[0; 3]; 2]);
}

/// A trace so short that every kept list can be judged as a greedy one: the size bound holds of those that pass.
fn every_list_judged_greedy(random: &mut Random) {
    let samples = random.within(1, 8) as usize;
    let (trace, gap) = any_limited(samples, random);
    for tolerance in tolerances(&trace, random) {
        let limits = tolerance.with_gap(gap);
        size_bound_of_all(&trace, limits, &passing_lists(&trace, limits));
    }
}

fn reduced(most: i64, random: &mut Random) {
    let samples = random.within(1, most) as usize;
    let (trace, gap) = any_limited(samples, random);
    for tolerance in tolerances(&trace, random) {
        let limits = tolerance.with_gap(gap);
        let room = samples + random.choose(&[0, 0, 1, 7]);
        size_bounds(&trace, limits, &lists(&trace, limits, room));
    }
}

fn longest(random: &mut Random) {
    let any = random.within(1_000, 4_096) as usize;
    let samples = random.choose(&[any, 4_095, 4_096]);
    let (trace, gap) = any_limited(samples, random);
    let tolerances = tolerances(&trace, random);
    lists(&trace, random.choose(&tolerances).with_gap(gap), samples);
}

/// A trace so short that every kept list can be tried.
fn shortest(random: &mut Random) {
    let samples = random.within(3, TRIED as i64) as usize;
    let (trace, gap) = any_limited(samples, random);
    for tolerance in tolerances(&trace, random) {
        let limits = tolerance.with_gap(gap);
        let lists = lists(&trace, limits, samples);
        shortest_lists(&trace, limits, &lists[2]);
        size_bound_of_all(&trace, limits, &lists[..2]);
    }
}

/// A trace on which unequal parts matter, with its parts: an exceptional one, or a squeezed one of up to 40
/// samples with the parts of the link from end to end, or near them. Reduces it with these parts and with the
/// parts exchanged; turned over (-1 - v for v) with the parts exchanged it has the same lists. Judges and writes
/// the list of both ends and another. Returns the trace, the parts and the lists.
pub fn unequal_parts(random: &mut Random) -> (Trace, Parts, [Vec<u16>; 3]) {
    let (trace, parts) = match random.below(4) {
        0 => exceptional(random),
        _ => {
            let samples = random.within(3, 40) as usize;
            let (trace, parts) = squeezed(samples, random);
            let near = near_parts(parts, random);
            (trace, random.choose(&[parts, near, near]))
        }
    };
    let Trace { ticks, values } = &trace;
    let samples = ticks.len();
    let gap = gap_limit(ticks, random);
    let gap = random.choose(&[gap, GAP_MAX, GAP_MAX]);
    let limits = exactly_parts(parts).with_gap(gap);
    let kept = lists(&trace, limits, samples);
    size_bounds(&trace, limits, &kept);
    if samples <= TRIED {
        size_bound_of_all(&trace, limits, &kept[..2]);
    }
    let turned = Trace {
        ticks: ticks.clone(),
        values: values.iter().map(|&value| -1 - value).collect(),
    };
    let exchanged = exactly_parts(parts.exchanged()).with_gap(gap);
    assert_eq!(lists(&turned, exchanged, samples), kept, "{trace:?}");
    lists(&trace, exchanged, samples);
    for list in [&[0, samples as u16 - 1], &any_list(ticks, gap, random)[..]] {
        let row = judged(&trace, list, limits).map(|invalid| (7, invalid.link as u64));
        let size = 6 * list.len() + 21;
        assert_eq!(write(ticks, values, list, limits, size, 0).err(), row);
    }
    (trace, parts, kept)
}

fn least_error(most: i64, random: &mut Random) {
    let samples = random.within(1, most) as usize;
    let (trace, gap) = any_limited(samples, random);
    let any = random.within(2, samples as i64 + 2) as u64;
    let fewest = beside_holes(&trace.ticks, Some(gap)).len().max(2) as u64;
    let allowance = random.choose(&[2, 3, any, any, fewest, fewest + 1, 4_096]);
    let room = samples + random.choose(&[0, 0, 1, 7]);
    least_list(&trace, gap, allowance, room);
    if fewest > 2 {
        assert_eq!(least_list(&trace, gap, fewest - 1, room), None);
    }
}

/// Range codes, sometimes none or too many, and the entries of an output for them, sometimes too few.
pub fn codes_and_room(random: &mut Random) -> (Vec<u8>, usize) {
    let most = random.choose(&[0, 1, 5, 40, 40, 40, 4_096, 4_097]);
    let any = random.within(most.min(1), most);
    let length = random.choose(&[any, most]) as usize;
    let codes = (0..length).map(|_| random.bits() as u8).collect();
    let short = length.saturating_sub(1);
    let room = random.choose(&[length, length, length + 1, short, 0]);
    (codes, room)
}

/// Range codes, with room or without.
pub fn codes(random: &mut Random) {
    let (codes, room) = codes_and_room(random);
    let _ = expand(&codes, room);
}

/// The same with a range table, which is allowed more often than not.
pub fn codes_with_tables(random: &mut Random) {
    let (codes, room) = codes_and_room(random);
    let table = range_table(random);
    let _ = match random.below(3) {
        0 => expand_with(&codes, &damaged_table(&table, random), room),
        _ => expand_with(&codes, &table, room),
    };
}

/// What became of lists that were to be written.
#[derive(Default)]
pub struct Written {
    pub records: usize,
    /// Those with unequal parts.
    pub unequal: usize,
    pub refused: usize,
    pub short_steps: usize,
    pub long_steps: usize,
}

/// Writes a list of the trace at an arbitrary tolerance, at its error and just below that, and near its parts,
/// all under the gap limit; without a gap limit the record is the same. Reads it back, and writes what was
/// read, in which no link has more than one step.
pub fn round_trip(Trace { ticks, values }: &Trace, gap: u32, random: &mut Random) -> Written {
    let list = any_list(ticks, gap, random);
    let error = list_error(ticks, values, &list);
    let parts = near_parts(list_parts(ticks, values, &list), random);
    let near = given(written(parts, random));
    let mut tolerances = vec![any_tolerance(random), exactly(error), near];
    if error.p > 0 {
        tolerances.push(exactly(just_below(error)));
    }
    let mut seen = Written::default();
    for tolerance in tolerances {
        let place = random.choose(&[0, 0, 1, 30]);
        let size = place + 6 * list.len() + 21 + random.below(3) as usize;
        let limits = tolerance.with_gap(gap);
        let record = match write(ticks, values, &list, limits, size, place) {
            Ok(record) => record,
            Err((7, link)) => {
                let invalid = judge(ticks, values, &list, limits).unwrap();
                assert_eq!(invalid.map(|invalid| invalid.link), Some(link as usize));
                seen.refused += 1;
                continue;
            }
            Err(row) => panic!("refused {row:?}"),
        };
        let unlimited = write(ticks, values, &list, tolerance, size, place);
        assert_eq!(unlimited.as_ref(), Ok(&record));
        // Unequal parts have eight bytes more than equal ones, a long step three more than a short one.
        let unequal = held(form(tolerance)).is_some_and(|parts| parts.one().is_none());
        let long = (record.len() - 16 - 8 * usize::from(unequal)) / 3 - list.len();
        seen.records += 1;
        seen.unequal += usize::from(unequal);
        seen.short_steps += list.len() - 1 - long;
        seen.long_steps += long;
        let content = read(&record, list.len(), list.len() + 1).unwrap();
        let kept = |&k: &u16| (ticks[usize::from(k)], values[usize::from(k)]);
        assert_eq!(content.samples, list.iter().map(kept).collect::<Vec<_>>());
        assert_eq!(Some(content.tolerance), held(form(tolerance)));
        let (ticks, values) = content.trace();
        let all: Vec<u16> = (0..list.len() as u16).collect();
        let limits = exactly_parts(content.tolerance).with_gap(1);
        let again = write(&ticks, &values, &all, limits, record.len(), 0);
        assert_eq!(again, Ok(record));
    }
    seen
}

/// A record with bytes changed, removed or added, read and compared with what it was.
fn damaged_record(most: i64, random: &mut Random) {
    let record = encode(&content(random.within(1, most) as usize, random));
    let mut damaged = record.clone();
    for _ in 0..random.within(1, 3) {
        let at = random.below(damaged.len() as u64 + 1) as usize;
        let any = random.bits() as u8;
        let byte = random.choose(&[any, any, 0, 0xff, b'T', b'B', b'A', b'S', b'L', b'E']);
        match random.below(8) {
            0 => damaged.truncate(at),
            1 => damaged.insert(at, byte),
            2 if at < damaged.len() => drop(damaged.remove(at)),
            3 if at < damaged.len() => damaged[at] ^= 1 << random.below(8),
            4 if at + 1 < damaged.len() => damaged.swap(at, at + 1),
            _ if at < damaged.len() => damaged[at] = byte,
            _ => damaged.push(byte),
        }
    }
    let room = random.choose(&[4_096, 4_096, 5_000, 9, 1, 0]);
    let _ = read(&damaged, room, 4_096);
    let _ = read(&damaged, 4_096, room);
    let _ = same(&record, &damaged);
    let _ = same(&damaged, &record);
    let _ = same(&damaged, &damaged);
}

/// Commands in any order, with any operands. Whether they are a record.
pub fn random_commands(random: &mut Random) -> bool {
    let ratio = |random: &mut Random| (random.below(3), 1 + random.below(2));
    let any = |random: &mut Random| (random.bits() & 0xff_ffff_ffff, random.bits() & 0xff_ffff);
    let (above, below) = (ratio(random), ratio(random));
    let mut record = match random.below(2) {
        0 => tolerance(above.0, above.1),
        _ => unequal(above, below),
    };
    record.extend(first(random.bits() as u32, random.bits() as i16));
    let mut given = 1;
    for _ in 0..random.below(5) {
        given += 1;
        record.extend(match random.below(24) {
            0 => match any(random) {
                (p, q) if random.below(2) == 0 => tolerance(p, q),
                above => unequal(above, any(random)),
            },
            1 => first(random.bits() as u32, random.bits() as i16),
            2 => end(given),
            3 => vec![random.bits() as u8],
            4..=13 => short(random.bits() as u8, random.bits() as i8),
            _ => long(random.below(1 << 20) as u32, random.bits() as i16),
        });
    }
    record.extend(end(given));
    read(&record, 4_096, 4_096).is_ok()
}

/// A record beside itself, one with the same samples at another tolerance, and contents that differ in one
/// place of their samples.
pub fn comparison(random: &mut Random) {
    let samples = random.within(1, 12) as usize;
    let one = content(samples, random);
    let record = encode(&one);
    assert_eq!(same(&record, &record), Ok(true));
    // The same samples with any other tolerance, with another part on either side, and with the parts
    // exchanged.
    let tolerance = content(1, random).tolerance;
    let Parts { above, below } = tolerance;
    for tolerance in [
        tolerance,
        Parts {
            above,
            ..one.tolerance
        },
        Parts {
            below,
            ..one.tolerance
        },
        one.tolerance.exchanged(),
    ] {
        let agree = tolerance == one.tolerance;
        let other = Content {
            tolerance,
            ..one.clone()
        };
        assert_eq!(same(&record, &encode(&other)), Ok(agree));
        assert_eq!(same(&encode(&other), &record), Ok(agree));
    }
    // Another value, another tick, other ticks, a sample fewer; where that is still a trace.
    let at = random.below(samples as u64) as usize;
    let mut others = vec![one.clone(); 4];
    others[0].samples[at].1 ^= 1 << random.below(16);
    others[1].samples[at].0 = one.samples[at].0.wrapping_add(1);
    others[2]
        .samples
        .iter_mut()
        .for_each(|sample| sample.0 ^= 1 << 31);
    others[3].samples.remove(at);
    for other in others {
        let (ticks, values) = other.trace();
        if trace_refusal(&ticks, &values).is_none() {
            let other = encode(&other);
            assert_eq!(same(&record, &other), Ok(false));
            assert_eq!(same(&other, &record), Ok(false));
        }
    }
    // Random pairs.
    let other = content(random.within(1, 3) as usize, random);
    same(&record, &encode(&other)).unwrap();
}

/// A trace, a list, tolerances, a gap limit and an output with none, one or two faults, two samples that may
/// be none of the trace, and a state that may be no view of it, for every call that takes a trace.
pub fn random_faults(random: &mut Random) {
    let samples = random.within(1, 12) as usize;
    let (Trace { mut ticks, values }, mut gap) = any_limited(samples, random);
    let mut list = any_list(&ticks, gap, random);
    let mut tolerance = match random.below(2) {
        0 => ratio(random.below(10), 1),
        _ => given([(); 2].map(|_| (random.below(10), 1))),
    };
    let mut count = random.within(1, 16) as usize;
    let at = random.below(samples as u64) as usize;
    let mut room = samples + random.below(3) as usize;
    for _ in 0..random.below(3) {
        match random.below(9) {
            0 => drop(ticks.pop()),
            1 => ticks.push(u32::MAX),
            2 => ticks[..=at].rotate_right(1),
            3 => ticks[at..].iter_mut().for_each(|tick| *tick |= 1 << 20),
            4 => list = damaged(&list, samples, random),
            5 => room = at,
            6 => gap = no_gap(random),
            7 => count = random.choose(&[0, 17, 18]),
            _ => tolerance = no_tolerance(random),
        }
        if ticks.len() != samples {
            break;
        }
    }
    let sample = |random: &mut Random| random.choose(&[0, at, samples - 1, samples, usize::MAX]);
    let (i, j) = (sample(random), sample(random));
    let _ = measure(&ticks, &values, i, j);
    let limits = tolerance.with_gap(gap);
    let _ = judge(&ticks, &values, &list, limits);
    let _ = judge_greedy(&ticks, &values, &list, limits);
    for method in METHODS {
        let _ = reduce(method, &ticks, &values, limits, room);
    }
    let _ = write(&ticks, &values, &list, limits, 6 * room + 17, at);
    let allowance = random.choose(&[2, 3, 4, 1, 0, 4_097]);
    let _ = least(&ticks, &values, gap, allowance, room);
    let mut tolerances = vec![ratio(1, 1); count];
    tolerances
        .iter_mut()
        .skip(at)
        .for_each(|entry| *entry = tolerance);
    let _ = scan(&ticks, &values, &tolerances, gap, count * room);
    let k = view_k(samples, random);
    let mut state = view_state(k, random.choose(&[samples - 1, samples]).max(1), random);
    if random.below(2) == 0 {
        damage_view(&mut state, random);
    }
    let _ = view_add(&state, &ticks, &values);
}

/// A crate of so many channels at most, of traces of up to so many samples, with none, one or two faults
/// that the call refuses: in its lengths, its lists, the tolerance, the gap limit or the output.
pub fn crates(most: i64, samples: usize, random: &mut Random) {
    let any = random.within(1, most) as usize;
    let count = random.choose(&[1, 2, 3, any, any, most as usize]);
    let mut channels = channels(count, samples, random);
    let mut room = count + random.choose(&[0, 0, 1, 7]);
    let mut traces = channels.traces().into_iter();
    let good = traces.find(|trace| trace_refusal(&trace.ticks, &trace.values).is_none());
    let tolerances = match good {
        Some(trace) => tolerances(&trace, random),
        None => vec![any_tolerance(random)],
    };
    let mut tolerance = random.choose(&tolerances);
    let mut gap = gap_limit(&channels.ticks, random);
    for _ in 0..random.below(6).saturating_sub(3) {
        match random.below(14) {
            0..=7 => damage_crate(&mut channels, random),
            8 | 9 => tolerance = no_tolerance(random),
            10 | 11 => gap = no_gap(random),
            _ => room = random.below(count as u64) as usize,
        }
    }
    let _ = report(&channels, tolerance.with_gap(gap), room);
}

/// So many tolerances for a scan of this trace, of every form and in any order, some of them equal.
fn scan_tolerances(trace: &Trace, count: usize, random: &mut Random) -> Vec<Tolerance> {
    let pool: Vec<Tolerance> = (0..4).flat_map(|_| tolerances(trace, random)).collect();
    (0..count).map(|_| random.choose(&pool)).collect()
}

/// A trace of up to so many samples, scanned at 1 to 16 tolerances: the whole trace, and what has been kept
/// after a sample. Half of them may have up to three faults that the call refuses: in the trace, the number
/// of tolerances, some of the tolerances, the gap limit or the output.
pub fn traces_scanned(most: i64, random: &mut Random) {
    let any = random.within(1, most) as usize;
    let samples = random.choose(&[any, any, any, most as usize]);
    let (mut trace, mut gap) = any_limited(samples, random);
    let any = random.within(1, 16) as usize;
    let count = random.choose(&[1, any, any, 16]);
    let mut tolerances = scan_tolerances(&trace, count, random);
    let mut room = count * samples + random.choose(&[0, 0, 1, 7]);
    let faulty = random.below(2);
    for _ in 0..faulty * random.below(4) {
        match random.below(9) {
            0 | 1 => damage_trace(&mut trace, random),
            2 => tolerances.clear(),
            3 => tolerances.resize(random.choose(&[17, 18]), ratio(1, 1)),
            4 | 5 if !tolerances.is_empty() => {
                let at = random.below(tolerances.len() as u64) as usize;
                tolerances[at] = no_tolerance(random);
            }
            6 => gap = no_gap(random),
            _ => {
                let any = random.below((count * samples) as u64) as usize;
                room = random.choose(&[any, count * samples - 1]);
            }
        }
    }
    if let Ok(lists) = scanned(&trace, &tolerances, gap, room) {
        if samples > 1 {
            let j = random.within(1, samples as i64 - 1) as usize;
            after_sample(&trace, &tolerances, gap, &lists, j);
        }
    }
}

fn longest_scanned(random: &mut Random) {
    let any = random.within(1_000, 4_096) as usize;
    let samples = random.choose(&[any, 4_095, 4_096]);
    let (trace, gap) = any_limited(samples, random);
    let count = random.choose(&[2, 3, 16]);
    let tolerances = scan_tolerances(&trace, count, random);
    let _ = scan(
        &trace.ticks,
        &trace.values,
        &tolerances,
        gap,
        count * samples,
    );
}

/// A view that is begun, with a k in range or not, and grows with a trace of up to so many samples: its error
/// after a sample, and at the end. Then a state set by hand, to which a sample is added; half of them may
/// have up to three faults that the call refuses: in the trace or in the state.
pub fn traces_viewed(most: i64, random: &mut Random) {
    let any = random.within(2, most) as usize;
    let samples = random.choose(&[any, any, any, most as usize]);
    let mut trace = growing(samples, random);
    let k = view_k(samples, random);
    let any = random.bits();
    let _ = view_begin(random.choose(&[any, any >> 58, 32, 33, 1 << 32]));
    let at = random.within(2, samples as i64) as usize;
    let state = grown(&trace, k, |so_far, state| {
        if so_far.ticks.len() == at {
            within_twice(so_far, state);
        }
    });
    within_twice(&trace, &state);
    let mut state = view_state(k, samples - 1, random);
    let faulty = random.below(2);
    for _ in 0..faulty * random.below(4) {
        match random.below(3) {
            0 => damage_trace(&mut trace, random),
            _ => damage_view(&mut state, random),
        }
    }
    let _ = view_add(&state, &trace.ticks, &trace.values);
}

/// The last samples of the longest traces, added to a state set by hand.
fn longest_viewed(random: &mut Random) {
    let any = random.within(1_000, 4_096) as usize;
    let samples = random.choose(&[any, 4_095, 4_096]);
    let trace = growing(samples, random);
    let state = view_state(view_k(samples, random), samples - 4, random);
    grow(&trace, &state, |_, _| ());
}

/// Two traces of up to so many samples with kept lists, added. Half of them may have up to three faults that
/// the call refuses: in either trace or list, in their ticks side by side, in a sum or in the outputs.
pub fn traces_summed(most: i64, random: &mut Random) {
    let any = random.within(1, most) as usize;
    let samples = random.choose(&[any, any, any, most as usize]);
    let mut pair = summands(samples, random);
    let mut rooms = [(); 2].map(|_| samples + random.choose(&[0, 0, 1, 7]));
    let faulty = random.below(2);
    for _ in 0..faulty * random.below(4) {
        let at = random.below(2) as usize;
        match random.below(8) {
            0..=3 => damage_summand(&mut pair[at], random),
            4 | 5 => overflow(&mut pair, random),
            _ => {
                let any = random.below(samples as u64) as usize;
                rooms[at] = random.choose(&[any, samples - 1]);
            }
        }
    }
    let [first, second] = &pair;
    let _ = added(first, second, (rooms[0], rooms[1]));
}

/// A tolerance that is not allowed, in one part or as a whole.
fn no_tolerance(random: &mut Random) -> Tolerance {
    let parts = given(bad_parts(random));
    random.choose(&[ratio(1, 0), Counts(0.01), noise(0.0, -1.0), parts, parts])
}

/// A gap limit that is not allowed.
fn no_gap(random: &mut Random) -> u32 {
    random.choose(&[0, GAP_MAX + 1, 1 << 31, u32::MAX])
}

/// Two pedestal runs of so many channels at most, of traces of up to so many samples. Half of them may
/// have faults that the call refuses: up to three in the traces of either run, and up to two in the
/// lengths, the lists, the factor, the tolerance or the outputs. Some tolerances are given as parts, equal or
/// nearly so.
pub fn pedestal_runs(most: i64, samples: usize, random: &mut Random) {
    let any = random.within(1, most) as usize;
    let count = random.choose(&[1, 2, 3, any, any, most as usize]);
    let Runs {
        today,
        before,
        tolerance,
        mut k,
    } = runs(count, samples, random);
    let mut traces = [today, before];
    let mut tolerance = match random.below(8) {
        0 => any_tolerance(random),
        1 => given(written(tolerance.into(), random)),
        2 => given(written(near_parts(tolerance.into(), random), random)),
        _ => exactly(tolerance),
    };
    let faulty = random.below(2);
    for _ in 0..faulty * random.below(4) {
        let run = &mut traces[random.below(2) as usize];
        let trace = &mut run[random.below(count as u64) as usize];
        match random.below(2) {
            0 => damage_trace(trace, random),
            // A sample fewer.
            _ => {
                trace.ticks.pop();
                trace.values.pop();
            }
        }
    }
    let mut crates = traces.map(|run| crate_of(&run));
    let mut rooms = [(); 2].map(|_| count + random.choose(&[0, 0, 1, 7]));
    for _ in 0..faulty * random.below(3) {
        let run = &mut crates[random.below(2) as usize];
        match random.below(8) {
            0 => damage_crate(run, random),
            // A channel more, which this run alone may have.
            1 => run.lengths.push(0),
            2 | 3 => k = random.choose(&[0, 17, 1 << 32 | 2, u64::MAX]),
            4 => tolerance = no_tolerance(random),
            _ => rooms[random.below(2) as usize] = random.below(count as u64) as usize,
        }
    }
    let [today, before] = crates;
    let _ = pedestals(&today, &before, tolerance, k, (rooms[0], rooms[1]));
}

#[cfg(test)]
mod tests {
    use super::*;
    use crate::calls::CALLS;

    /// Every sort of case, and every row that a call has, comes up.
    #[test]
    fn every_row_comes_up() {
        let random = &mut Random::new(24);
        for family in &FAMILIES {
            (0..5 * family.weight).for_each(|_| (family.case)(random));
        }
        for call in CALLS {
            let counts = call.counts();
            assert!(counts[0] > 20, "{} {counts:?}", call.name());
            for (row, &count) in counts.iter().enumerate().skip(1) {
                let has = call.rows().contains(&(row as u32));
                assert_eq!(has, count > 0, "{} {row} {counts:?}", call.name());
            }
            let unequal = call.unequal();
            assert_eq!(
                call.has_tolerance(),
                unequal > 20,
                "{} {unequal}",
                call.name()
            );
        }
    }

    #[test]
    fn drawn_by_weight() {
        let random = &mut Random::new(25);
        let mut drawn = [0; FAMILIES.len()];
        for _ in 0..20_000 {
            let name = any(random).name;
            drawn[FAMILIES
                .iter()
                .position(|family| family.name == name)
                .unwrap()] += 1;
        }
        assert!(drawn.iter().all(|&count| count > 5), "{drawn:?}");
    }
}
