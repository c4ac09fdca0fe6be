//! Each call of the library, compared with the slow reference. A call is made between two kinds of guard
//! elements; its answer, the content of its outputs and that nothing else was changed are compared. A
//! difference panics, with the input. Each function returns the answer that both gave.

use crate::calls::Call;
use kovrelna::{
    GreedyVerdict, Limits, Ratio, ReducedTrace, Refusal, Run, Summary, Tolerance, Totals, Verdict,
    View, GAP_MAX,
};
use kovrelna_reference::generate::Channels;
use kovrelna_reference::pedestals::{self, Pedestals};
use kovrelna_reference::record::{self, Content};
use kovrelna_reference::report::{self, Report};
use kovrelna_reference::scans;
use kovrelna_reference::sums::{self, Sum, Summand};
use kovrelna_reference::views::{self, State};
use kovrelna_reference::{
    held, Fault, Form, Fraction, GreedyFault, Invalid, Least, Measure, Method, Parts, Reduced, Row,
    Side,
};
use std::fmt::Debug;
use std::hint::black_box;

/// The tolerance p/q.
pub fn ratio(p: u64, q: u64) -> Tolerance {
    Tolerance::Ratio { p, q }
}

/// The tolerance of a noise times a multiple.
pub fn noise(noise: f64, multiple: f64) -> Tolerance {
    Tolerance::Noise { noise, multiple }
}

/// The tolerance of these parts, above and below, each as p and q.
pub fn parts(above: (u64, u64), below: (u64, u64)) -> Tolerance {
    given([above, below])
}

/// The same of both parts together.
pub fn given(parts: [(u64, u64); 2]) -> Tolerance {
    let [above, below] = parts.map(|(p, q)| Ratio { p, q });
    Tolerance::Parts(kovrelna::Parts { above, below })
}

/// The ratio of this fraction.
pub fn exactly(fraction: Fraction) -> Tolerance {
    let Ratio { p, q } = ratio_of(fraction);
    ratio(p, q)
}

/// The tolerance of exactly these parts.
pub fn exactly_parts(parts: Parts) -> Tolerance {
    Tolerance::Parts(parts_of(parts))
}

/// The reference's word for it.
pub fn form(tolerance: Tolerance) -> Form {
    match tolerance {
        Tolerance::Ratio { p, q } => Form::Ratio(p, q),
        Tolerance::Counts(counts) => Form::Counts(counts),
        Tolerance::Noise { noise, multiple } => Form::Noise(noise, multiple),
        Tolerance::Parts(kovrelna::Parts { above, below }) => {
            Form::Parts((above.p, above.q), (below.p, below.q))
        }
    }
}

/// The library's word for parts.
fn parts_of(Parts { above, below }: Parts) -> kovrelna::Parts {
    kovrelna::Parts {
        above: ratio_of(above),
        below: ratio_of(below),
    }
}

/// The reference's word for a gap limit: the largest is none.
pub fn gap(gap: u32) -> Option<u32> {
    (gap != GAP_MAX).then_some(gap)
}

/// The reference's word for limits.
pub fn asked(limits: Limits) -> kovrelna_reference::Limits<Form> {
    kovrelna_reference::Limits {
        tolerance: form(limits.tolerance),
        gap: gap(limits.gap),
    }
}

/// The reference's word for a measure.
fn measured(measure: kovrelna::Measure) -> Measure {
    let Ratio { p, q } = measure.error;
    Measure {
        error: Fraction {
            p: p.into(),
            q: q.into(),
        },
        sample: measure.sample,
        side: match measure.side {
            kovrelna::Side::On => Side::On,
            kovrelna::Side::Above => Side::Above,
            kovrelna::Side::Below => Side::Below,
            kovrelna::Side::Gap => Side::Gap,
        },
    }
}

/// The row of a refusal.
pub fn row(refusal: Refusal) -> Row {
    (refusal.number(), refusal.returned() as u64)
}

/// The call of this method.
pub fn call(method: Method) -> Call {
    match method {
        Method::Walk => Call::Walk,
        Method::Gallop => Call::Gallop,
        Method::Minimum => Call::Minimum,
    }
}

/// Calls `hold`, compares with the reference, and returns the parts or the refusal's row.
pub fn hold(tolerance: Tolerance) -> Result<Parts, Row> {
    let expected = held(form(tolerance)).ok_or((4, 0));
    Call::Hold.count(&expected);
    Call::Hold.count_parts([expected.ok()]);
    let answer = kovrelna::hold(tolerance).map_err(row);
    assert_eq!(answer, expected.map(parts_of), "hold {tolerance:?}");
    expected
}

/// A slice between guard elements, and what all of it should be after a call: a copy, unless
/// something else is expected.
struct Guarded<T> {
    all: Vec<T>,
    after: Vec<T>,
}

/// How many guard elements there are on either side.
const GUARD: usize = 3;

/// Guard elements beside ticks, values, lists and bytes.
type Guards = (u32, i16, u16, u8);

/// The two kinds of them.
const GUARDS: [Guards; 2] = [(0, 0, 0, 0), (u32::MAX, i16::MIN, u16::MAX, u8::MAX)];

impl<T: Copy + PartialEq> Guarded<T> {
    fn new(slice: &[T], guard: T) -> Self {
        let all = [&[guard; GUARD], slice, &[guard; GUARD]].concat();
        let after = all.clone();
        Guarded { all, after }
    }

    fn slice(&self) -> &[T] {
        &black_box(&self.all)[GUARD..self.all.len() - GUARD]
    }

    fn slice_mut(&mut self) -> &mut [T] {
        let end = self.all.len() - GUARD;
        &mut black_box(&mut self.all)[GUARD..end]
    }

    /// The slice should have this list at this place after the call.
    fn expect(&mut self, place: usize, list: &[T]) {
        self.after[GUARD + place..][..list.len()].copy_from_slice(list);
    }

    fn as_expected(&self) -> bool {
        *black_box(&self.all) == self.after
    }
}

/// Calls `measure` between two kinds of guard elements, compares with the reference, sees that no
/// element changed, and returns the measure or the refusal's row.
pub fn measure(ticks: &[u32], values: &[i16], i: usize, j: usize) -> Result<Measure, Row> {
    let expected = kovrelna_reference::measure(ticks, values, i, j);
    Call::Measure.count(&expected);
    for guards in GUARDS {
        let ticks = Guarded::new(ticks, guards.0);
        let values = Guarded::new(values, guards.1);
        let (t, v) = (ticks.slice(), values.slice());
        let answer = kovrelna::measure(t, v, i, j).map(measured).map_err(row);
        let input = || format!("measure {i} to {j} of ticks, values: {t:?} {v:?}");
        assert_eq!(answer, expected, "{}", input());
        assert!(
            ticks.as_expected() && values.as_expected(),
            "an input or an element beside it was changed\n{}",
            input()
        );
    }
    expected
}

/// Calls `judge` between two kinds of guard elements, compares with the reference, sees that no
/// element changed, and returns the first invalid link, if any, or the refusal's row.
pub fn judge(
    ticks: &[u32],
    values: &[i16],
    list: &[u16],
    limits: impl Into<Limits>,
) -> Result<Option<Invalid>, Row> {
    let limits = limits.into();
    let expected = kovrelna_reference::judge(ticks, values, list, asked(limits));
    let make = |ticks: &[u32], values: &[i16], list: &[u16]| {
        Ok(match kovrelna::judge(ticks, values, list, limits)? {
            Verdict::Within => None,
            Verdict::Outside { link, measure } => Some(Invalid {
                link,
                measure: measured(measure),
            }),
        })
    };
    judged(Call::Judge, (ticks, values, list), limits, expected, make)
}

/// The same of `judge_greedy`: returns the first link at fault, if any, or the refusal's row.
pub fn judge_greedy(
    ticks: &[u32],
    values: &[i16],
    list: &[u16],
    limits: impl Into<Limits>,
) -> Result<Option<GreedyFault>, Row> {
    let limits = limits.into();
    let expected = kovrelna_reference::judge_greedy(ticks, values, list, asked(limits));
    let make = |ticks: &[u32], values: &[i16], list: &[u16]| {
        Ok(match kovrelna::judge_greedy(ticks, values, list, limits)? {
            GreedyVerdict::Yes => None,
            GreedyVerdict::No { link, fault } => Some(GreedyFault {
                link,
                fault: match fault {
                    kovrelna::Fault::Link => Fault::Link,
                    kovrelna::Fault::Stop => Fault::Stop,
                },
            }),
        })
    };
    let call = Call::JudgeGreedy;
    judged(call, (ticks, values, list), limits, expected, make)
}

/// Makes one of the two calls with these ticks, values and list, and compares it.
fn judged<T: Debug + PartialEq>(
    call: Call,
    (ticks, values, list): (&[u32], &[i16], &[u16]),
    limits: Limits,
    expected: Result<Option<T>, Row>,
    make: impl Fn(&[u32], &[i16], &[u16]) -> Result<Option<T>, Refusal>,
) -> Result<Option<T>, Row> {
    call.count(&expected);
    call.count_parts([held(form(limits.tolerance))]);
    for guards in GUARDS {
        let ticks = Guarded::new(ticks, guards.0);
        let values = Guarded::new(values, guards.1);
        let list = Guarded::new(list, guards.2);
        let answer = make(ticks.slice(), values.slice(), list.slice()).map_err(row);
        let input = || {
            let (name, lists) = (call.name(), (ticks.slice(), values.slice(), list.slice()));
            format!("{name} ticks, values, list: {lists:?}\n{limits:?}")
        };
        assert_eq!(answer, expected, "{}", input());
        assert!(
            ticks.as_expected() && values.as_expected() && list.as_expected(),
            "an input or an element beside it was changed\n{}",
            input()
        );
    }
    expected
}

/// Calls the reduction with an output of `room` entries between two kinds of guard elements,
/// compares with the reference, sees that the output begins with the list and that no other element
/// changed, and returns the list and the probes, or the refusal's row.
pub fn reduce(
    method: Method,
    ticks: &[u32],
    values: &[i16],
    limits: impl Into<Limits>,
    room: usize,
) -> Result<Reduced, Row> {
    let limits = limits.into();
    let expected = kovrelna_reference::reduce(method, ticks, values, asked(limits), room);
    call(method).count(&expected);
    call(method).count_parts([held(form(limits.tolerance))]);
    for guards in GUARDS {
        let ticks = Guarded::new(ticks, guards.0);
        let values = Guarded::new(values, guards.1);
        let mut out = output(room, guards.2);
        let (t, v) = (ticks.slice(), values.slice());
        let answer = match method {
            Method::Walk => kovrelna::walk(t, v, limits, out.slice_mut()).map(|kept| (kept, 0)),
            Method::Gallop => kovrelna::gallop(t, v, limits, out.slice_mut())
                .map(|galloped| (galloped.kept, galloped.probes)),
            Method::Minimum => {
                kovrelna::minimum(t, v, limits, out.slice_mut()).map(|kept| (kept, 0))
            }
        };
        let input = || format!("{method:?} of ticks, values: {t:?} {v:?}\n{limits:?} room {room}");
        match &expected {
            Ok(Reduced { list, probes }) => {
                assert_eq!(answer, Ok((list.len(), *probes)), "{}", input());
                out.expect(0, list);
                assert_eq!(out.slice()[..list.len()], *list, "{}", input());
            }
            Err(expected) => assert_eq!(answer.map_err(row), Err(*expected), "{}", input()),
        }
        assert!(
            ticks.as_expected() && values.as_expected() && out.as_expected(),
            "an input, an entry behind the list or an element beside a slice was changed\n{}",
            input()
        );
    }
    expected
}

/// An output of `room` entries that no list has, between guard elements.
fn output(room: usize, guard: u16) -> Guarded<u16> {
    let entries: Vec<u16> = (0..room).map(|k| (k as u16 ^ guard) | 0x8000).collect();
    Guarded::new(&entries, guard)
}

/// Calls `least` with an output of `room` entries between two kinds of guard elements, compares with the
/// reference, sees that the output begins with the list and that no other element changed, and returns
/// the error and the list, or the refusal's row.
pub fn least(
    ticks: &[u32],
    values: &[i16],
    gap: u32,
    allowance: u64,
    room: usize,
) -> Result<Least, Row> {
    let expected = kovrelna_reference::least(ticks, values, self::gap(gap), allowance, room);
    Call::Least.count(&expected);
    for guards in GUARDS {
        let ticks = Guarded::new(ticks, guards.0);
        let values = Guarded::new(values, guards.1);
        let mut out = output(room, guards.2);
        let (t, v) = (ticks.slice(), values.slice());
        let answer = kovrelna::least(t, v, gap, allowance, out.slice_mut())
            .map(|least| (least.kept, least.error.p, least.error.q))
            .map_err(row);
        let input = || {
            format!("least for {allowance} under {gap} of ticks, values: {t:?} {v:?} room {room}")
        };
        let known = match &expected {
            Ok(Least { list, error }) => {
                out.expect(0, list);
                Ok((list.len(), error.p as u64, error.q as u64))
            }
            Err(row) => Err(*row),
        };
        assert_eq!(answer, known, "{}", input());
        assert!(
            ticks.as_expected() && values.as_expected() && out.as_expected(),
            "the list is wrong, or another element was changed: {:?}\n{}",
            out.slice(),
            input()
        );
    }
    expected
}

/// Calls `scan` with an output of `room` entries between two kinds of guard elements, compares with the
/// reference, sees that each part of the output begins with its list and that no other element changed, and
/// returns the lists or the refusal's row.
pub fn scan(
    ticks: &[u32],
    values: &[i16],
    tolerances: &[Tolerance],
    gap: u32,
    room: usize,
) -> Result<Vec<Vec<u16>>, Row> {
    let forms: Vec<Form> = tolerances.iter().copied().map(form).collect();
    let expected = scans::scan(ticks, values, &forms, self::gap(gap), room);
    Call::Scan.count(&expected);
    Call::Scan.count_parts(forms.iter().map(|&form| held(form)));
    for guards in GUARDS {
        let ticks = Guarded::new(ticks, guards.0);
        let values = Guarded::new(values, guards.1);
        let mut out = output(room, guards.2);
        let (t, v) = (ticks.slice(), values.slice());
        let answer = kovrelna::scan(t, v, tolerances, gap, out.slice_mut());
        let input = || {
            format!("scan under {gap} of ticks, values: {t:?} {v:?}\n{tolerances:?} room {room}")
        };
        let known = match &expected {
            Ok(lists) => {
                let mut kept = [0; scans::TOLERANCES];
                for (position, list) in lists.iter().enumerate() {
                    kept[position] = list.len();
                    out.expect(position * t.len(), list);
                }
                Ok(kept)
            }
            Err(row) => Err(*row),
        };
        assert_eq!(answer.map_err(row), known, "{}", input());
        assert!(
            ticks.as_expected() && values.as_expected() && out.as_expected(),
            "a list is wrong, or another element was changed: {:?}\n{}",
            out.slice(),
            input()
        );
    }
    expected
}

/// The library's word for a state.
fn view(State { k, count, entries }: &State) -> View {
    View {
        k: *k,
        count: *count,
        samples: *entries,
    }
}

/// Calls `View::begin`, compares with the reference, and returns the state or the refusal's row.
pub fn view_begin(k: u64) -> Result<State, Row> {
    let expected = views::begin(k);
    Call::ViewBegin.count(&expected);
    let known = expected.as_ref().map(view).map_err(|row| *row);
    assert_eq!(View::begin(k).map_err(row), known, "view_begin {k}");
    expected
}

/// Calls `View::add` on a state between two kinds of guard elements, compares with the reference, sees that
/// the whole state is as the reference's, or as it was beside a refusal, and that no other element changed,
/// and returns the state or the refusal's row.
pub fn view_add(state: &State, ticks: &[u32], values: &[i16]) -> Result<State, Row> {
    let expected = views::add(state, ticks, values);
    Call::ViewAdd.count(&expected);
    for guards in GUARDS {
        let ticks = Guarded::new(ticks, guards.0);
        let values = Guarded::new(values, guards.1);
        let guard = View {
            k: guards.0,
            count: guards.0,
            samples: [guards.2; views::ENTRIES],
        };
        let mut lent = Guarded::new(&[view(state)], guard);
        let (t, v) = (ticks.slice(), values.slice());
        let answer = lent.slice_mut()[0].add(t, v).map_err(row);
        let input = || format!("view_add to {state:?} of ticks, values: {t:?} {v:?}");
        let known = match &expected {
            Ok(after) => {
                lent.expect(0, &[view(after)]);
                Ok(())
            }
            Err(row) => Err(*row),
        };
        assert_eq!(answer, known, "{}", input());
        assert!(
            ticks.as_expected() && values.as_expected() && lent.as_expected(),
            "the state is wrong, or another element was changed: {:?}\n{}",
            lent.slice(),
            input()
        );
    }
    expected
}

/// The lists of a trace to be added between guard elements.
struct GuardedSummand {
    ticks: Guarded<u32>,
    values: Guarded<i16>,
    list: Guarded<u16>,
}

impl GuardedSummand {
    fn new(Summand { trace, list }: &Summand, guards: Guards) -> Self {
        GuardedSummand {
            ticks: Guarded::new(&trace.ticks, guards.0),
            values: Guarded::new(&trace.values, guards.1),
            list: Guarded::new(list, guards.2),
        }
    }

    fn reduced_trace(&self) -> ReducedTrace<'_> {
        ReducedTrace {
            ticks: self.ticks.slice(),
            values: self.values.slice(),
            list: self.list.slice(),
        }
    }

    fn as_expected(&self) -> bool {
        self.ticks.as_expected() && self.values.as_expected() && self.list.as_expected()
    }
}

/// Calls `sum` with outputs of so many entries between two kinds of guard elements, compares with the
/// reference, sees that the outputs begin with the sums and the joined list and that no other element
/// changed, and returns the sum or the refusal's row.
pub fn sum(first: &Summand, second: &Summand, rooms: (usize, usize)) -> Result<Sum, Row> {
    let expected = sums::sum(first, second, rooms);
    Call::Sum.count(&expected);
    for guards in GUARDS {
        let [first, second] = [first, second].map(|summand| GuardedSummand::new(summand, guards));
        let values = expected.as_ref().map_or(&[][..], |sum| &sum.values);
        let mut sums = Guarded::new(&other_values(values, rooms.0), guards.1);
        let mut joined = output(rooms.1, guards.2);
        let answer = kovrelna::sum(
            first.reduced_trace(),
            second.reduced_trace(),
            sums.slice_mut(),
            joined.slice_mut(),
        );
        let input = || {
            let traces = (first.reduced_trace(), second.reduced_trace());
            format!("sum of {traces:?}\nrooms {rooms:?}")
        };
        let kept = match &expected {
            Ok(Sum { values, list }) => {
                sums.expect(0, values);
                joined.expect(0, list);
                Ok(list.len())
            }
            Err(row) => Err(*row),
        };
        assert_eq!(answer.map_err(row), kept, "{}", input());
        assert!(
            first.as_expected()
                && second.as_expected()
                && sums.as_expected()
                && joined.as_expected(),
            "a sum or a sample is wrong, or another element was changed: {:?} {:?}\n{}",
            sums.slice(),
            joined.slice(),
            input()
        );
    }
    expected
}

/// So many entries, none of which has its value.
fn other_values(values: &[i16], room: usize) -> Vec<i16> {
    (0..room)
        .map(|k| !values.get(k).copied().unwrap_or(k as i16))
        .collect()
}

/// Calls `expand` with an output of `room` entries between two kinds of guard elements, compares with
/// the reference, sees that no other element changed, and returns the values or the refusal's row.
pub fn expand(codes: &[u8], room: usize) -> Result<Vec<i16>, Row> {
    let expected = record::expand(codes, room);
    expanded(Call::Expand, codes, &[], room, expected, |codes, _, out| {
        kovrelna::expand(codes, out)
    })
}

/// The same of `expand_with`, with this table.
pub fn expand_with(codes: &[u8], table: &[i16], room: usize) -> Result<Vec<i16>, Row> {
    let expected = record::expand_with(codes, table, room);
    let make = kovrelna::expand_with;
    expanded(Call::ExpandWith, codes, table, room, expected, make)
}

/// Makes one of the two calls, and compares it.
fn expanded(
    call: Call,
    codes: &[u8],
    table: &[i16],
    room: usize,
    expected: Result<Vec<i16>, Row>,
    make: impl Fn(&[u8], &[i16], &mut [i16]) -> Result<usize, Refusal>,
) -> Result<Vec<i16>, Row> {
    call.count(&expected);
    let values = expected.as_deref().unwrap_or(&[]);
    for guards in GUARDS {
        let codes = Guarded::new(codes, guards.3);
        let table = Guarded::new(table, guards.1);
        let mut out = Guarded::new(&other_values(values, room), guards.1);
        let answer = make(codes.slice(), table.slice(), out.slice_mut()).map_err(row);
        let input = || {
            let (name, codes, table) = (call.name(), codes.slice(), table.slice());
            format!("{name} {codes:?} room {room} table {table:?}")
        };
        let written = expected.as_ref().map(Vec::len).map_err(|row| *row);
        assert_eq!(answer, written, "{}", input());
        out.expect(0, values);
        assert!(
            codes.as_expected() && table.as_expected() && out.as_expected(),
            "a value is wrong, or another element was changed: {:?}\n{}",
            out.slice(),
            input()
        );
    }
    expected
}

/// Calls `write` with a buffer of `size` bytes between two kinds of guard elements, compares with the
/// reference, sees that the record is at its place and that no other element changed, and returns the
/// record or the refusal's row.
pub fn write(
    ticks: &[u32],
    values: &[i16],
    list: &[u16],
    limits: impl Into<Limits>,
    size: usize,
    place: usize,
) -> Result<Vec<u8>, Row> {
    let limits = limits.into();
    let expected = record::write(ticks, values, list, asked(limits), size, place);
    Call::Write.count(&expected);
    Call::Write.count_parts([held(form(limits.tolerance))]);
    for guards in GUARDS {
        let ticks = Guarded::new(ticks, guards.0);
        let values = Guarded::new(values, guards.1);
        let list = Guarded::new(list, guards.2);
        let before: Vec<u8> = (0..size).map(|k| k as u8 ^ 0xa5 ^ guards.3).collect();
        let mut buffer = Guarded::new(&before, guards.3);
        let (t, v, l) = (ticks.slice(), values.slice(), list.slice());
        let answer = kovrelna::write(t, v, l, limits, buffer.slice_mut(), place).map_err(row);
        let input = || {
            format!("write ticks, values, list: {t:?} {v:?} {l:?}\n{limits:?} at {place} of {size}")
        };
        let written = expected.as_ref().map(Vec::len).map_err(|row| *row);
        assert_eq!(answer, written, "{}", input());
        if let Ok(record) = &expected {
            buffer.expect(place, record);
            let found = &buffer.slice()[place..][..record.len()];
            assert_eq!(found, record, "{}", input());
        }
        assert!(
            ticks.as_expected()
                && values.as_expected()
                && list.as_expected()
                && buffer.as_expected(),
            "an input, a byte beside the record or an element beside a slice was changed\n{}",
            input()
        );
    }
    expected
}

/// Calls `read` with outputs of so many entries between two kinds of guard elements, compares with
/// the reference, sees that the outputs begin with the samples and that no other element changed, and
/// returns the content or the refusal's row.
pub fn read(record: &[u8], ticks_room: usize, values_room: usize) -> Result<Content, Row> {
    let expected = record::read(record, ticks_room, values_room);
    Call::Read.count(&expected);
    Call::Read.count_parts([expected.as_ref().map(|content| content.tolerance).ok()]);
    for guards in GUARDS {
        let record = Guarded::new(record, guards.3);
        let before: Vec<u32> = (0..ticks_room as u32)
            .map(|k| k ^ 0x5a5a_5a5a ^ guards.0)
            .collect();
        let mut ticks = Guarded::new(&before, guards.0);
        let before: Vec<i16> = (0..values_room as i16)
            .map(|k| k ^ 0x5a5a ^ guards.1)
            .collect();
        let mut values = Guarded::new(&before, guards.1);
        let answer = kovrelna::read(record.slice(), ticks.slice_mut(), values.slice_mut())
            .map(|read| (read.samples, read.tolerance))
            .map_err(row);
        let input = || {
            format!(
                "read {:02x?} rooms {ticks_room} {values_room}",
                record.slice()
            )
        };
        let content = match &expected {
            Ok(content) => {
                let (t, v) = content.trace();
                ticks.expect(0, &t);
                values.expect(0, &v);
                Ok((t.len(), parts_of(content.tolerance)))
            }
            Err(row) => Err(*row),
        };
        assert_eq!(answer, content, "{}", input());
        assert!(
            record.as_expected() && ticks.as_expected() && values.as_expected(),
            "a sample is wrong, or another element was changed\n{:?} {:?}\n{}",
            ticks.slice(),
            values.slice(),
            input()
        );
    }
    expected
}

/// Calls `same` between two kinds of guard elements, compares with the reference, sees that no
/// element changed and that accepted records are the same exactly if their bytes agree, and returns the
/// answer or the refusal's row.
pub fn same(one: &[u8], other: &[u8]) -> Result<bool, Row> {
    let expected = record::same(one, other);
    Call::Same.count(&expected);
    let decoded = [one, other].map(|record| record::decode(record).ok());
    Call::Same.count_parts(decoded.map(|content| Some(content?.tolerance)));
    assert!(expected.is_err() || expected == Ok(one == other));
    for guards in GUARDS {
        let (one, other) = (Guarded::new(one, guards.3), Guarded::new(other, guards.3));
        let answer = kovrelna::same(one.slice(), other.slice()).map_err(row);
        let records = || format!("same {:02x?}\n{:02x?}", one.slice(), other.slice());
        assert_eq!(answer, expected, "{}", records());
        assert!(one.as_expected() && other.as_expected(), "{}", records());
    }
    expected
}

/// The lists of a crate between guard elements.
struct GuardedCrate {
    ticks: Guarded<u32>,
    values: Guarded<i16>,
    lengths: Guarded<usize>,
}

impl GuardedCrate {
    fn new(channels: &Channels, guards: Guards) -> Self {
        GuardedCrate {
            ticks: Guarded::new(&channels.ticks, guards.0),
            values: Guarded::new(&channels.values, guards.1),
            lengths: Guarded::new(&channels.lengths, guards.2.into()),
        }
    }

    fn run(&self) -> Run<'_> {
        Run {
            ticks: self.ticks.slice(),
            values: self.values.slice(),
            lengths: self.lengths.slice(),
        }
    }

    fn as_expected(&self) -> bool {
        self.ticks.as_expected() && self.values.as_expected() && self.lengths.as_expected()
    }
}

/// Calls `report` with an output of `room` entries between two kinds of guard elements, compares with the
/// reference, sees that the output begins with the summaries and that no other element changed, and
/// returns the report or the refusal's row.
pub fn report(channels: &Channels, limits: impl Into<Limits>, room: usize) -> Result<Report, Row> {
    let limits = limits.into();
    let Channels {
        ticks,
        values,
        lengths,
    } = channels;
    let expected = report::report(ticks, values, lengths, asked(limits), room);
    Call::Report.count(&expected);
    Call::Report.count_parts([held(form(limits.tolerance))]);
    for guards in GUARDS {
        let lent = GuardedCrate::new(channels, guards);
        // No channel has such a summary.
        let other = |k: usize| Summary {
            samples: !k,
            kept: !k,
            error: Ratio { p: 7, q: 0 },
            sample: !k,
            number: u32::MAX ^ guards.0,
        };
        let before: Vec<Summary> = (0..room).map(other).collect();
        let mut out = Guarded::new(&before, other(room));
        let Run {
            ticks,
            values,
            lengths,
        } = lent.run();
        let answer = kovrelna::report(ticks, values, lengths, limits, out.slice_mut());
        let input = || format!("report on {:?}\n{limits:?} room {room}", lent.run());
        let totals = match &expected {
            Ok(report) => {
                let summaries: Vec<Summary> = report.channels.iter().map(summary).collect();
                out.expect(0, &summaries);
                assert_eq!(out.slice()[..summaries.len()], summaries, "{}", input());
                Ok(Totals {
                    samples: report.samples,
                    kept: report.kept,
                    error: ratio_of(report.error),
                })
            }
            Err(row) => Err(*row),
        };
        assert_eq!(answer.map_err(row), totals, "{}", input());
        assert!(
            lent.as_expected() && out.as_expected(),
            "an input, a summary behind the last or an element beside a slice was changed\n{}",
            input()
        );
    }
    expected
}

/// The library's word for it.
fn summary(channel: &report::Channel) -> Summary {
    Summary {
        samples: channel.samples,
        kept: channel.kept,
        error: ratio_of(channel.error),
        sample: channel.sample,
        number: channel.number,
    }
}

fn ratio_of(Fraction { p, q }: Fraction) -> Ratio {
    let (p, q) = (p as u64, q as u64);
    Ratio { p, q }
}

/// Calls `pedestals` with lists of so many entries between two kinds of guard elements, compares with the
/// reference, sees that the lists begin with the channels and that no other element changed, and returns
/// the channels or the refusal's row.
pub fn pedestals(
    today: &Channels,
    before: &Channels,
    tolerance: Tolerance,
    k: u64,
    rooms: (usize, usize),
) -> Result<Pedestals, Row> {
    let expected = pedestals::pedestals(today, before, form(tolerance), k, rooms);
    Call::Pedestals.count(&expected);
    Call::Pedestals.count_parts([held(form(tolerance))]);
    for guards in GUARDS {
        let [today, before] = [today, before].map(|run| GuardedCrate::new(run, guards));
        let (mut moved, mut noisy) = (output(rooms.0, guards.2), output(rooms.1, guards.2));
        let answer = kovrelna::pedestals(
            today.run(),
            before.run(),
            tolerance,
            k,
            moved.slice_mut(),
            noisy.slice_mut(),
        );
        let input = || {
            let runs = (today.run(), before.run());
            format!("pedestals of {runs:?}\n{tolerance:?} k {k} rooms {rooms:?}")
        };
        // What is wrong with a trace is said of its channel.
        let of_sample = |refusal: &Refusal| {
            matches!(
                refusal,
                Refusal::Length | Refusal::Tick(_) | Refusal::Span(_)
            )
        };
        assert!(
            !answer.is_err_and(|refusal| of_sample(&refusal)),
            "{}",
            input()
        );
        let answer = answer
            .map(|counts| (counts.moved, counts.noisy))
            .map_err(row);
        let counts = match &expected {
            Ok(channels) => {
                moved.expect(0, &channels.moved);
                noisy.expect(0, &channels.noisy);
                Ok((channels.moved.len(), channels.noisy.len()))
            }
            Err(row) => Err(*row),
        };
        assert_eq!(answer, counts, "{}", input());
        assert!(
            today.as_expected()
                && before.as_expected()
                && moved.as_expected()
                && noisy.as_expected(),
            "a channel is wrong, or another element was changed: {:?} {:?}\n{}",
            moved.slice(),
            noisy.slice(),
            input()
        );
    }
    expected
}
