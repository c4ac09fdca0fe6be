//! The table of refusals: every row of every call, alone, together with every set of later rows, and at
//! its limits.

use kovrelna::{Refusal, Tolerance, GAP_MAX};
use kovrelna_evidence::calls::Call::{self, *};
use kovrelna_evidence::calls::CALLS;
use kovrelna_evidence::cases::random_faults;
use kovrelna_evidence::compare::{
    expand, expand_with, hold, judge, judge_greedy, least, measure, noise, parts, pedestals, ratio,
    read, reduce, report, same, scan, sum, view_add, view_begin, write,
};
use kovrelna_reference::generate::{crate_of, Channels, Random, Trace};
use kovrelna_reference::record::{end, first, short, tolerance, unequal};
use kovrelna_reference::sums::Summand;
use kovrelna_reference::views::{self, State, ENTRIES};
use kovrelna_reference::{Method, Row};

/// What calls are lent; each takes the fields that concern it.
#[derive(Clone, Debug)]
struct Input {
    ticks: Vec<u32>,
    values: Vec<i16>,
    /// The two samples of a link.
    link: (usize, usize),
    list: Vec<u16>,
    tolerance: Tolerance,
    gap: u32,
    allowance: u64,
    /// The tolerances of a scan, and the entries of its output.
    tolerances: Vec<Tolerance>,
    scan_room: usize,
    /// The k from which a view is begun, and the state to which a sample is added.
    k: u64,
    view: State,
    /// Two traces to be added.
    summands: [Summand; 2],
    codes: Vec<u8>,
    table: Vec<i16>,
    record: Vec<u8>,
    second: Vec<u8>,
    /// The samples of each channel of a crate.
    lengths: Vec<usize>,
    /// Two pedestal runs, and the noise factor.
    today: Channels,
    before: Channels,
    factor: u64,
    /// The entries of the output, and of the second one of sum, of read and of pedestals.
    rooms: (usize, usize),
    /// The bytes of the writer's buffer.
    size: usize,
    place: usize,
}

/// Eight samples, codes or channels, and outputs with exactly enough room: no call refuses it. The least
/// gap limit leaves no hole. There are three tolerances to scan at. The state is a full view of the first
/// seven samples. The channels of the two runs have three samples each, and the ticks of the two traces to be
/// added rise by two.
fn accepted() -> Input {
    let run = Channels {
        ticks: (0..24).collect(),
        values: vec![0; 24],
        lengths: vec![3; 8],
    };
    let summand = Summand {
        trace: Trace {
            ticks: (0..8).map(|k| 10 + 2 * k).collect(),
            values: vec![0; 8],
        },
        list: vec![0, 7],
    };
    let mut record = [tolerance(1, 2), first(7, 7)].concat();
    record.extend(short(1, 1).repeat(7));
    record.extend(end(8));
    Input {
        ticks: (10..18).collect(),
        values: vec![0; 8],
        link: (0, 7),
        list: vec![0, 7],
        tolerance: ratio(0, 1),
        gap: 1,
        allowance: 2,
        tolerances: vec![ratio(0, 1); 3],
        scan_room: 24,
        k: 32,
        view: view(1, &[0, 2, 3, 6]),
        summands: [summand.clone(), summand],
        codes: vec![9; 8],
        table: (-100..156).collect(),
        second: record.clone(),
        record,
        lengths: vec![1; 8],
        today: run.clone(),
        before: run,
        factor: 1,
        rooms: (8, 8),
        size: 22,
        place: 0,
    }
}

/// A state with this list, and something else in each entry behind it.
fn view(k: u32, list: &[u16]) -> State {
    let mut entries = [0; ENTRIES];
    for (k, entry) in entries.iter_mut().enumerate() {
        *entry = 0x8000 | k as u16;
    }
    let count = 0;
    State { k, count, entries }.with_list(list)
}

/// The row with which the call refuses, which is the reference's too; nothing that was lent is changed
/// then.
fn refused(call: Call, input: &Input) -> Option<Row> {
    let Input {
        ticks,
        values,
        list,
        codes,
        table,
        record,
        second,
        ..
    } = input;
    let (tolerance, (room, second_room)) = (input.tolerance, input.rooms);
    let limits = tolerance.with_gap(input.gap);
    let reduced = |method| reduce(method, ticks, values, limits, room).err();
    match call {
        Hold => hold(tolerance).err(),
        Measure => measure(ticks, values, input.link.0, input.link.1).err(),
        Judge => judge(ticks, values, list, limits).err(),
        JudgeGreedy => judge_greedy(ticks, values, list, limits).err(),
        Walk => reduced(Method::Walk),
        Gallop => reduced(Method::Gallop),
        Minimum => reduced(Method::Minimum),
        Least => least(ticks, values, input.gap, input.allowance, room).err(),
        Scan => {
            let Input {
                tolerances, gap, ..
            } = input;
            scan(ticks, values, tolerances, *gap, input.scan_room).err()
        }
        ViewBegin => view_begin(input.k).err(),
        ViewAdd => view_add(&input.view, ticks, values).err(),
        Sum => {
            let [first, second] = &input.summands;
            sum(first, second, input.rooms).err()
        }
        Expand => expand(codes, room).err(),
        ExpandWith => expand_with(codes, table, room).err(),
        Write => write(ticks, values, list, limits, input.size, input.place).err(),
        Read => read(record, room, second_room).err(),
        Same => same(record, second).err(),
        Report => {
            let channels = Channels {
                ticks: ticks.clone(),
                values: values.clone(),
                lengths: input.lengths.clone(),
            };
            report(&channels, limits, room).err()
        }
        Pedestals => {
            let Input { today, before, .. } = input;
            pedestals(today, before, tolerance, input.factor, input.rooms).err()
        }
    }
}

/// The calls that take a trace, one of any number of samples from 1 to 4,096, a tolerance, one with unequal
/// parts, a gap limit, a list, codes; those with an output of an entry for each sample, code or channel, and
/// with two of them.
const TRACES: &[Call] = &[
    Measure,
    Judge,
    JudgeGreedy,
    Walk,
    Gallop,
    Minimum,
    Least,
    Scan,
    ViewAdd,
    Write,
];
const LONG_TRACES: &[Call] = &[Judge, JudgeGreedy, Walk, Gallop, Minimum, Scan, Write];
const TOLERANCES: &[Call] = &[
    Hold,
    Judge,
    JudgeGreedy,
    Walk,
    Gallop,
    Minimum,
    Write,
    Report,
    Pedestals,
];
const UNEQUAL: &[Call] = &[
    Hold,
    Judge,
    JudgeGreedy,
    Walk,
    Gallop,
    Minimum,
    Write,
    Report,
];
const GAPS: &[Call] = &[
    Judge,
    JudgeGreedy,
    Walk,
    Gallop,
    Minimum,
    Least,
    Scan,
    Write,
    Report,
];
const LISTS: &[Call] = &[Judge, JudgeGreedy, Write];
const CODES: &[Call] = &[Expand, ExpandWith];
const OUTPUTS: &[Call] = &[
    Walk, Gallop, Minimum, Least, Sum, Expand, ExpandWith, Read, Report, Pedestals,
];
const TWO_OUTPUTS: &[Call] = &[Sum, Read, Pedestals];

/// A fault: the calls that refuse it, the row, and how it comes into an input. For each call and row
/// there is one; of sum, for each trace and each list. They concern different things, so that any of them
/// can come together.
type Fault = (&'static [Call], Row, Change);
type Change = fn(&mut Input);

const FAULTS: &[Fault] = &[
    (&[Pedestals], (14, 0), |input| input.factor = 17),
    (&[Report], (11, 0), |input| input.lengths[3] = 2),
    (&[Pedestals], (11, 0), |input| input.before.values.push(0)),
    (TRACES, (1, 0), |input| input.values.push(0)),
    (CODES, (1, 0), |input| input.codes = vec![9; 4_097]),
    // No code of the input is this one.
    (&[ExpandWith], (12, 200), |input| {
        input.table[200] = input.table[199]
    }),
    (TRACES, (2, 6), |input| input.ticks[6] = input.ticks[5]),
    // Its sample comes before that of row 2.
    (TRACES, (3, 3), |input| {
        input.ticks[3..]
            .iter_mut()
            .for_each(|tick| *tick += 1_048_576)
    }),
    (&[ViewBegin], (20, 0), |input| input.k = 33),
    (&[ViewAdd], (20, 0), |input| input.view.entries[1] = 3),
    (&[Scan], (19, 0), |input| {
        input.tolerances.resize(17, ratio(0, 1))
    }),
    (TOLERANCES, (4, 0), |input| {
        input.tolerance = Tolerance::Counts(f64::NAN)
    }),
    (&[Scan], (4, 2), |input| input.tolerances[2] = ratio(0, 0)),
    (GAPS, (15, 0), |input| input.gap = 0),
    // The channels of pedestals' own rows are 1, 2, 3 and 4.
    (&[Pedestals], (1, 1), |input| {
        for run in [&mut input.today, &mut input.before] {
            (run.lengths[0], run.lengths[1]) = (6, 0);
        }
    }),
    (&[Pedestals], (2, 2), |input| {
        input.today.ticks[7] = input.today.ticks[6]
    }),
    (&[Pedestals], (3, 3), |input| {
        input.before.ticks[10..12]
            .iter_mut()
            .for_each(|tick| *tick += 1_048_576)
    }),
    (&[Pedestals], (13, 4), |input| {
        (input.before.lengths[4], input.before.lengths[5]) = (2, 4)
    }),
    (&[Least], (5, 0), |input| input.allowance = 1),
    // A hole at the first step.
    (&[Least], (16, 0), |input| {
        input.ticks[1..].iter_mut().for_each(|tick| *tick += 1)
    }),
    (&[Measure], (6, 1), |input| input.link = (3, 3)),
    (LISTS, (6, 1), |input| input.list = vec![0, 0, 7]),
    // Of trace 1, of trace 2, of list 1 and of list 2, at other samples and positions.
    (&[Sum], (1, 0), |input| {
        input.summands[0].trace.values.push(0)
    }),
    (&[Sum], (2, 6), |input| {
        equal_ticks(&mut input.summands[0], 6)
    }),
    (&[Sum], (3, 3), |input| far_ticks(&mut input.summands[0], 3)),
    (&[Sum], (1, 0), |input| {
        input.summands[1].trace.values.truncate(7)
    }),
    (&[Sum], (2, 5), |input| {
        equal_ticks(&mut input.summands[1], 5)
    }),
    (&[Sum], (3, 2), |input| far_ticks(&mut input.summands[1], 2)),
    (&[Sum], (6, 1), |input| {
        input.summands[0].list = vec![0, 0, 7]
    }),
    (&[Sum], (6, 2), |input| {
        input.summands[1].list = vec![0, 3, 3, 7]
    }),
    (&[Sum], (17, 4), |input| {
        input.summands[1].trace.ticks[4] += 1
    }),
    // Its sample comes before that of row 17.
    (&[Sum], (18, 1), |input| {
        (
            input.summands[0].trace.values[1],
            input.summands[1].trace.values[1],
        ) = (1, i16::MAX)
    }),
    (&[Write], (7, 0), |input| input.values[3] = 9),
    (&[Read, Same], (8, 16), |input| input.record.truncate(18)),
    (&[Same], (9, 19), |input| input.second.truncate(20)),
    (OUTPUTS, (10, 8), |input| input.rooms.0 = 7),
    (&[Scan], (10, 24), |input| input.scan_room = 23),
    (&[Write], (10, 22), |input| input.size = 21),
];

/// The tick of this sample becomes that of the one before.
fn equal_ticks(summand: &mut Summand, sample: usize) {
    summand.trace.ticks[sample] = summand.trace.ticks[sample - 1];
}

/// The span becomes too long from this sample on.
fn far_ticks(summand: &mut Summand, sample: usize) {
    summand.trace.ticks[sample..]
        .iter_mut()
        .for_each(|tick| *tick += 1_048_576);
}

/// The faults of this call, in the table's order.
fn faults(call: Call) -> Vec<(Row, Change)> {
    let of_call = FAULTS.iter().filter(|(calls, ..)| calls.contains(&call));
    of_call.map(|&(_, row, fault)| (row, fault)).collect()
}

/// Tolerances that are not allowed: as one, in the part above, in the part below, and in both.
fn bad_tolerances() -> [Tolerance; 6] {
    let (good, none, great) = ((0, 1), (1, 0), (65_536, 1));
    [
        Tolerance::Counts(f64::NAN),
        parts(none, good),
        parts(great, good),
        parts(good, none),
        parts(good, great),
        parts(none, great),
    ]
}

/// The input, and with each tolerance in place of its own that the call treats alike: one that is allowed, with
/// equal parts or with unequal ones; or one that is not, in either part. Of write the record stays as long.
fn with_alike(call: Call, input: &Input) -> Vec<Input> {
    let allowed = |tolerance: Tolerance| kovrelna::hold(tolerance).is_ok();
    let alike = |tolerance: Tolerance| -> Vec<Tolerance> {
        match (allowed(tolerance), call) {
            (true, Write | Pedestals) => vec![parts((0, 1), (0, 7))],
            (true, _) => vec![
                parts((0, 1), (0, 7)),
                parts((0, 1), (1, 3)),
                parts((1, 3), (0, 1)),
            ],
            (false, Pedestals) => {
                let unequal = [parts((0, 1), (1, 3)), parts((1, 3), (0, 1))];
                [&bad_tolerances()[..], &unequal].concat()
            }
            (false, _) => bad_tolerances().to_vec(),
        }
    };
    let mut inputs = vec![input.clone()];
    let mut add = |change: &dyn Fn(&mut Input)| {
        let mut input = input.clone();
        change(&mut input);
        inputs.push(input);
    };
    if TOLERANCES.contains(&call) {
        for tolerance in alike(input.tolerance) {
            add(&|input| input.tolerance = tolerance);
        }
    }
    if call == Scan {
        for (position, &tolerance) in input.tolerances.iter().enumerate().take(3) {
            for tolerance in alike(tolerance) {
                add(&|input| input.tolerances[position] = tolerance);
            }
        }
    }
    inputs
}

/// Every row of every call: alone its number and value are answered.
#[test]
fn every_row_of_every_call() {
    for call in CALLS {
        assert_eq!(refused(call, &accepted()), None, "{call:?}");
        let faults = faults(call);
        let numbers: Vec<u32> = faults.iter().map(|((number, _), _)| *number).collect();
        assert_eq!(numbers, call.rows(), "{call:?}");
        for (row, fault) in faults {
            let mut input = accepted();
            fault(&mut input);
            assert_eq!(refused(call, &input), Some(row), "{call:?} {input:?}");
        }
    }
}

/// Every set of rows of every call: the first row is answered, with its own value, also where the tolerance has
/// parts, of which the one above, the one below or both may be what is not allowed.
#[test]
fn the_first_row_is_answered() {
    for call in CALLS {
        let faults = faults(call);
        for set in 0usize..1 << faults.len() {
            let mut input = accepted();
            let chosen = faults.iter().enumerate().filter(|(k, _)| set >> k & 1 == 1);
            chosen.for_each(|(_, (_, fault))| fault(&mut input));
            let first = faults.get(set.trailing_zeros() as usize);
            let row = first.map(|&(row, _)| row);
            for input in with_alike(call, &input) {
                assert_eq!(refused(call, &input), row, "{call:?} {input:?}");
            }
        }
    }
}

/// An entry of the table: calls, an input, and the row with which they refuse it, if any.
type Entry = (&'static [Call], Input, Option<Row>);

/// The limits of every row: what is just allowed and what is just refused, and of several faults of one
/// row the value of the first.
#[test]
fn limits() {
    let parts = [
        lengths(),
        tables(),
        ticks(),
        ks(),
        states(),
        counts(),
        tolerances(),
        gaps(),
        allowances(),
        holes(),
        pairs(),
        lists(),
        links(),
        mismatches(),
        overflows(),
        records(),
        crates(),
        runs(),
        factors(),
        rooms(),
    ];
    for (calls, input, row) in parts.concat() {
        for &call in calls {
            assert_eq!(refused(call, &input), row, "{call:?} {input:?}");
        }
    }
}

/// Two traces to be added, either of them first: the row with which sum refuses them.
fn either_way(one: &Summand, other: &Summand, room: usize, row: Option<Row>) -> [Entry; 2] {
    [[one, other], [other, one]].map(|pair| {
        let input = Input {
            summands: pair.map(Summand::clone),
            rooms: (room, room),
            ..accepted()
        };
        (&[Sum][..], input, row)
    })
}

/// The trace with an empty list.
fn unlisted(summand: &Summand) -> Summand {
    Summand {
        list: Vec::new(),
        ..summand.clone()
    }
}

fn lengths() -> Vec<Entry> {
    let lengths = [0usize, 1, 2, 4_095, 4_096, 4_097];
    let mut entries: Vec<Entry> = Vec::new();
    for samples in lengths {
        let mut list: Vec<u16> = vec![0, samples.saturating_sub(1) as u16];
        list.dedup();
        for values in lengths {
            let allowed = samples == values && (1..=4_096).contains(&samples);
            let row = (!allowed).then_some((1, 0));
            let input = Input {
                ticks: (0..samples as u32).collect(),
                values: vec![7; values],
                link: (0, samples.saturating_sub(1)),
                list: list.clone(),
                rooms: (samples, samples),
                scan_room: 3 * samples,
                view: match samples {
                    ..=2 => view(1, &[0]),
                    _ => view(1, &[0, samples as u16 - 2]),
                },
                size: 100,
                ..accepted()
            };
            entries.push((LONG_TRACES, input.clone(), row));
            let summand = Summand {
                trace: Trace {
                    ticks: input.ticks.clone(),
                    values: input.values.clone(),
                },
                list: list.clone(),
            };
            let beside = match allowed {
                true => summand.clone(),
                false => accepted().summands[0].clone(),
            };
            entries.extend(either_way(&summand, &beside, samples, row));
            // One sample is no link.
            let no_link = (samples == 1).then_some((6, 1));
            entries.push((&[Measure], input.clone(), row.or(no_link)));
            // There is no sample before it, and no view.
            let no_view = (samples == 1).then_some((20, 0));
            entries.push((&[ViewAdd], input.clone(), row.or(no_view)));
            if !allowed {
                // Later rows fail too.
                let input = Input {
                    ticks: vec![5; samples],
                    link: (usize::MAX, 0),
                    list: Vec::new(),
                    tolerance: ratio(0, 0),
                    gap: 0,
                    tolerances: Vec::new(),
                    rooms: (0, 0),
                    scan_room: 0,
                    view: view(33, &[]),
                    size: 0,
                    ..input
                };
                entries.push((LONG_TRACES, input.clone(), row));
                entries.push((&[Measure, ViewAdd], input, row));
                let mut summand = summand;
                summand.trace.ticks.fill(5);
                summand.list.clear();
                entries.extend(either_way(&summand, &unlisted(&beside), 0, row));
            }
        }
        let allowed = (1..=4_096).contains(&samples);
        let input = Input {
            codes: vec![3; samples],
            rooms: (samples, 0),
            ..accepted()
        };
        entries.push((CODES, input, (!allowed).then_some((1, 0))));
    }
    entries
}

fn tables() -> Vec<Entry> {
    const MIN: i16 = i16::MIN;
    const MAX: i16 = i16::MAX;
    let mut entries: Vec<Entry> = Vec::new();
    let mut add = |table: Vec<i16>, fault: Option<u64>| {
        let row = fault.map(|value| (12, value));
        let input = Input {
            table,
            ..accepted()
        };
        entries.push((&[ExpandWith], input.clone(), row));
        if row.is_some() {
            // Row 10 fails too, and then row 1.
            let mut input = Input {
                rooms: (0, 0),
                ..input
            };
            entries.push((&[ExpandWith], input.clone(), row));
            input.codes.clear();
            entries.push((&[ExpandWith], input, Some((1, 0))));
        }
    };
    // Other lengths, of values that rise while they fit and of equal ones; cut to 16 bits the last two are
    // 0 and 256.
    for length in [0, 1, 2, 255, 257, 512, 65_536, 65_792] {
        add((0..length).map(|k| k as i16).collect(), Some(0));
        add(vec![7; length], Some(0));
    }
    // The table with these values.
    let with = |values: &[(usize, i16)]| {
        let mut table = accepted().table;
        values.iter().for_each(|&(code, value)| table[code] = value);
        table
    };
    // Every code: its value is the one before, just below it, or far below it; the one before is far above.
    for code in 1..256 {
        let before = accepted().table[code - 1];
        for value in [before, before - 1, MIN] {
            add(with(&[(code, value)]), Some(code as u64));
        }
        add(with(&[(code - 1, MAX)]), Some(code as u64));
    }
    // The least and the greatest value at the ends, and the wrong way round.
    add(with(&[(0, MIN), (255, MAX)]), None);
    add(with(&[(0, MAX), (255, MIN)]), Some(1));
    add((MIN..MIN + 128).chain(MAX - 127..=MAX).collect(), None);
    add((MAX - 127..=MAX).chain(MIN..MIN + 128).collect(), Some(128));
    add((0..256).rev().collect(), Some(1));
    // Several faults.
    add(with(&[(9, MIN), (200, MIN)]), Some(9));
    add(with(&[(8, MAX), (255, MIN)]), Some(9));
    entries
}

fn ticks() -> Vec<Entry> {
    const MAX: u32 = u32::MAX;
    let cases = [
        ([0, 1, 1_048_574, 1_048_575], None),
        ([MAX - 3, MAX - 2, MAX - 1, MAX], None),
        ([MAX - 1_048_575, MAX - 1_048_574, MAX - 1, MAX], None),
        ([7, 8, 1_048_582, 1_048_583], Some((3, 3))),
        ([7, 8, 1_048_583, 1_048_584], Some((3, 2))),
        ([MAX - 1_048_576, MAX - 2, MAX - 1, MAX], Some((3, 3))),
        ([0, MAX - 2, MAX - 1, MAX], Some((3, 1))),
        ([0, 0, 1, 2], Some((2, 1))),
        ([0, 1, 1, 2], Some((2, 2))),
        ([0, 1, 2, 2], Some((2, 3))),
        ([0, 5, 4, 3], Some((2, 2))),
        ([1, 0, 2, 3], Some((2, 1))),
        ([MAX, MAX, MAX, MAX], Some((2, 1))),
        // Ticks do not wrap around.
        ([MAX - 2, MAX - 1, MAX, 0], Some((2, 3))),
        // Row 2 before row 3, whichever comes first in the trace.
        ([0, 2_000_000, 2_000_001, 2_000_001], Some((2, 3))),
        ([0, 2_000_000, 1, 2], Some((2, 2))),
        ([0, 1, 1, 2_000_000], Some((2, 2))),
    ];
    let entry = |(ticks, row): ([u32; 4], _)| {
        let input = Input {
            ticks: ticks.to_vec(),
            values: vec![0; 4],
            link: (0, 3),
            list: vec![0, 3],
            gap: GAP_MAX,
            view: view(0, &[0, 2]),
            size: 100,
            ..accepted()
        };
        (TRACES, input, row)
    };
    let mut entries: Vec<Entry> = cases.map(entry).to_vec();
    let summand = |ticks: [u32; 4]| Summand {
        trace: Trace {
            ticks: ticks.to_vec(),
            values: vec![0; 4],
        },
        list: vec![0, 3],
    };
    for (ticks, row) in cases {
        let one = summand(ticks);
        match row {
            None => entries.extend(either_way(&one, &one, 4, None)),
            // The other list and the room fail too.
            _ => entries.extend(either_way(&one, &unlisted(&summand([0, 1, 2, 3])), 0, row)),
        }
        // Trace 1 before trace 2.
        for (others, second) in cases {
            let rows = row.or(second);
            if rows.is_some() {
                let pair = [&one, &summand(others)].map(unlisted);
                let input = Input {
                    summands: pair,
                    rooms: (0, 0),
                    ..accepted()
                };
                entries.push((&[Sum], input, rows));
            }
        }
    }
    entries
}

/// Every k of a view, and others.
fn ks() -> Vec<Entry> {
    let allowed = (0..=32).map(|k| (k, None));
    let refused = [33, 34, 64, 255, 256, 65_536, 1 << 31, u32::MAX.into()];
    let cut = [1 << 32, 1 << 32 | 32, 1 << 63, u64::MAX - 1, u64::MAX];
    let refused = refused.iter().chain(&cut).map(|&k| (k, Some((20, 0))));
    let entry = |(k, row)| -> Entry { (&[ViewBegin], Input { k, ..accepted() }, row) };
    allowed.chain(refused).map(entry).collect()
}

/// States beside a trace of six samples, of which the first five are viewed.
fn states() -> Vec<Entry> {
    let cases: [(u32, &[u16], bool); 40] = [
        (0, &[0, 4], true),
        (1, &[0, 4], true),
        (1, &[0, 2, 4], true),
        (1, &[0, 1, 3, 4], true),
        (2, &[0, 1, 2, 3, 4], true),
        (32, &[0, 1, 2, 3, 4], true),
        // k out of range; 2 k + 2 may be small if it is cut to 32 bits.
        (33, &[0, 4], false),
        (34, &[0, 1, 2, 3, 4], false),
        (1 << 16, &[0, 4], false),
        ((1 << 31) - 1, &[0, 4], false),
        (1 << 31, &[0, 4], false),
        ((1 << 31) + 1, &[0, 4], false),
        ((1 << 31) + 2, &[0, 1, 2, 3, 4], false),
        (u32::MAX, &[0, 4], false),
        // Empty.
        (0, &[], false),
        (32, &[], false),
        // A first entry that is not 0.
        (1, &[1, 4], false),
        (1, &[4], false),
        (1, &[5], false),
        (1, &[u16::MAX, 4], false),
        // Equal neighbours.
        (2, &[0, 0, 4], false),
        (2, &[0, 2, 2, 4], false),
        (2, &[0, 2, 4, 4], false),
        // Falling.
        (2, &[0, 3, 2, 4], false),
        (2, &[0, 4, 0], false),
        (2, &[0, 4, 3, 4], false),
        // Beyond the samples before the new one.
        (1, &[0, 5], false),
        (1, &[0, 4, 5], false),
        (2, &[0, 5, 4], false),
        (1, &[0, 6], false),
        (1, &[0, 4_096], false),
        (1, &[0, u16::MAX], false),
        // Stops short.
        (1, &[0], false),
        (1, &[0, 3], false),
        (1, &[0, 1, 2, 3], false),
        // Too many inner samples.
        (0, &[0, 1, 4], false),
        (0, &[0, 3, 4], false),
        (0, &[0, 1, 2, 3, 4], false),
        (1, &[0, 1, 2, 3, 4], false),
        (0, &[0, 2, 3, 4], false),
    ];
    let mut entries: Vec<Entry> = Vec::new();
    let mut add = |view: &State, samples: usize, is_view: bool| {
        let row = (!is_view).then_some((20, 0));
        let input = Input {
            ticks: (0..samples as u32).collect(),
            values: vec![0; samples],
            view: view.clone(),
            ..accepted()
        };
        entries.push((&[ViewAdd], input, row));
    };
    for (k, list, is_view) in cases {
        add(&view(k, list), 6, is_view);
        // One sample more or fewer is another trace.
        if is_view {
            add(&view(k, list), 5, false);
            add(&view(k, list), 7, false);
        }
    }
    // At each k as many inner samples as there may be, and one more, as far as there is room.
    let all: Vec<u16> = (0..ENTRIES as u16).collect();
    for k in 0..=views::K {
        let most = 2 * k as usize + 2;
        add(&view(k, &all[..most]), most + 1, true);
        if let Some(more) = all.get(..=most) {
            add(&view(k, more), most + 2, false);
        }
    }
    // Counts above the room, or that are the list's if they are cut to 8 bits, to 16 or to 31.
    for list in [&[0, 4][..], &all] {
        let kept = list.len() as u32;
        for count in [
            67,
            68,
            1 << 8 | kept,
            1 << 16 | kept,
            1 << 31 | kept,
            u32::MAX,
        ] {
            let state = view(32, list);
            let samples = usize::from(list[list.len() - 1]) + 2;
            add(
                &State {
                    count,
                    ..state.clone()
                },
                samples,
                false,
            );
            add(&State { count, ..state }, samples + 1, false);
        }
    }
    entries
}

/// Numbers of tolerances for a scan, with an output for each or none.
fn counts() -> Vec<Entry> {
    let mut entries: Vec<Entry> = Vec::new();
    for count in [0, 1, 2, 8, 15, 16, 17, 18, 32, 256, 257, 65_537] {
        let row = (!(1..=16).contains(&count)).then_some((19, 0));
        let input = Input {
            tolerances: vec![ratio(0, 1); count],
            scan_room: 8 * count,
            ..accepted()
        };
        entries.push((&[Scan], input.clone(), row));
        let short = Input {
            scan_room: input.scan_room.saturating_sub(1),
            ..input.clone()
        };
        let needed = (10, 8 * count as u64);
        entries.push((&[Scan], short, row.or(Some(needed))));
        // Later rows fail too: every tolerance, the gap limit and the room.
        let input = Input {
            tolerances: vec![ratio(0, 0); count],
            gap: 0,
            scan_room: 0,
            ..input
        };
        entries.push((&[Scan], input, row.or(Some((4, 0)))));
    }
    entries
}

fn tolerances() -> Vec<Entry> {
    const Q: u64 = 1_048_575;
    let ratios = [
        ((0, 1), true),
        ((0, Q), true),
        ((1, Q), true),
        ((65_535, 1), true),
        ((65_535 * Q, Q), true),
        ((65_535 * Q + 1, Q), false),
        ((65_536, 1), false),
        ((0, 0), false),
        ((0, Q + 1), false),
        ((1 << 40, 1 << 32), false),
    ];
    let cases = [
        (parts((65_535, 1), (65_535 * Q, Q)), true),
        (parts((65_535 * Q + 1, Q), (0, 1)), false),
        (parts((0, 1), (65_535 * Q + 1, Q)), false),
        (parts((0, 0), (0, 1)), false),
        (parts((0, 1), (0, 0)), false),
        (parts((0, Q + 1), (0, Q + 1)), false),
        (ratio(0, 1), true),
        (ratio(65_535 * 1_048_575, 1_048_575), true),
        (ratio(65_535 * 1_048_575 + 1, 1_048_575), false),
        (ratio(0, 0), false),
        (ratio(0, 1_048_576), false),
        (Tolerance::Counts(-0.0), true),
        (Tolerance::Counts(65_535.0), true),
        (Tolerance::Counts(65_535.015_625), false),
        (Tolerance::Counts(0.007_812_5), false),
        (Tolerance::Counts(f64::NAN), false),
        (noise(1_023.0, 63.0), true),
        (noise(1_023.0, 63.125), false),
        (noise(f64::INFINITY, 0.0), false),
        (noise(0.0, -0.125), false),
    ];
    let entry = |(tolerance, allowed): (_, bool)| {
        let input = Input {
            tolerance,
            ..accepted()
        };
        (TOLERANCES, input, (!allowed).then_some((4, 0)))
    };
    let mut entries = cases.map(entry).to_vec();
    // Each two of these ratios as parts, above and below. Pedestals take them if they are equal.
    for (above, good) in ratios {
        for (below, also) in ratios {
            let input = Input {
                tolerance: parts(above, below),
                size: 30,
                ..accepted()
            };
            let row = (!good || !also).then_some((4, 0));
            entries.push((UNEQUAL, input.clone(), row));
            let equal = good && also && above.0 * below.1 == below.0 * above.1;
            entries.push((&[Pedestals], input, (!equal).then_some((4, 0))));
        }
    }
    // Every position of a scan; the first of several, with later rows that fail too.
    let unequal = [parts((0, 1), (65_535 * Q, Q)), parts((65_535, 1), (1, Q))];
    let cases = cases.into_iter().chain(unequal.map(|parts| (parts, true)));
    for (tolerance, allowed) in cases {
        for position in 0..16 {
            let row = (!allowed).then_some((4, position as u64));
            let mut input = Input {
                tolerances: vec![ratio(0, 1); 16],
                scan_room: 16 * 8,
                ..accepted()
            };
            input.tolerances[position] = tolerance;
            entries.push((&[Scan], input.clone(), row));
            if !allowed {
                input.tolerances[position..].fill(tolerance);
                input.gap = 0;
                input.scan_room = 0;
                entries.push((&[Scan], input, row));
            }
        }
    }
    entries
}

fn gaps() -> Vec<Entry> {
    let mut entries: Vec<Entry> = Vec::new();
    for (gap, allowed) in [
        (0, false),
        (1, true),
        (2, true),
        (GAP_MAX - 1, true),
        (GAP_MAX, true),
        (GAP_MAX + 1, false),
        (1 << 24 | 1, false),
        (1 << 31, false),
        (u32::MAX, false),
    ] {
        let row = (!allowed).then_some((15, 0));
        let input = Input { gap, ..accepted() };
        entries.push((GAPS, input.clone(), row));
        if !allowed {
            // Later rows fail too: the allowance, the list, its links and the room.
            let mut input = Input {
                allowance: 0,
                rooms: (0, 0),
                scan_room: 0,
                size: 0,
                ..input
            };
            input.values[3] = 9;
            entries.push((GAPS, input.clone(), row));
            input.list.clear();
            entries.push((GAPS, input, row));
        }
    }
    entries
}

/// Allowances, and the lengths of traces for least.
fn allowances() -> Vec<Entry> {
    let mut entries: Vec<Entry> = Vec::new();
    for (allowance, allowed) in [
        (0, false),
        (1, false),
        (2, true),
        (8, true),
        (4_096, true),
        (4_097, false),
        (1 << 32 | 2, false),
        (u64::MAX, false),
    ] {
        let input = Input {
            allowance,
            ..accepted()
        };
        entries.push((&[Least], input, (!allowed).then_some((5, 0))));
    }
    for samples in [0, 1, 2, 255, 256, 257, 4_096, 4_097] {
        let allowed = (1..=256).contains(&samples);
        let input = Input {
            ticks: (0..samples as u32).collect(),
            values: vec![7; samples],
            rooms: (samples, 0),
            ..accepted()
        };
        entries.push((&[Least], input, (!allowed).then_some((1, 0))));
    }
    entries
}

/// Steps, a gap limit, and the fewest samples of a kept list that obeys it: with so many as the allowance
/// nothing is refused, with one less every list is too long.
fn holes() -> Vec<Entry> {
    let longest: &[u32] = &[2; 255];
    let cases: [(&[u32], u32, u64); 20] = [
        // None, or a single step.
        (&[], 1, 2),
        (&[1], 1, 2),
        (&[GAP_MAX], 1, 2),
        (&[GAP_MAX], GAP_MAX - 1, 2),
        // No hole, and steps that are exactly the gap limit.
        (&[5, 5, 5, 5], 5, 2),
        (&[1, 1, 1, 1], GAP_MAX, 2),
        // One hole: at the first step, at the last and between.
        (&[6, 5, 5, 5], 5, 3),
        (&[5, 5, 5, 6], 5, 3),
        (&[5, 6, 5, 5], 5, 4),
        (&[6, 5], 5, 3),
        (&[5, 6], 5, 3),
        (&[1, 1, 1_048_572, 1], 1_048_571, 4),
        // Two holes: in a row, with one sample between them, and with two.
        (&[5, 6, 6, 5], 5, 5),
        (&[5, 6, 5, 6, 5], 5, 6),
        (&[5, 6, 5, 5, 6, 5], 5, 6),
        (&[6, 5, 5, 5, 6], 5, 4),
        (&[6, 6, 5, 5, 5], 5, 4),
        // Every step.
        (&[6, 6], 5, 3),
        (&[2, 3, 2, 9, 2], 1, 6),
        (longest, 1, 256),
    ];
    let mut entries: Vec<Entry> = Vec::new();
    for (steps, gap, fewest) in cases {
        let mut ticks = vec![7];
        for step in steps {
            ticks.push(ticks[ticks.len() - 1] + step);
        }
        let samples = ticks.len();
        for allowance in [fewest - 1, fewest, fewest + 1, 4_096] {
            let enough = allowance >= fewest;
            // An allowance of 1 is never allowed.
            let number = if allowance == 1 { 5 } else { 16 };
            for room in [0, samples] {
                let short = (room == 0).then_some((10, samples as u64));
                let input = Input {
                    ticks: ticks.clone(),
                    values: (0..samples as i16).map(|k| k % 7).collect(),
                    gap,
                    allowance,
                    rooms: (room, 0),
                    ..accepted()
                };
                let row = if enough { short } else { Some((number, 0)) };
                entries.push((&[Least], input, row));
            }
        }
    }
    entries
}

/// Two samples, of the trace and not: equal, the wrong way round, and beyond it, also by so much that they
/// are samples of it if cut to 16 or 32 bits, or if one is added.
fn pairs() -> Vec<Entry> {
    const MAX: usize = usize::MAX;
    let mut entries: Vec<Entry> = Vec::new();
    let mut add = |samples: usize, i: usize, j: usize, value: Option<u64>| {
        let input = Input {
            ticks: (0..samples as u32).collect(),
            values: vec![0; samples],
            link: (i, j),
            ..accepted()
        };
        entries.push((&[Measure], input.clone(), value.map(|value| (6, value))));
        if samples == 8 {
            // Each earlier row fails too.
            let mut short = input.clone();
            short.values.pop();
            entries.push((&[Measure], short, Some((1, 0))));
            let mut equal = input.clone();
            equal.ticks[1] = 0;
            entries.push((&[Measure], equal, Some((2, 1))));
            let mut long = input;
            long.ticks[7] = 1_048_576;
            entries.push((&[Measure], long, Some((3, 7))));
        }
    };
    for samples in [1, 2, 3, 8, 4_095, 4_096] {
        let last = samples - 1;
        // Beyond the trace of so many samples.
        let beyond = [
            samples,
            samples + 1,
            1 << 16,
            1 << 16 | last,
            1 << 32,
            1 << 32 | last,
            1 << 63,
            MAX - last,
            MAX - 1,
            MAX,
        ];
        for far in beyond {
            for i in [0, last / 2, last] {
                add(samples, far, i, Some(0));
                add(samples, i, far, Some(1));
            }
            for other in beyond {
                add(samples, far, other, Some(0));
            }
        }
        for i in [0, last / 2, last] {
            add(samples, i, i, Some(1));
        }
        if last > 0 {
            add(samples, 0, last, None);
            add(samples, last - 1, last, None);
            add(samples, 0, 1, None);
            add(samples, last, 0, Some(1));
            add(samples, last, last - 1, Some(1));
        }
    }
    entries
}

fn lists() -> Vec<Entry> {
    let cases: [(&[u16], Option<u64>); 27] = [
        (&[0, 5], None),
        (&[0, 2, 5], None),
        (&[0, 1, 2, 3, 4, 5], None),
        // Empty.
        (&[], Some(0)),
        // A first entry that is not 0.
        (&[1, 5], Some(0)),
        (&[5], Some(0)),
        (&[6], Some(0)),
        (&[u16::MAX, 5], Some(0)),
        // Equal neighbours.
        (&[0, 0, 5], Some(1)),
        (&[0, 2, 2, 5], Some(2)),
        (&[0, 2, 5, 5], Some(3)),
        // Falling.
        (&[0, 3, 2, 5], Some(2)),
        (&[0, 5, 0], Some(2)),
        (&[0, 5, 4, 5], Some(2)),
        // Beyond the trace.
        (&[0, 6], Some(1)),
        (&[0, 2, 4_096], Some(2)),
        (&[0, 5, 6], Some(2)),
        (&[0, u16::MAX], Some(1)),
        // Stops short.
        (&[0], Some(1)),
        (&[0, 4], Some(2)),
        (&[0, 1, 2, 3, 4], Some(5)),
        // Several faults.
        (&[1, 1, 0, 6], Some(0)),
        (&[0, 6, 6], Some(1)),
        (&[0, 6, 5], Some(1)),
        (&[0, 3, 3, 4], Some(2)),
        (&[0, 2, 1, 6], Some(2)),
        (&[0, 1, 2, 3, 4, 5, 6, 6, 0], Some(6)),
    ];
    let mut entries: Vec<Entry> = Vec::new();
    for (list, position) in cases {
        let row = position.map(|position| (6, position));
        let input = Input {
            ticks: (0..6).collect(),
            values: vec![0; 6],
            list: list.to_vec(),
            size: 50,
            ..accepted()
        };
        entries.push((LISTS, input.clone(), row));
        if row.is_some() {
            // Invalid links before the bad entry do not matter, nor does the room.
            let values = vec![0, 9, 0, 8, 1, 9];
            let mut input = Input {
                values,
                size: 0,
                ..input
            };
            entries.push((LISTS, input.clone(), row));
            // Nor do holes.
            input.ticks.iter_mut().for_each(|tick| *tick *= 2);
            entries.push((LISTS, input, row));
        }
        // List 1 before list 2; ticks, sums and the room fail too.
        for (other, second) in cases {
            let row = position.or(second).map(|position| (6, position));
            let mut summands = [list, other].map(|list| Summand {
                trace: Trace {
                    ticks: (0..6).collect(),
                    values: vec![i16::MAX; 6],
                },
                list: list.to_vec(),
            });
            summands[1].trace.ticks[5] += 1;
            let input = Input {
                summands,
                rooms: (0, 0),
                ..accepted()
            };
            entries.push((&[Sum], input, row.or(Some((17, 5)))));
        }
    }
    entries.extend(lists_of_the_shortest_and_longest_traces());
    entries
}

fn lists_of_the_shortest_and_longest_traces() -> Vec<Entry> {
    let one: [(&[u16], Option<Row>); 5] = [
        (&[0], None),
        (&[], Some((6, 0))),
        (&[1], Some((6, 0))),
        (&[0, 0], Some((6, 1))),
        (&[0, 1], Some((6, 1))),
    ];
    let shortest = one.map(|(list, row)| {
        let input = Input {
            ticks: vec![u32::MAX],
            values: vec![-1],
            list: list.to_vec(),
            ..accepted()
        };
        (LISTS, input, row)
    });
    let most = [
        (4_096, None),
        (4_095, Some((6, 4_095))),
        (4_097, Some((6, 4_096))),
        (65_536, Some((6, 4_096))),
    ];
    let longest = most.map(|(length, row)| {
        let input = Input {
            ticks: (0..4_096).collect(),
            values: (0..4_096).map(|k| k * 7 % 50).collect(),
            list: (0..=u16::MAX).take(length).collect(),
            size: 24_589,
            ..accepted()
        };
        (LISTS, input, row)
    });
    let mut entries = [shortest.to_vec(), longest.to_vec()].concat();
    for (_, input, row) in entries.clone() {
        let samples = input.ticks.len();
        let one = Summand {
            trace: Trace {
                ticks: input.ticks,
                values: input.values,
            },
            list: input.list,
        };
        let mut other = one.clone();
        other.list = vec![0, samples as u16 - 1];
        other.list.dedup();
        entries.extend(either_way(&one, &other, samples, row));
    }
    entries
}

/// A trace of so many samples with ticks that rise by two, kept at its two ends.
fn plain(samples: usize) -> Summand {
    let mut list = vec![0, samples as u16 - 1];
    list.dedup();
    Summand {
        trace: Trace {
            ticks: (0..samples as u32).map(|k| 5 + 2 * k).collect(),
            values: vec![0; samples],
        },
        list,
    }
}

/// Ticks that differ, and samples that one of two traces does not have. Later rows fail too: the sums at both
/// ends of the trace and the room.
fn mismatches() -> Vec<Entry> {
    let mut entries: Vec<Entry> = Vec::new();
    for samples in [1, 2, 3, 8, 4_095, 4_096] {
        let last = samples - 1;
        let mut one = plain(samples);
        (one.trace.values[0], one.trace.values[last]) = (i16::MIN, i16::MIN);
        let mut add = |other: &Summand, sample: usize| {
            let row = Some((17, sample as u64));
            entries.extend(either_way(&one, other, samples, row));
            entries.extend(either_way(&one, other, 0, row));
        };
        // All ticks from a sample on, that tick alone, and it and the last.
        for at in [0, 1, last / 2, last.saturating_sub(1), last] {
            if at > last {
                continue;
            }
            let mut other = one.clone();
            other.trace.ticks[at..]
                .iter_mut()
                .for_each(|tick| *tick += 1);
            add(&other, at);
            let mut other = one.clone();
            other.trace.ticks[at] += 1;
            add(&other, at);
            other.trace.ticks[last] += 1;
            add(&other, at);
        }
        // Fewer samples, alone and with a first or a last tick that differs.
        for fewer in [1, last / 2, last.saturating_sub(1), last] {
            if fewer == 0 || fewer > last {
                continue;
            }
            let mut other = plain(fewer);
            other.trace.values[0] = i16::MIN;
            add(&other, fewer);
            other.trace.ticks[fewer - 1] += 1;
            add(&other, fewer - 1);
            other.trace.ticks[0] = 4;
            add(&other, 0);
        }
        // The other trace's length does not matter to a list: one beyond its own, and one that stops short.
        if last > 1 {
            let mut other = plain(last);
            other.list = one.list.clone();
            entries.extend(either_way(&one, &other, 0, Some((6, 1))));
            let mut short = one.clone();
            short.list = plain(last).list;
            let row = Some((6, short.list.len() as u64));
            entries.extend(either_way(&short, &plain(last), 0, row));
        }
    }
    entries
}

/// Sums at the ends of the range and beyond it, and outputs for them.
fn overflows() -> Vec<Entry> {
    const MIN: i16 = i16::MIN;
    const MAX: i16 = i16::MAX;
    let cases = [
        (MAX, 0, true),
        (MIN, 0, true),
        (MAX - 1, 1, true),
        (MIN + 1, -1, true),
        (MAX, -1, true),
        (MIN, 1, true),
        (MIN, MAX, true),
        (16_383, 16_384, true),
        (-16_384, -16_384, true),
        (MAX, 1, false),
        (MIN, -1, false),
        (16_384, 16_384, false),
        (-16_385, -16_384, false),
        (MAX, MAX, false),
        (MIN, MIN, false),
    ];
    let mut entries: Vec<Entry> = Vec::new();
    for (samples, at) in [
        (1, 0),
        (2, 0),
        (2, 1),
        (8, 0),
        (8, 3),
        (8, 7),
        (4_096, 0),
        (4_096, 2_049),
        (4_096, 4_095),
    ] {
        for (value, other, within) in cases {
            let mut pair = [(); 2].map(|_| plain(samples));
            pair[0].trace.values[at] = value;
            pair[1].trace.values[at] = other;
            let [one, two] = &pair;
            let beyond = (!within).then_some((18, at as u64));
            let short = Some((10, samples as u64));
            entries.extend(either_way(one, two, samples, beyond));
            entries.extend(either_way(one, two, 0, beyond.or(short)));
            // One entry too few in either output, and as few as the joined list has samples.
            let kept = one.list.len();
            for rooms in [
                (samples - 1, samples),
                (samples, samples - 1),
                (samples, kept),
            ] {
                let enough = rooms.1 >= samples && rooms.0 >= samples;
                let input = Input {
                    summands: pair.clone(),
                    rooms,
                    ..accepted()
                };
                let row = if enough { beyond } else { beyond.or(short) };
                entries.push((&[Sum], input, row));
            }
            // The first of several.
            let mut pair = pair.clone();
            for summand in &mut pair {
                summand.trace.values[at + 1..].fill(MIN);
            }
            let [one, two] = &pair;
            let next = (at + 1 < samples).then_some((18, at as u64 + 1));
            entries.extend(either_way(one, two, samples, beyond.or(next)));
        }
    }
    entries
}

/// Of several invalid links the writer names the first.
fn links() -> Vec<Entry> {
    let mut entries: Vec<Entry> = Vec::new();
    for (p, link) in [
        (0, Some(0)),
        (1, Some(1)),
        (2, Some(2)),
        (3, Some(3)),
        (4, None),
    ] {
        let row = link.map(|link| (7, link));
        for (size, room) in [(31, None), (30, Some((10, 31))), (0, Some((10, 31)))] {
            let input = Input {
                ticks: (0..9).collect(),
                values: vec![0, 1, 0, 2, 0, 3, 0, 4, 0],
                list: vec![0, 2, 4, 6, 8],
                tolerance: ratio(p, 1),
                size,
                ..accepted()
            };
            entries.push((&[Write], input, row.or(room)));
        }
    }
    // Samples above the lines and below them in turn: the part of the other side does not matter.
    for (above, below, link) in [
        (0, 4, Some(0)),
        (4, 0, Some(1)),
        (1, 4, Some(2)),
        (4, 2, Some(3)),
        (3, 3, Some(3)),
        (3, 4, None),
    ] {
        let row = link.map(|link| (7, link));
        let bytes = if above == below { 31 } else { 39 };
        let short = Some((10, bytes as u64));
        for (size, room) in [(bytes, None), (bytes - 1, short), (0, short)] {
            let input = Input {
                ticks: (0..9).collect(),
                values: vec![0, 1, 0, -2, 0, 3, 0, -4, 0],
                list: vec![0, 2, 4, 6, 8],
                tolerance: parts((above, 1), (below, 1)),
                size,
                ..accepted()
            };
            entries.push((&[Write], input, row.or(room)));
        }
    }
    // Every link crosses a hole, of 2 ticks in the first to 5 in the last.
    for (gap, link) in [
        (1, Some(0)),
        (2, Some(1)),
        (3, Some(2)),
        (4, Some(3)),
        (5, None),
    ] {
        let row = link.map(|link| (7, link));
        for (size, room) in [(31, None), (30, Some((10, 31)))] {
            let input = Input {
                ticks: vec![0, 1, 3, 4, 7, 8, 12, 13, 18],
                values: vec![0; 9],
                list: vec![0, 2, 4, 6, 8],
                gap,
                size,
                ..accepted()
            };
            entries.push((&[Write], input, row.or(room)));
        }
    }
    entries
}

fn records() -> Vec<Entry> {
    let whole = accepted().record;
    let cases: [(&[u8], &[u8], Option<Row>); 8] = [
        (&whole, &whole, None),
        (&whole[..18], &whole[..18], Some((8, 16))),
        (&whole[..18], &whole, Some((8, 16))),
        (&whole, &whole[..18], Some((9, 16))),
        (&whole[..18], &whole[..20], Some((8, 16))),
        (&whole[..20], &whole[..18], Some((8, 19))),
        (&[], &[], Some((8, 0))),
        (&whole, &[], Some((9, 0))),
    ];
    let entry = |(record, second, row): (&[u8], &[u8], _)| -> Entry {
        let input = Input {
            record: record.to_vec(),
            second: second.to_vec(),
            ..accepted()
        };
        (&[Same], input, row)
    };
    let mut entries = cases.map(entry).to_vec();
    // Unequal parts take 8 bytes more, in one record or in both. Bad ones, above or below, and equal ones are
    // faulty at byte 0, as is a record that is cut there.
    let parted = |above, below| [&unequal(above, below), &whole[9..]].concat();
    let other = parted((1, 2), (1, 3));
    let exchanged = parted((1, 3), (1, 2));
    entries.extend([
        entry((&other, &other, None)),
        entry((&other, &exchanged, None)),
        entry((&other, &whole, None)),
        entry((&whole, &other, None)),
        entry((&other[..26], &other, Some((8, 24)))),
        entry((&other, &other[..26], Some((9, 24)))),
        entry((&other[..26], &whole[..18], Some((8, 24)))),
        entry((&whole[..18], &other[..26], Some((8, 16)))),
        entry((&other[..16], &whole, Some((8, 0)))),
        entry((&whole, &other[..16], Some((9, 0)))),
        entry((&other[..17], &whole, Some((8, 17)))),
    ]);
    for bad in [(1, 2), (2, 4), (1, 0), (65_536, 1), (1, 1_048_576)] {
        for record in [parted((1, 2), bad), parted(bad, (1, 2)), parted(bad, bad)] {
            entries.push(entry((&record, &whole, Some((8, 0)))));
            entries.push(entry((&whole, &record, Some((9, 0)))));
            entries.push(entry((&record, &record, Some((8, 0)))));
            let input = Input {
                record,
                rooms: (0, 0),
                ..accepted()
            };
            entries.push((&[Read], input, Some((8, 0))));
        }
    }
    entries
}

/// The limits of a crate: for report, and those that are refused for pedestals, in either run or in both.
fn crates() -> Vec<Entry> {
    const MAX: usize = usize::MAX;
    const HALF: usize = MAX / 2 + 1;
    let mut entries: Vec<Entry> = Vec::new();
    let mut add = |lengths: &[usize], ticks: u32, values: usize, allowed: bool| {
        let channels = Channels {
            ticks: (0..ticks).collect(),
            values: vec![0; values],
            lengths: lengths.to_vec(),
        };
        let input = Input {
            ticks: channels.ticks.clone(),
            values: channels.values.clone(),
            lengths: channels.lengths.clone(),
            rooms: (64, 0),
            ..accepted()
        };
        entries.push((&[Report], input.clone(), (!allowed).then_some((11, 0))));
        if !allowed {
            // Later rows fail too.
            let input = Input {
                tolerance: ratio(0, 0),
                gap: 0,
                rooms: (0, 0),
                ..input
            };
            entries.push((&[Report], input.clone(), Some((11, 0))));
            let good = accepted().today;
            for (today, before) in [
                (&channels, &good),
                (&good, &channels),
                (&channels, &channels),
            ] {
                let input = Input {
                    today: today.clone(),
                    before: before.clone(),
                    ..input.clone()
                };
                entries.push((&[Pedestals], input, Some((11, 0))));
            }
        }
    };
    // The number of channels.
    for (channels, allowed) in [(0, false), (1, true), (63, true), (64, true), (65, false)] {
        add(&vec![1; channels], channels as u32, channels, allowed);
        add(&vec![0; channels], 0, 0, allowed);
    }
    // What is wrong with a channel is said in its summary.
    for length in [0, 1, 2, 4_096, 4_097, 70_000] {
        add(&[length], length as u32, length, true);
        add(&[length, 1], length as u32 + 1, length + 1, true);
        add(&[1, length], length as u32 + 1, length + 1, true);
        // The list of ticks, of values, and both.
        add(&[length], length as u32 + 1, length, false);
        add(&[length], length as u32, length + 1, false);
        add(&[length], length as u32 + 1, length + 1, false);
        add(&[length + 1], length as u32, length, false);
    }
    // Each length, and their sum, beyond what the lists may have.
    for lengths in [
        &[MAX][..],
        &[MAX, 9],
        &[9, MAX],
        &[HALF, HALF, 8],
        &[8, HALF, HALF],
        &[MAX - 7, 16],
        &[8, 1 << 32],
    ] {
        add(lengths, 8, 8, false);
    }
    add(&[MAX; 64], 0, 0, false);
    // The sum is 2^64.
    add(&[1 << 58; 64], 0, 0, false);
    entries
}

/// A fault of a channel of two runs: the run, 0 for today's, the channel, the number, and its ticks.
type ChannelFault = (usize, usize, u32, Vec<u32>);

/// Two pedestal runs, each by itself a crate: unequal channel counts, and faults of channels.
fn runs() -> Vec<Entry> {
    let mut entries: Vec<Entry> = Vec::new();
    // Unequal channel counts; later rows fail too.
    for lengths in [
        &[24][..],
        &[3, 3, 3, 3, 3, 3, 6],
        &[3, 3, 3, 3, 3, 3, 3, 3, 0],
    ] {
        let mut input = Input {
            tolerance: ratio(0, 0),
            rooms: (0, 0),
            ..accepted()
        };
        input.today.lengths = lengths.to_vec();
        entries.push((&[Pedestals], input.clone(), Some((11, 0))));
        std::mem::swap(&mut input.today, &mut input.before);
        entries.push((&[Pedestals], input, Some((11, 0))));
    }
    // 13 is a sample fewer today, or one more before.
    let mut faults: Vec<ChannelFault> = Vec::new();
    for (run, channel) in [(0, 0), (0, 1), (0, 2), (1, 0), (1, 1), (1, 2)] {
        for (number, ticks) in [
            (1, vec![]),
            (1, (0..4_097).collect()),
            (2, vec![0, 1, 1, 3]),
            (2, vec![0, 1_048_576, 1_048_577, 1_048_577]),
            (3, vec![0, 1, 2, 1_048_576]),
            (13, (0..[3, 5][run]).collect()),
        ] {
            faults.push((run, channel, number, ticks));
        }
    }
    // One fault, and any two. The first channel is named; of a channel today's own number comes first,
    // then that of the run before, then 13.
    let place =
        |&(run, channel, number, _): &ChannelFault| (channel, if number == 13 { 2 } else { run });
    for (k, one) in faults.iter().enumerate() {
        for two in &faults[k..] {
            if (one.0, one.1) == (two.0, two.1) && one != two {
                continue;
            }
            let mut runs = [[(); 3], [(); 3]].map(|run| run.map(|_| vec![0, 1, 2, 1_048_575]));
            for (run, channel, _, ticks) in [one, two] {
                runs[*run][*channel] = ticks.clone();
            }
            let [today, before] = runs.map(|run| {
                let traces = run.map(|ticks| Trace {
                    values: vec![0; ticks.len()],
                    ticks,
                });
                crate_of(&traces)
            });
            let (_, channel, number, _) = if place(one) <= place(two) { one } else { two };
            let input = Input {
                today,
                before,
                rooms: (0, 0),
                ..accepted()
            };
            let row = (*number, *channel as u64);
            entries.push((&[Pedestals], input, Some(row)));
        }
    }
    entries
}

fn factors() -> Vec<Entry> {
    let mut entries: Vec<Entry> = Vec::new();
    for (factor, allowed) in [
        (0, false),
        (1, true),
        (2, true),
        (16, true),
        (17, false),
        (1 << 32 | 2, false),
        (u64::MAX, false),
    ] {
        let input = Input {
            factor,
            ..accepted()
        };
        entries.push((&[Pedestals], input.clone(), (!allowed).then_some((14, 0))));
        // Later rows fail too.
        let input = Input {
            today: Channels::default(),
            tolerance: ratio(0, 0),
            rooms: (0, 0),
            ..input
        };
        let row = if allowed { (11, 0) } else { (14, 0) };
        entries.push((&[Pedestals], input, Some(row)));
    }
    entries
}

fn rooms() -> Vec<Entry> {
    let rooms = |calls, rooms, enough: bool| -> Entry {
        let input = Input {
            rooms,
            ..accepted()
        };
        (calls, input, (!enough).then_some((10, 8)))
    };
    let places = |size, place, enough: bool| -> Entry {
        let input = Input {
            size,
            place,
            ..accepted()
        };
        (&[Write], input, (!enough).then_some((10, 22)))
    };
    let scans = |scan_room, enough: bool| -> Entry {
        let input = Input {
            scan_room,
            ..accepted()
        };
        (&[Scan], input, (!enough).then_some((10, 24)))
    };
    vec![
        rooms(OUTPUTS, (8, 8), true),
        rooms(OUTPUTS, (9, 8), true),
        rooms(OUTPUTS, (7, 9), false),
        rooms(OUTPUTS, (0, 0), false),
        rooms(TWO_OUTPUTS, (8, 9), true),
        rooms(TWO_OUTPUTS, (8, 7), false),
        rooms(TWO_OUTPUTS, (9, 0), false),
        places(23, 1, true),
        places(22, 1, false),
        places(0, 0, false),
        // A place past the end counts as an empty part.
        places(22, 23, false),
        places(22, usize::MAX, false),
        scans(24, true),
        scans(25, true),
        scans(32, true),
        scans(23, false),
        scans(16, false),
        scans(8, false),
        scans(0, false),
    ]
}

/// Numbers, values and words.
#[test]
fn numbers() {
    let channel = |number, channel| Refusal::Channel { number, channel };
    let cases = [
        (Refusal::Length, 1, 0),
        (Refusal::Tick(21), 2, 21),
        (Refusal::Span(31), 3, 31),
        (Refusal::View, 20, 0),
        (Refusal::Count, 19, 0),
        (Refusal::Tolerance, 4, 0),
        (Refusal::ToleranceAt(0), 4, 0),
        (Refusal::ToleranceAt(15), 4, 15),
        (Refusal::Gap, 15, 0),
        (Refusal::Allowance, 5, 0),
        (Refusal::Holes, 16, 0),
        (Refusal::List(61), 6, 61),
        (Refusal::Mismatch(171), 17, 171),
        (Refusal::Overflow(181), 18, 181),
        (Refusal::Link(71), 7, 71),
        (Refusal::Record(81), 8, 81),
        (Refusal::SecondRecord(91), 9, 91),
        (Refusal::Room(101), 10, 101),
        (Refusal::Crate, 11, 0),
        (Refusal::Table(0), 12, 0),
        (Refusal::Table(121), 12, 121),
        (channel(1, 17), 1, 17),
        (channel(2, 27), 2, 27),
        (channel(3, 37), 3, 37),
        (Refusal::Samples(131), 13, 131),
        (Refusal::Factor, 14, 0),
    ];
    for (refusal, number, returned) in cases {
        assert_eq!((refusal.number(), refusal.returned()), (number, returned));
        let words = refusal.to_string();
        assert!(
            returned == 0 || words.contains(&returned.to_string()),
            "{words}"
        );
    }
    for (refusal, part) in [
        (Refusal::View, "k of a view is above 32"),
        (Refusal::View, "its state is no view of the earlier samples"),
        (Refusal::Count, "no tolerances, or more than 16"),
        (Refusal::ToleranceAt(3), "the tolerance at position 3"),
        (Refusal::Gap, "the gap limit is below 1 or above 1,048,575"),
        (
            Refusal::Holes,
            "every list that obeys the gap limit has more samples than the allowance",
        ),
        (
            Refusal::List(1),
            "two samples that are no link of the trace",
        ),
        (Refusal::Mismatch(4), "the ticks of sample 4 differ"),
        (
            Refusal::Overflow(4),
            "sample 4 is below -32,768 or above 32,767",
        ),
        (Refusal::Table(0), "256 values"),
        (channel(1, 5), "channel 5: no samples"),
        (channel(2, 5), "channel 5: a tick"),
        (channel(3, 5), "channel 5: the span"),
    ] {
        let words = refusal.to_string();
        assert!(words.contains(part), "{words}");
    }
}

#[test]
fn faults_at_random() {
    let random = &mut Random::new(3);
    (0..20_000).for_each(|_| random_faults(random));
    for &call in TRACES {
        let counts = call.counts();
        let seen = |row: u32| counts[row as usize] > 50;
        assert!(
            seen(0) && call.rows().iter().all(|&row| seen(row)),
            "{call:?} {counts:?}"
        );
    }
}
