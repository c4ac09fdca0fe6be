use kovrelna::{Tolerance, GAP_MAX};
use kovrelna_evidence::compare::{
    expand, expand_with, hold, judge, least, measure, noise, parts, pedestals, ratio, read, reduce,
    report, same, scan, sum, write,
};
use kovrelna_reference::generate::{crate_of, Trace};
use kovrelna_reference::record::{end, first, long, short, tolerance, unequal, Content};
use kovrelna_reference::sums::{Sum, Summand};
use kovrelna_reference::Side::{Above, Below, Gap, On};
use kovrelna_reference::{list_error, Fraction, Invalid, Method, Parts, Reduced, METHODS};

use crate::{invalid, measure_of};

const EVEN: [u32; 5] = [0, 1, 2, 3, 4];
const ZIGZAG: [i16; 5] = [0, 3, 0, 3, 0];
const WAVE: [i16; 5] = [0, 2, 0, -2, 0];

#[test]
fn lists() {
    let all: &[u16] = &[0, 1, 2, 3, 4];
    type Case<'a> = (&'a [i16; 5], &'a [u16], Tolerance, Option<Invalid>);
    let cases: [Case; 16] = [
        // Tolerance 2: what walk and gallop keep, the minimum, and what it avoids.
        (&ZIGZAG, all, ratio(2, 1), None),
        (&ZIGZAG, &[0, 3, 4], ratio(2, 1), None),
        (
            &ZIGZAG,
            &[0, 2, 3, 4],
            ratio(2, 1),
            Some(invalid(0, (3, 1), 1, Above)),
        ),
        (&ZIGZAG, &[0, 1, 4], ratio(2, 1), None),
        (
            &ZIGZAG,
            &[0, 1, 3, 4],
            ratio(2, 1),
            Some(invalid(1, (3, 1), 2, Below)),
        ),
        (
            &ZIGZAG,
            &[0, 1, 2, 4],
            ratio(2, 1),
            Some(invalid(2, (3, 1), 3, Above)),
        ),
        (
            &ZIGZAG,
            &[0, 4],
            ratio(2, 1),
            Some(invalid(0, (3, 1), 1, Above)),
        ),
        // Tolerance 3, in all forms.
        (&ZIGZAG, &[0, 4], ratio(3, 1), None),
        (&ZIGZAG, &[0, 4], Tolerance::Counts(3.0), None),
        (&ZIGZAG, &[0, 4], noise(1.5, 2.0), None),
        // The least errors are 3/1, 2/1 and 0/1: just below them the lists fail.
        (
            &ZIGZAG,
            &[0, 4],
            ratio(3 * 1_048_575 - 1, 1_048_575),
            Some(invalid(0, (3, 1), 1, Above)),
        ),
        (
            &ZIGZAG,
            &[0, 3, 4],
            ratio(2 * 1_048_575 - 1, 1_048_575),
            Some(invalid(0, (2, 1), 1, Above)),
        ),
        (&ZIGZAG, all, ratio(0, 1), None),
        // The fourth figure.
        (&WAVE, &[0, 2, 4], ratio(2, 1), None),
        (&WAVE, &[0, 4], ratio(2, 1), None),
        (
            &WAVE,
            &[0, 2, 4],
            Tolerance::Counts(1.984_375),
            Some(invalid(0, (2, 1), 1, Above)),
        ),
    ];
    for (values, list, tolerance, expected) in cases {
        let answer = judge(&EVEN, values, list, tolerance);
        assert_eq!(answer, Ok(expected), "{values:?} {list:?} {tolerance:?}");
    }
}

#[test]
fn reductions() {
    use Method::{Gallop, Minimum, Walk};
    type Case<'a> = (&'a [i16; 5], u64, Method, &'a [u16], usize);
    let cases: [Case; 9] = [
        (&ZIGZAG, 2, Walk, &[0, 1, 2, 3, 4], 0),
        (&ZIGZAG, 2, Gallop, &[0, 1, 2, 3, 4], 4),
        (&ZIGZAG, 2, Minimum, &[0, 3, 4], 0),
        (&ZIGZAG, 3, Walk, &[0, 4], 0),
        (&ZIGZAG, 3, Gallop, &[0, 4], 5),
        (&ZIGZAG, 3, Minimum, &[0, 4], 0),
        (&WAVE, 2, Walk, &[0, 2, 4], 0),
        (&WAVE, 2, Gallop, &[0, 4], 5),
        (&WAVE, 2, Minimum, &[0, 4], 0),
    ];
    for (values, p, method, list, probes) in cases {
        let list = list.to_vec();
        for tolerance in [
            ratio(p, 1),
            ratio(6 * p, 6),
            Tolerance::Counts(p as f64),
            noise(p as f64 / 4.0, 4.0),
        ] {
            assert_eq!(
                reduce(method, &EVEN, values, tolerance, 5).as_ref(),
                Ok(&Reduced {
                    list: list.clone(),
                    probes
                }),
                "{values:?} {method:?} {tolerance:?}"
            );
        }
    }
}

#[test]
fn least_errors() {
    for (allowance, p, list) in [
        (2, 3, &[0, 4][..]),
        (3, 2, &[0, 3, 4]),
        (4, 2, &[0, 3, 4]),
        (5, 0, &[0, 1, 2, 3, 4]),
    ] {
        let least = least(&EVEN, &ZIGZAG, GAP_MAX, allowance, 5).unwrap();
        let error = Fraction { p, q: 1 };
        assert_eq!((least.error, &least.list[..]), (error, list), "{allowance}");
    }
}

/// The example of document 02, "Dropouts": six samples, of which the middle two lie 8 ticks apart.
#[test]
fn holes() {
    let (ticks, values) = ([0, 1, 2, 10, 11, 12], [0; 6]);
    for (gap, list, probes) in [(7, &[0, 2, 3, 5][..], 7), (8, &[0, 5], 5)] {
        for tolerance in [ratio(0, 1), Tolerance::Counts(2.5), noise(1_023.0, 63.0)] {
            let limits = tolerance.with_gap(gap);
            for method in METHODS {
                let probes = if method == Method::Gallop { probes } else { 0 };
                let list = list.to_vec();
                assert_eq!(
                    reduce(method, &ticks, &values, limits, 6),
                    Ok(Reduced { list, probes }),
                    "{method:?} {limits:?}"
                );
            }
            assert_eq!(judge(&ticks, &values, list, limits), Ok(None));
        }
    }
    let ends = judge(&ticks, &values, &[0, 5], ratio(0, 1).with_gap(7));
    assert_eq!(ends, Ok(Some(invalid(0, (0, 1), 2, Gap))));
    let least = |gap, allowance| least(&ticks, &values, gap, allowance, 6);
    assert_eq!(least(7, 2), Err((16, 0)));
    assert_eq!(least(7, 3), Err((16, 0)));
    for (gap, allowance, list) in [
        (7, 4, &[0, 2, 3, 5][..]),
        (7, 6, &[0, 2, 3, 5]),
        (8, 2, &[0, 5]),
    ] {
        let least = least(gap, allowance).unwrap();
        let error = Fraction { p: 0, q: 1 };
        assert_eq!((least.error, &least.list[..]), (error, list), "{gap}");
    }
}

/// A list that does not obey the gap limit may be shorter than those of walk and gallop and have a lesser
/// error than half the tolerance.
#[test]
fn a_shorter_list_that_does_not_obey() {
    let (ticks, values) = ([0, 2, 3], [0; 3]);
    let limits = ratio(0, 1).with_gap(1);
    for method in METHODS {
        let kept = reduce(method, &ticks, &values, limits, 3).unwrap().list;
        assert_eq!(kept, [0, 1, 2], "{method:?}");
    }
    assert_eq!(
        list_error(&ticks, &values, &[0, 2]),
        Fraction { p: 0, q: 1 }
    );
    let gap = invalid(0, (0, 1), 0, Gap);
    assert_eq!(judge(&ticks, &values, &[0, 2], limits), Ok(Some(gap)));
    assert_eq!(judge(&ticks, &values, &[0, 2], ratio(0, 1)), Ok(None));
}

#[test]
fn two_thirds() {
    assert_eq!(hold(ratio(4, 6)), Ok(Fraction { p: 2, q: 3 }.into()));
    let outside = Some(invalid(0, (2, 3), 1, Above));
    for (tolerance, expected) in [
        (ratio(4, 6), None),
        (ratio(2, 3), None),
        (ratio(665, 1000), outside),
        (ratio(667, 1000), None),
        (Tolerance::Counts(0.671_875), None),
        (Tolerance::Counts(0.656_25), outside),
    ] {
        let answer = judge(&[0, 1, 3], &[0, 1, 1], &[0, 2], tolerance);
        assert_eq!(answer, Ok(expected), "{tolerance:?}");
    }
}

/// Document 02, "Where the line strays".
#[test]
fn measures() {
    for (values, expected) in [
        ([0, 1, 1], measure_of(2, 3, 1, Above)),
        ([0, -1, -1], measure_of(2, 3, 1, Below)),
        ([0, 0, 0], measure_of(0, 1, 0, On)),
    ] {
        assert_eq!(measure(&[0, 1, 3], &values, 0, 2), Ok(expected));
    }
    for (values, i, j, expected) in [
        (&WAVE, 0, 4, measure_of(2, 1, 1, Above)),
        (&WAVE, 2, 4, measure_of(2, 1, 3, Below)),
        (&WAVE, 1, 4, measure_of(8, 3, 3, Below)),
        (&WAVE, 1, 3, measure_of(0, 1, 1, On)),
        (&WAVE, 3, 4, measure_of(0, 1, 3, On)),
        (&ZIGZAG, 0, 3, measure_of(2, 1, 1, Above)),
        (&ZIGZAG, 1, 4, measure_of(2, 1, 2, Below)),
    ] {
        assert_eq!(measure(&EVEN, values, i, j), Ok(expected), "{i} {j}");
    }
}

/// Document 02, "Summed channels": a joined list that is not within T1 + T2, and one at its bound. Its worst
/// link is from sample 1 to 3; the traces are within T1 and T2, and no less. In the last case the second trace
/// is within 2 above and 1 below; the error of the joined list is U1 + D1 + U2 + D2, so that it is not within
/// U1 + U2 above and D1 + D2 below.
#[test]
fn sums() {
    type Part<'a> = (&'a [i16], &'a [u16], (u64, u64));
    type Case<'a> = (Part<'a>, Part<'a>, Part<'a>);
    let cases: [Case; 3] = [
        (
            (&[0, 0, 1, 1], &[0, 3], (1, 3)),
            (&[0, -1, 0, 1], &[0, 1, 3], (0, 1)),
            (&[0, -1, 1, 2], &[0, 1, 3], (1, 2)),
        ),
        (
            (&[-6, -6, 0, 6, -6], &[0, 1, 3, 4], (0, 1)),
            (&[3, 4, 2, 4, 3], &[0, 4], (1, 1)),
            (&[-3, -2, 2, 10, -3], &[0, 1, 3, 4], (2, 1)),
        ),
        (
            (&[-6, -6, 0, 6, -6], &[0, 1, 3, 4], (0, 1)),
            (&[3, 5, 2, 5, 3], &[0, 4], (2, 1)),
            (&[-3, -1, 2, 11, -3], &[0, 1, 3, 4], (3, 1)),
        ),
    ];
    let two_and_one = parts((2, 1), (1, 1));
    let [.., (_, (second, list, _), (sums, joined, _))] = cases;
    assert_eq!(judge(&EVEN, second, list, two_and_one), Ok(None));
    let outside = judge(&EVEN, sums, joined, two_and_one);
    assert_eq!(outside, Ok(Some(invalid(1, (3, 1), 2, Below))));
    for (one, two, joined) in cases {
        let ticks = &EVEN[..one.0.len()];
        for (values, list, (p, q)) in [one, two, joined] {
            assert_eq!(judge(ticks, values, list, ratio(p, q)), Ok(None));
            let below = |k: u64| ratio((k * p).saturating_sub(1), k * q);
            let within = judge(ticks, values, list, below(1_000)) == Ok(None);
            assert_eq!(within, p == 0, "{values:?}");
        }
        let summand = |(values, list, _): Part| Summand {
            trace: Trace {
                ticks: ticks.to_vec(),
                values: values.to_vec(),
            },
            list: list.to_vec(),
        };
        let expected = Sum {
            values: joined.0.to_vec(),
            list: joined.1.to_vec(),
        };
        let rooms = (ticks.len(), ticks.len());
        let found = sum(&summand(one), &summand(two), rooms);
        assert_eq!(found, Ok(expected));
    }
}

#[test]
fn ticks() {
    for (ticks, expected) in [
        ([0, 1_048_575], Ok(None)),
        ([0, 1_048_576], Err((3, 1))),
        ([5, 5], Err((2, 1))),
    ] {
        let answer = judge(&ticks, &[0, 0], &[0, 1], ratio(0, 1));
        assert_eq!(answer, expected, "{ticks:?}");
    }
}

#[test]
fn record() {
    let record = vec![
        0x54, 0x00, 0x00, 0x00, 0x00, 0x02, 0x00, 0x00, 0x03, 0x41, 0x00, 0x00, 0x00, 0x00, 0x00,
        0x00, 0x53, 0x03, 0x01, 0x45, 0x00, 0x02,
    ];
    for tolerance in [ratio(2, 3), ratio(4, 6)] {
        let written = write(&[0, 1, 3], &[0, 1, 1], &[0, 2], tolerance, 22, 0);
        assert_eq!(written.as_ref(), Ok(&record));
    }
    let content = Content {
        tolerance: Fraction { p: 2, q: 3 }.into(),
        samples: vec![(0, 0), (3, 1)],
    };
    assert_eq!(read(&record, 2, 2), Ok(content));
}

/// Document 02, "Above and below": a record with unequal parts. With equal ones the earlier command is written,
/// and the other is faulty.
#[test]
fn record_with_parts() {
    let record = vec![
        0x42, 0x00, 0x00, 0x00, 0x00, 0x02, 0x00, 0x00, 0x03, 0x00, 0x00, 0x00, 0x00, 0x01, 0x00,
        0x00, 0x01, 0x41, 0x00, 0x00, 0x00, 0x00, 0x00, 0x00, 0x53, 0x03, 0x01, 0x45, 0x00, 0x02,
    ];
    let written = |tolerance| write(&[0, 3], &[0, 1], &[0, 1], tolerance, 30, 0);
    for tolerance in [parts((2, 3), (1, 1)), parts((4, 6), (5, 5))] {
        assert_eq!(written(tolerance).as_ref(), Ok(&record));
    }
    let content = Content {
        tolerance: Parts {
            above: Fraction { p: 2, q: 3 },
            below: Fraction { p: 1, q: 1 },
        },
        samples: vec![(0, 0), (3, 1)],
    };
    assert_eq!(read(&record, 2, 2), Ok(content));
    let one = written(ratio(1, 1)).unwrap();
    assert_eq!(written(parts((2, 2), (1, 1))).as_ref(), Ok(&one));
    assert_eq!((one.len(), one[0]), (22, 0x54));
    let equal = [&unequal((1, 1), (1, 1)), &record[17..]].concat();
    assert_eq!(read(&equal, 2, 2), Err((8, 0)));
    assert_eq!(same(&equal, &one), Err((8, 0)));
    assert_eq!(same(&one, &equal), Err((9, 0)));
    assert_eq!(same(&record, &one), Ok(false));
    // A missing end, one sample too many, and something after the end.
    for (bytes, fault) in [
        (record[..27].to_vec(), 27),
        ([&record[..27], &end(3)].concat(), 27),
        ([&record[..], &[0]].concat(), 30),
    ] {
        assert_eq!(read(&bytes, 2, 2), Err((8, fault)));
        let earlier = [&one[..9], &bytes[17..]].concat();
        assert_eq!(read(&earlier, 2, 2), Err((8, fault - 8)));
    }
}

/// The same of the reductions, at U 2 and D 1, and turned over at U 1 and D 2.
#[test]
fn reductions_with_parts() {
    let turned = WAVE.map(|value| -value);
    let list = vec![0, 2, 3, 4];
    for (values, tolerance) in [
        (WAVE, parts((2, 1), (1, 1))),
        (WAVE, parts((6, 3), (4, 4))),
        (turned, parts((1, 1), (2, 1))),
    ] {
        for method in METHODS {
            let probes = if method == Method::Gallop { 5 } else { 0 };
            let reduced = Reduced {
                list: list.clone(),
                probes,
            };
            let answer = reduce(method, &EVEN, &values, tolerance, 5);
            assert_eq!(answer, Ok(reduced), "{method:?} {tolerance:?}");
        }
        let scanned = scan(&EVEN, &values, &[tolerance], GAP_MAX, 5);
        assert_eq!(scanned, Ok(vec![list.clone()]));
        let channels = crate_of(&[Trace {
            ticks: EVEN.to_vec(),
            values: values.to_vec(),
        }]);
        let row = report(&channels, tolerance, 1).unwrap().channels[0];
        assert_eq!((row.kept, row.error), (4, Fraction { p: 2, q: 1 }));
    }
}

/// The same of judge: the sample that lies farthest from the line is named, also where it is within its own
/// part and another is not.
#[test]
fn a_sample_within_its_part() {
    let (ticks, values) = ([0, 1, 2, 3], [1, 0, 1, -1]);
    for (above, below, valid) in [(5, (0, 1), false), (5, (1, 3), true), (1, (1, 3), false)] {
        let answer = judge(&ticks, &values, &[0, 3], parts((above, 1), below));
        let outside = invalid(0, (4, 3), 2, Above);
        assert_eq!(answer, Ok((!valid).then_some(outside)), "{above} {below:?}");
    }
}

/// The same of the size of greedy lists: the list of both ends, with the most that a sample lies above and
/// below its line, is shorter than both where it is within half of each part, where these are together at most
/// the larger part, and where each is at most the smaller.
#[test]
fn tempting_size_bounds() {
    type Case<'a> = (
        &'a [i16],
        [(u64, u64); 2],
        &'a [u16],
        [(u64, u64); 2],
        [(u64, u64); 2],
    );
    let cases: [Case; 3] = [
        // The values, the parts, the greedy lists, the parts of the list of both ends, and what they are within.
        (
            &[1, 1, 0, 1],
            [(0, 1), (3, 1)],
            &[0, 1, 3],
            [(0, 1), (1, 1)],
            [(0, 1), (3, 2)],
        ),
        (
            &[1, 1, -1],
            [(1, 2), (2, 1)],
            &[0, 1, 2],
            [(1, 1), (0, 1)],
            [(2, 1), (0, 1)],
        ),
        (
            &[0, 2, 1, 3],
            [(1, 1), (3, 1)],
            &[0, 1, 3],
            [(1, 1), (1, 1)],
            [(1, 1), (1, 1)],
        ),
    ];
    for (values, tolerance, greedy, least, within) in cases {
        let samples = values.len();
        let ticks = &EVEN[..samples];
        let [above, below] = tolerance;
        for method in [Method::Walk, Method::Gallop] {
            let reduced = reduce(method, ticks, values, parts(above, below), samples);
            assert_eq!(reduced.unwrap().list, greedy, "{values:?}");
        }
        let ends = [0, samples as u16 - 1];
        let passes = |[above, below]: [(u64, u64); 2]| {
            judge(ticks, values, &ends, parts(above, below)) == Ok(None)
        };
        assert!(passes(least) && passes(within), "{values:?}");
        // Just below either part it does not pass.
        for side in 0..2 {
            let mut below = least;
            if below[side].0 > 0 {
                below[side] = (below[side].0 * 1_000 - 1, below[side].1 * 1_000);
                assert!(!passes(below), "{values:?}");
            }
        }
    }
}

/// Pedestals are compared at parts that are equal as numbers, and refused at others.
#[test]
fn pedestals_with_parts() {
    let run = crate_of(&[Trace {
        ticks: EVEN.to_vec(),
        values: WAVE.to_vec(),
    }]);
    let compared = |below| pedestals(&run, &run, parts((1, 2), below), 1, (1, 1)).is_ok();
    assert!(compared((1, 2)) && compared((2, 4)));
    assert_eq!(
        pedestals(&run, &run, parts((1, 2), (1, 3)), 1, (0, 0)),
        Err((4, 0))
    );
}

#[test]
fn codes() {
    let values = vec![31, 32, 94, 96, 8_032];
    assert_eq!(expand(&[31, 32, 63, 64, 255], 5), Ok(values));
}

/// The example of document 02, "Our own range table": code c has the value 257 c - 32768.
#[test]
fn own_table() {
    let table: Vec<i16> = (0..256).map(|code| (257 * code - 32_768) as i16).collect();
    let values = vec![-32_768, -129, 128, 32_767];
    assert_eq!(expand_with(&[0, 127, 128, 255], &table, 4), Ok(values));
    assert_eq!(expand_with(&[0], &table[..255], 1), Err((12, 0)));
    let with = |code: usize, value: i16| {
        let mut table = table.clone();
        table[code] = value;
        expand_with(&[0], &table, 1)
    };
    assert_eq!(with(255, table[254]), Err((12, 255)));
    assert_eq!(with(0, 32_767), Err((12, 1)));
}

/// Steps 255/+127 and 255/-128 are short; 256/0 and 1/+128 long.
#[test]
fn steps() {
    for (advance, change, step) in [
        (255, 127, short(255, 127)),
        (255, -128, short(255, -128)),
        (256, 0, long(256, 40)),
        (1, 128, long(1, 168)),
    ] {
        let record = [tolerance(0, 1), first(9, 40), step, end(2)].concat();
        let (ticks, values) = ([9, 9 + advance], [40, 40 + change]);
        let written = write(&ticks, &values, &[0, 1], ratio(0, 1), record.len(), 0);
        assert_eq!(written.as_ref(), Ok(&record), "{advance} {change}");
        let content = read(&record, 2, 2).unwrap();
        assert_eq!(
            content.samples,
            [(ticks[0], values[0]), (ticks[1], values[1])]
        );
    }
}
