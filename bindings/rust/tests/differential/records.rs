use kovrelna::Tolerance;
use kovrelna_evidence::cases::{comparison, random_commands, round_trip};
use kovrelna_evidence::compare::{exactly, exactly_parts, given, parts, read, same, write};
use kovrelna_reference::generate::{
    any_parts, content, gap_limit, trace, written, Random, Trace, KINDS,
};
use kovrelna_reference::record::{encode, end, first, long, short, tolerance, unequal};
use kovrelna_reference::{Fraction, Parts};

/// A record's number of samples, or its fault's byte.
fn samples(record: &[u8]) -> Result<usize, u64> {
    match read(record, 4_096, 4_096) {
        Ok(content) => Ok(content.samples.len()),
        Err((8, fault)) => Err(fault),
        Err(row) => panic!("refused {row:?}"),
    }
}

/// A tolerance with equal parts, and one with unequal ones; how many bytes each has more than 9.
fn heads() -> [(Vec<u8>, u64); 2] {
    [(tolerance(2, 3), 0), (unequal((2, 3), (1, 1)), 8)]
}

/// Commands in order and out of it after this tolerance, which has so many bytes more than 9.
fn order_after(t: &[u8], more: u64) {
    let (f, s, l) = (first(5, 0), short(3, 1), long(256, 1));
    type Case<'a> = (&'a [&'a [u8]], Result<usize, u64>);
    let cases: [Case; 30] = [
        (&[t, &f, &end(1)], Ok(1)),
        (&[t, &f, &s, &end(2)], Ok(2)),
        (&[t, &f, &l, &s, &end(3)], Ok(3)),
        // A command is missing.
        (&[], Err(0)),
        (&[t], Err(9)),
        (&[t, &f], Err(16)),
        (&[t, &f, &s], Err(19)),
        (&[t, &f, &s, &l], Err(25)),
        // Out of order, or no command at all.
        (&[&f, t, &end(1)], Err(0)),
        (&[&s], Err(0)),
        (&[&l], Err(0)),
        (&[&end(0)], Err(0)),
        (&[&[0x42], t, &f, &end(1)], Err(0)),
        (&[t, t, &f, &end(1)], Err(9)),
        (&[t, &s, &end(1)], Err(9)),
        (&[t, &l, &end(1)], Err(9)),
        (&[t, &end(0)], Err(9)),
        (&[t, &[0xff], &f, &end(1)], Err(9)),
        (&[t, &f, t, &end(1)], Err(16)),
        (&[t, &f, &f, &end(2)], Err(16)),
        (&[t, &f, &[0], &end(1)], Err(16)),
        (&[t, &f, &[0x73, 3, 1], &end(2)], Err(16)),
        (&[t, &f, &s, &f, &end(3)], Err(19)),
        (&[t, &f, &l, t, &end(3)], Err(22)),
        // Something after the end.
        (&[t, &f, &end(1), &[0]], Err(19)),
        (&[t, &f, &end(1), &end(1)], Err(19)),
        (&[t, &f, &end(1), &s, &end(2)], Err(19)),
        (&[t, &f, &s, &end(2), t, &f, &end(1)], Err(22)),
        // The first fault counts.
        (&[t, &f, &end(2), &[0]], Err(16)),
        (&[t, &f, &short(0, 0), &s, &f], Err(16)),
    ];
    for (commands, expected) in cases {
        let record = commands.concat();
        let later = |fault| if fault == 0 { 0 } else { fault + more };
        assert_eq!(samples(&record), expected.map_err(later), "{record:02x?}");
    }
}

#[test]
fn order() {
    let [(t, _), (b, _)] = &heads().map(|(head, more)| {
        order_after(&head, more);
        (head, more)
    });
    // One tolerance after another.
    for (commands, fault) in [([t, b], 9), ([b, t], 17), ([b, b], 17)] {
        let record = [&commands[0][..], commands[1], &first(5, 0), &end(1)].concat();
        assert_eq!(samples(&record), Err(fault), "{record:02x?}");
    }
}

/// Ratios, and whether they are allowed in a record.
fn ratios() -> Vec<(u64, u64, bool)> {
    const Q: u64 = 1_048_575;
    vec![
        (2, 3, true),
        (0, 1, true),
        (65_535, 1, true),
        (1, Q, true),
        (65_535 * Q - 1, Q, true),
        // Not reduced.
        (4, 6, false),
        (0, 2, false),
        (0, Q, false),
        (65_535 * Q, Q, false),
        (65_535 * 2, 2, false),
        // Not allowed.
        (0, 0, false),
        (1, 0, false),
        (65_536, 1, false),
        (65_535 * Q + 1, Q, false),
        (1, Q + 1, false),
        (1, (1 << 24) - 1, false),
        ((1 << 40) - 1, 1, false),
        ((1 << 40) - 1, (1 << 24) - 1, false),
    ]
}

#[test]
fn tolerances() {
    for (p, q, allowed) in ratios() {
        let record = [tolerance(p, q), first(5, 0), end(1)].concat();
        let expected = if allowed { Ok(1) } else { Err(0) };
        assert_eq!(samples(&record), expected, "{p}/{q}");
    }
}

/// Every two of these ratios as parts: a record has both if each is allowed and reduced and they differ. Read,
/// the part above is the first. Cut off, the command is faulty wherever the cut is.
#[test]
fn unequal_parts() {
    let mut seen = [0; 3];
    for (p, q, above) in ratios() {
        for (below_p, below_q, below) in ratios() {
            let differ = (p, q) != (below_p, below_q);
            let command = unequal((p, q), (below_p, below_q));
            let record = [&command[..], &first(5, 0), &end(1)].concat();
            let allowed = above && below && differ;
            let expected = if allowed { Ok(1) } else { Err(0) };
            assert_eq!(samples(&record), expected, "{record:02x?}");
            seen[usize::from(allowed) + 2 * usize::from(above && below && !differ)] += 1;
            let one = [&tolerance(p, q)[..], &first(5, 0), &end(1)].concat();
            if allowed {
                let fraction = |p: u64, q: u64| Fraction {
                    p: p.into(),
                    q: q.into(),
                };
                let parts = Parts {
                    above: fraction(p, q),
                    below: fraction(below_p, below_q),
                };
                assert_eq!(read(&record, 1, 1).unwrap().tolerance, parts);
                assert_eq!(same(&record, &one), Ok(false));
                assert_eq!(same(&one, &record), Ok(false));
                for length in 0..17 {
                    assert_eq!(samples(&record[..length]), Err(0), "{record:02x?} {length}");
                }
            } else if above {
                assert_eq!(same(&one, &record), Err((9, 0)));
                assert_eq!(same(&record, &one), Err((8, 0)));
            }
        }
    }
    assert!(seen[0] > 100 && seen[1] == 20 && seen[2] == 5, "{seen:?}");
}

/// A trace written with parts in lowest terms and not, the same as numbers or not: 54 exactly if they are the
/// same, and then as with one ratio.
#[test]
fn parts_written() {
    let random = &mut Random::new(29);
    let mut seen = [0; 2];
    for _ in 0..4_000 {
        let samples = random.within(1, 6) as usize;
        let Trace { ticks, values } = trace(random.choose(&KINDS), samples, random);
        let list: Vec<u16> = (0..samples as u16).collect();
        let held = any_parts(random);
        let size = 21 + 6 * samples;
        let write = |tolerance| write(&ticks, &values, &list, tolerance, size, 0).unwrap();
        let record = write(given(written(held, random)));
        assert_eq!(record, write(exactly_parts(held)));
        let one = held.one();
        assert_eq!(record[0], if one.is_some() { 0x54 } else { 0x42 });
        if let Some(one) = one {
            assert_eq!(record, write(exactly(one)));
        }
        assert_eq!(read(&record, samples, samples).unwrap().tolerance, held);
        seen[usize::from(one.is_some())] += 1;
    }
    assert!(seen.iter().all(|&count| count > 500), "{seen:?}");
}

/// A first sample and steps, with the number of samples or the fault's byte.
#[test]
fn steps() {
    const MAX: u32 = u32::MAX;
    type Case = (Vec<u8>, Vec<Vec<u8>>, Result<usize, u64>);
    let cases: [Case; 38] = [
        // A step is short exactly if its advance is at most 255 and its change from -128 to 127.
        (first(5, 0), vec![short(255, 127)], Ok(2)),
        (first(5, 0), vec![short(255, -128)], Ok(2)),
        (first(5, 0), vec![short(1, 0)], Ok(2)),
        (first(5, 0), vec![long(256, 0)], Ok(2)),
        (first(5, 0), vec![long(1, 128)], Ok(2)),
        (first(5, 0), vec![long(1, -129)], Ok(2)),
        (first(5, 7), vec![long(255, 135)], Ok(2)),
        (first(5, 7), vec![long(255, -122)], Ok(2)),
        (first(5, 0), vec![long(255, 127)], Err(16)),
        (first(5, 0), vec![long(255, -128)], Err(16)),
        (first(5, 0), vec![long(1, 0)], Err(16)),
        (first(5, 7), vec![long(255, 134)], Err(16)),
        (first(5, 7), vec![long(255, -121)], Err(16)),
        (first(5, 7), vec![long(256, 7), long(1, 8)], Err(22)),
        // An advance is at least 1.
        (first(5, 0), vec![short(0, 0)], Err(16)),
        (first(5, 0), vec![short(0, 1)], Err(16)),
        (first(5, 0), vec![long(0, 500)], Err(16)),
        (first(5, 0), vec![short(1, 1), short(0, 1)], Err(19)),
        // Values end at the range.
        (first(5, 32_767), vec![short(1, -1), short(1, 1)], Ok(3)),
        (first(5, 32_767), vec![short(1, 1)], Err(16)),
        (first(5, 32_760), vec![short(1, 127)], Err(16)),
        (first(5, -32_768), vec![short(1, 127)], Ok(2)),
        (first(5, -32_768), vec![short(1, -1)], Err(16)),
        (first(5, -32_641), vec![short(1, -127)], Ok(2)),
        (first(5, -32_641), vec![short(1, -128)], Err(16)),
        (first(5, -32_768), vec![long(1, 32_767)], Ok(2)),
        // The span.
        (first(5, 0), vec![long(1_048_575, 0)], Ok(2)),
        (first(5, 0), vec![long(1_048_576, 0)], Err(16)),
        (first(5, 0), vec![long((1 << 24) - 1, 0)], Err(16)),
        (first(5, 0), vec![long(1_048_574, 0), short(1, 0)], Ok(3)),
        (first(5, 0), vec![long(1_048_574, 0), short(2, 0)], Err(22)),
        (first(5, 0), vec![short(1, 0), long(1_048_575, 0)], Err(19)),
        // Ticks do not wrap around.
        (first(MAX - 1, 0), vec![short(1, 0)], Ok(2)),
        (first(MAX, 0), vec![short(1, 0)], Err(16)),
        (first(MAX - 1, 0), vec![short(2, 0)], Err(16)),
        (first(MAX - 255, 0), vec![long(256, 0)], Err(16)),
        (first(MAX - 1_048_575, 0), vec![long(1_048_575, 0)], Ok(2)),
        (first(MAX, 0), vec![long((1 << 24) - 1, 0)], Err(16)),
    ];
    for (head, more) in heads() {
        for (first, steps, expected) in &cases {
            let end = end(steps.len() as u16 + 1);
            let record = [&head[..], first, &steps.concat(), &end].concat();
            let expected = expected.map_err(|fault| fault + more);
            assert_eq!(samples(&record), expected, "{record:02x?}");
        }
    }
}

#[test]
fn counts() {
    for (head, more) in heads() {
        for steps in [0u16, 1, 2, 255, 256, 4_095] {
            let commands = short(1, 0).repeat(steps.into());
            let right = steps + 1;
            for count in [0, 1, steps, right, right + 1, right.swap_bytes(), u16::MAX] {
                let record = [&head[..], &first(5, 0), &commands, &end(count)].concat();
                let expected = match count == right {
                    true => Ok(right.into()),
                    false => Err(16 + more + 3 * u64::from(steps)),
                };
                assert_eq!(samples(&record), expected, "{count} after {steps} steps");
            }
        }
    }
}

/// At most 4,096 samples: the fault is the step that gives one more.
#[test]
fn too_many_samples() {
    for pair in [
        [short(1, 0), short(1, 0)],
        [short(255, 1), short(255, -1)],
        [long(1, 200), long(1, 0)],
    ] {
        for steps in [4_094u16, 4_095, 4_096, 4_097] {
            let commands: Vec<Vec<u8>> = pair.iter().cycle().take(steps.into()).cloned().collect();
            for (head, more) in heads() {
                let record = [head, first(5, 0), commands.concat(), end(steps + 1)].concat();
                let expected = match steps {
                    ..=4_095 => Ok(usize::from(steps) + 1),
                    _ => Err(16 + more + 4_095 * pair[0].len() as u64),
                };
                assert_eq!(samples(&record), expected, "{steps} steps {pair:02x?}");
            }
        }
    }
}

/// Reads the record with other values for the byte at this place, and compares each with the record.
/// Counts those accepted, those with a fault in the damaged command and those with a later one.
fn damage(record: &[u8], at: usize, values: impl Iterator<Item = u8>, seen: &mut [usize; 3]) {
    for value in values.filter(|&value| value != record[at]) {
        let mut damaged = record.to_vec();
        damaged[at] = value;
        match samples(&damaged) {
            Ok(_) => seen[0] += 1,
            Err(fault) if fault <= at as u64 => seen[1] += 1,
            Err(_) => seen[2] += 1,
        }
        same(record, &damaged).ok();
        same(&damaged, record).ok();
        same(&damaged, &damaged).ok();
    }
}

/// Every byte of random records with every value.
#[test]
fn every_byte_damaged() {
    let random = &mut Random::new(15);
    let mut seen = [0; 3];
    for _ in 0..60 {
        let record = encode(&content(random.within(1, 9) as usize, random));
        for at in 0..record.len() {
            damage(&record, at, 0..=255, &mut seen);
        }
    }
    assert!(seen.iter().all(|&count| count > 20_000), "{seen:?}");
}

/// Longer records: every byte with several values, and the longest at some places.
#[test]
fn long_records_damaged() {
    let random = &mut Random::new(16);
    let mut seen = [0; 3];
    let mut several = |record: &[u8], at: usize| {
        let near = [1, 0x80, 0xff].map(|change| record[at].wrapping_add(change));
        let commands = *b"TBASLE";
        let values = [near, [0, 1, 0xff]].concat().into_iter().chain(commands);
        damage(record, at, values, &mut seen);
    };
    for _ in 0..20 {
        let record = encode(&content(random.within(10, 60) as usize, random));
        for at in 0..record.len() {
            several(&record, at);
        }
    }
    for samples in [4_095, 4_096] {
        let record = encode(&content(samples, random));
        for at in [
            0,
            5,
            8,
            9,
            15,
            16,
            17,
            24,
            record.len() - 3,
            record.len() - 1,
        ] {
            several(&record, at);
        }
        for _ in 0..10 {
            several(&record, random.below(record.len() as u64) as usize);
        }
    }
    assert!(seen.iter().all(|&count| count > 3_000), "{seen:?}");
}

/// A record cut at every length has its fault in the command that is cut, or at its end.
#[test]
fn cut_at_every_length() {
    let random = &mut Random::new(17);
    for _ in 0..300 {
        let record = encode(&content(random.within(1, 30) as usize, random));
        let mut start = 0;
        for length in 0..record.len() {
            let bytes = match record[start] {
                0x54 => 9,
                0x42 => 17,
                0x41 => 7,
                0x4c => 6,
                _ => 3,
            };
            if length == start + bytes {
                start = length;
            }
            let (cut, fault) = (&record[..length], start as u64);
            assert_eq!(samples(cut), Err(fault), "{record:02x?} {length}");
            assert_eq!(same(cut, &record), Err((8, fault)));
            assert_eq!(same(&record, cut), Err((9, fault)));
            // Of two faulty records the first is refused.
            assert_eq!(same(cut, &record[1..]), Err((8, fault)));
            assert_eq!(same(&record[1..], cut), Err((8, 0)));
            assert_eq!(same(cut, cut), Err((8, fault)));
        }
    }
}

/// One list of samples under each two of these tolerances, whose ratios differ in one byte or in more, and
/// with each two of these ratios as parts.
#[test]
fn tolerances_compared() {
    const PRIME: u64 = 1_048_573;
    let mut tolerances = vec![(0, 1), (1, 1), (2, 1), (65_535, 1), (5, PRIME)];
    tolerances.extend([8, 16, 24, 32].map(|shift| (5 + (1 << shift), PRIME)));
    tolerances.extend([2, 257, 65_537].map(|q| (1, q)));
    let pairs = tolerances.iter().flat_map(|&above| {
        tolerances.iter().map(move |&below| match above == below {
            true => tolerance(above.0, above.1),
            false => unequal(above, below),
        })
    });
    let records: Vec<Vec<u8>> = pairs
        .map(|command| [command, first(5, 0), short(3, 1), end(2)].concat())
        .collect();
    for (i, one) in records.iter().enumerate() {
        for (j, other) in records.iter().enumerate() {
            assert_eq!(same(one, other), Ok(i == j), "{one:02x?} {other:02x?}");
        }
    }
}

/// A record with more bytes after it has its fault there.
#[test]
fn extended() {
    let random = &mut Random::new(18);
    for _ in 0..300 {
        let record = encode(&content(random.within(1, 12) as usize, random));
        let fault = record.len() as u64;
        let bytes = (0..=255).map(|byte| vec![byte]);
        let commands = [record.clone(), short(1, 0), long(256, 0), end(1)];
        for more in bytes.chain(commands).chain([vec![0; 5_000]]) {
            let extended = [&record[..], &more].concat();
            assert_eq!(samples(&extended), Err(fault), "{extended:02x?}");
        }
    }
}

#[test]
fn commands() {
    let random = &mut Random::new(19);
    let accepted = (0..30_000).filter(|_| random_commands(random)).count();
    assert!((5_000..25_000).contains(&accepted), "{accepted}");
}

/// Outputs that are too short, exactly enough and longer, each by itself.
#[test]
fn outputs() {
    let random = &mut Random::new(20);
    for samples in [1usize, 2, 3, 17, 4_095, 4_096] {
        let record = encode(&content(samples, random));
        let rooms = [0, 1, samples - 1, samples, samples + 1, 5_000];
        for ticks in rooms {
            for values in rooms {
                let row = (ticks.min(values) < samples).then_some((10, samples as u64));
                assert_eq!(read(&record, ticks, values).err(), row, "{ticks} {values}");
                // A fault comes first.
                let fault = Some((8, record.len() as u64 - 3));
                let cut = &record[..record.len() - 1];
                assert_eq!(read(cut, ticks, values).err(), fault, "{ticks} {values}");
            }
        }
    }
}

#[test]
fn round_trips() {
    let random = &mut Random::new(21);
    let mut seen = [0; 5];
    for kind in KINDS {
        for _ in 0..2_500 {
            let trace = trace(kind, random.within(1, 40) as usize, random);
            let gap = gap_limit(&trace.ticks, random);
            let written = round_trip(&trace, gap, random);
            seen[0] += written.records;
            seen[1] += written.refused;
            seen[2] += written.short_steps;
            seen[3] += written.long_steps;
            seen[4] += written.unequal;
        }
    }
    assert!(seen.iter().all(|&count| count > 1_000), "{seen:?}");
}

/// Contents at the limits of every command, written as they are.
#[test]
fn contents_written() {
    let random = &mut Random::new(22);
    for samples in (1..=40).flat_map(|n| [n; 20]).chain([4_095, 4_096]) {
        let content = content(samples, random);
        let record = encode(&content);
        let (ticks, values) = content.trace();
        let all: Vec<u16> = (0..samples as u16).collect();
        let tolerance = exactly_parts(content.tolerance);
        let written = write(&ticks, &values, &all, tolerance, record.len() + 2, 1);
        assert_eq!(written.as_ref(), Ok(&record));
        assert_eq!(read(&record, samples, samples), Ok(content));
        assert_eq!(same(&record, &record), Ok(true));
    }
}

/// Buffers of every size, every place in them and past their end, with equal parts and with unequal ones.
#[test]
fn every_place() {
    let (ticks, values, list) = ([0, 1, 3], [0, 1, 1], [0, 2]);
    let tolerances = [
        (Tolerance::Ratio { p: 4, q: 6 }, 22),
        (parts((4, 6), (2, 3)), 22),
        (parts((4, 6), (1, 1)), 30),
    ];
    for (tolerance, bytes) in tolerances {
        for size in 0..60usize {
            for place in (0..size + 9).chain(usize::MAX - 30..=usize::MAX) {
                let answer = write(&ticks, &values, &list, tolerance, size, place);
                let enough = size.saturating_sub(place) >= bytes;
                let row = (!enough).then_some((10, bytes as u64));
                assert_eq!(answer.err(), row, "{place} of {size}");
            }
        }
    }
    // The longest records.
    let ticks: Vec<u32> = (0..4_096).map(|k| 256 * k).collect();
    let (values, list): (Vec<i16>, Vec<u16>) = (0..4_096).map(|k| (k, k as u16)).unzip();
    for (tolerance, bytes) in tolerances {
        let longest = bytes + 24_567;
        for (size, place, enough) in [
            (longest, 0, true),
            (longest - 1, 0, false),
            (longest, 1, false),
            (30_000, 30_000 - longest, true),
            (30_000, 30_001 - longest, false),
            (30_000, 30_001, false),
        ] {
            let answer = write(&ticks, &values, &list, tolerance, size, place);
            let row = (!enough).then_some((10, longest as u64));
            assert_eq!(answer.err(), row, "{place} of {size}");
        }
    }
}

/// Equal samples under different tolerances, and contents that differ in one place.
#[test]
fn comparisons() {
    let random = &mut Random::new(23);
    (0..3_000).for_each(|_| comparison(random));
}
