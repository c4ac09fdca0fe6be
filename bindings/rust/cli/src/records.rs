//! Records as files, through the library.

use crate::failure::Failure;
use crate::source::Source;
use kovrelna::{read, write, Limits, Parts, Refusal};

/// The most bytes of a record.
const BYTES: usize = 24_597;
/// The most samples of a record.
const SAMPLES: usize = 4_096;

/// What a record holds.
#[derive(Debug)]
pub struct Record {
    pub ticks: Vec<u32>,
    pub values: Vec<i16>,
    pub tolerance: Parts,
    /// The record's length.
    pub bytes: usize,
}

/// Reads a record.
pub fn load(mut source: Source) -> Result<Record, Failure> {
    // One byte more than a record may have: enough to find any fault.
    let bytes = source.up_to(BYTES + 1)?;
    let (mut ticks, mut values) = (vec![0; SAMPLES], vec![0; SAMPLES]);
    let content = read(&bytes, &mut ticks, &mut values).map_err(|refusal| match refusal {
        Refusal::Record(0) => Failure::at(&source.name, "no record: it is faulty at byte 0"),
        refusal => Failure::at(&source.name, refusal),
    })?;
    ticks.truncate(content.samples);
    values.truncate(content.samples);
    Ok(Record {
        ticks,
        values,
        tolerance: content.tolerance,
        bytes: bytes.len(),
    })
}

/// The record of the listed samples.
pub fn save(
    ticks: &[u32],
    values: &[i16],
    list: &[u16],
    limits: impl Into<Limits>,
) -> Result<Vec<u8>, Refusal> {
    let mut buffer = vec![0; BYTES];
    let length = write(ticks, values, list, limits, &mut buffer, 0)?;
    buffer.truncate(length);
    Ok(buffer)
}

/// The first commands of records: a tolerance with equal parts, and one with two.
const TOLERANCE: u8 = 0x54;
const PARTS: u8 = 0x42;
/// The second command.
const FIRST_SAMPLE: u8 = 0x41;

/// Whether a record begins here, and no text; and the source from here on. After a byte that no record has
/// in its place none is waited for.
pub fn begins(mut source: Source) -> Result<(bool, Source), Failure> {
    let mut bytes = Vec::new();
    while bytes.len() < beginning(&bytes) && may_begin(&bytes) {
        match source.up_to(1)?[..] {
            [byte] => bytes.push(byte),
            _ => break,
        }
    }
    let is_record = bytes.len() == beginning(&bytes) && may_begin(&bytes);
    Ok((is_record, source.put_back(bytes)))
}

/// How many bytes tell a record that begins like this from text: the first command with its ratios, and the
/// second command.
fn beginning(bytes: &[u8]) -> usize {
    match bytes {
        [PARTS, ..] => 18,
        _ => 10,
    }
}

/// Whether a record may begin like this: with a first command, with the high bytes of each p and q, which
/// are at most 0F, and with the second command.
fn may_begin(bytes: &[u8]) -> bool {
    let last = beginning(bytes) - 1;
    let may_be_at = |(place, &byte): (usize, &u8)| match place {
        0 => [TOLERANCE, PARTS].contains(&byte),
        place if place == last => byte == FIRST_SAMPLE,
        1 | 6 | 9 | 14 => byte <= 0x0f,
        _ => true,
    };
    bytes.iter().enumerate().all(may_be_at)
}

#[cfg(test)]
mod tests {
    use super::*;
    use crate::tolerance::both;
    use kovrelna::{Ratio, Tolerance};
    use std::io::Read;

    /// The parts with these p and q.
    fn parts(above: (u64, u64), below: (u64, u64)) -> Parts {
        let ratio = |(p, q)| Ratio { p, q };
        Parts {
            above: ratio(above),
            below: ratio(below),
        }
    }

    /// Whether a record begins; nothing is taken from the source.
    fn is_record(bytes: &[u8]) -> bool {
        let (is_record, mut source) = begins(Source::of("in", bytes)).unwrap();
        let mut all = Vec::new();
        source.read_to_end(&mut all).unwrap();
        assert_eq!(all, bytes);
        is_record
    }

    #[test]
    fn there_and_back() {
        let tolerance = Tolerance::Ratio { p: 4, q: 6 };
        let bytes = save(&[0, 1, 3], &[0, 1, 1], &[0, 2], tolerance).unwrap();
        assert_eq!(bytes.len(), 22);
        assert!(is_record(&bytes));
        let record = load(Source::of("in", &bytes)).unwrap();
        assert_eq!((record.ticks, record.values), (vec![0, 3], vec![0, 1]));
        let held = both(Ratio { p: 2, q: 3 });
        assert_eq!((record.tolerance, record.bytes), (held, 22));
        let cut = load(Source::of("in", &bytes[..20])).unwrap_err();
        let told = "in: the record is faulty at byte 19";
        assert_eq!(cut, Failure::Told(told.into()));
        let text = load(Source::of("in", b"0,1\n")).unwrap_err();
        let told = "in: no record: it is faulty at byte 0";
        assert_eq!(text, Failure::Told(told.into()));
    }

    #[test]
    fn parts_there_and_back() {
        let tolerance = Tolerance::from(parts((4, 6), (2, 2)));
        let bytes = save(&[0, 1, 3], &[0, 1, 1], &[0, 2], tolerance).unwrap();
        let expected = [
            0x42, 0, 0, 0, 0, 2, 0, 0, 3, 0, 0, 0, 0, 1, 0, 0, 1, 0x41, 0, 0, 0, 0, 0, 0, 0x53, 3,
            1, 0x45, 0, 2,
        ];
        assert_eq!(bytes, expected);
        assert!(is_record(&bytes));
        let record = load(Source::of("in", &bytes)).unwrap();
        assert_eq!((record.ticks, record.values), (vec![0, 3], vec![0, 1]));
        let held = parts((2, 3), (1, 1));
        assert_eq!((record.tolerance, record.bytes), (held, 30));
        let cut = load(Source::of("in", &bytes[..28])).unwrap_err();
        let told = "in: the record is faulty at byte 27";
        assert_eq!(cut, Failure::Told(told.into()));
    }

    /// A byte after the longest record is a fault.
    #[test]
    fn longest() {
        let ticks: Vec<u32> = (0..4_096).collect();
        let values: Vec<i16> = ticks.iter().map(|tick| (tick % 2) as i16 * 999).collect();
        let list: Vec<u16> = (0..4_096).collect();
        for (tolerance, length) in [
            (Tolerance::Counts(0.0), BYTES - 8),
            (parts((0, 1), (1, 1)).into(), BYTES),
        ] {
            let mut bytes = save(&ticks, &values, &list, tolerance).unwrap();
            assert_eq!(bytes.len(), length);
            assert_eq!(load(Source::of("in", &bytes)).unwrap().bytes, length);
            bytes.push(0);
            let told = format!("in: the record is faulty at byte {length}");
            let long = load(Source::of("in", &bytes)).unwrap_err();
            assert_eq!(long, Failure::Told(told.into()));
        }
    }

    #[test]
    fn beginnings() {
        let greatest = (65_535 * 1_048_575 - 1, 1_048_575);
        for (held, beginning) in [
            (parts(greatest, greatest), 10),
            (parts(greatest, (0, 1)), 18),
            (parts((0, 1), greatest), 18),
        ] {
            let bytes = save(&[0], &[0], &[0], Tolerance::from(held)).unwrap();
            assert!(is_record(&bytes));
            assert!(is_record(&bytes[..beginning]));
            assert!(!is_record(&bytes[..beginning - 1]));
            // A byte that no record has in its place.
            for place in [1, 6, 9, 14, 17]
                .into_iter()
                .filter(|&place| place < beginning)
            {
                let mut other = bytes.clone();
                other[place] = b'1';
                assert!(!is_record(&other), "{place}");
            }
        }
        for text in [
            "",
            "T",
            "Tick,value\n0,1",
            "T\tvalue\n0\t1\n",
            "T\0i\0c\0k\0,\0",
            "B",
            "Bin,value\n0,1",
            "B\tADC\n0\t1\n10\t1\n20\t1\n",
            "B\0i\0n\0,\0v\0a\0l\0u\0e\0",
            "0,1",
        ] {
            assert!(!is_record(text.as_bytes()), "{text}");
        }
    }
}
