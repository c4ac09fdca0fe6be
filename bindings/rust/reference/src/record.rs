//! Range codes and records.
//!
//! - [`code_value`], [`expand`], [`table_fault`], [`expand_with`]: range codes.
//! - [`Content`], [`encode`], [`decode`]: a record's content, its bytes, and its fault.
//! - [`tolerance`], [`unequal`], [`first`], [`short`], [`long`], [`end`]: the commands.
//! - [`write()`], [`read`], [`same`]: the calls.

use crate::{held, judge, Form, Fraction, Invalid, Limits, Parts, Row, SAMPLES, SPAN};

/// The value of a range code.
pub fn code_value(code: u8) -> i16 {
    let (e, m) = (code / 32, i16::from(code % 32));
    2i16.pow(e.into()) * (m + 32) - 32
}

/// Row 1 of codes.
fn check_codes(codes: &[u8]) -> Result<(), Row> {
    if codes.is_empty() || codes.len() > SAMPLES {
        return Err((1, 0));
    }
    Ok(())
}

/// Row 10 of codes.
fn check_room(codes: &[u8], room: usize) -> Result<(), Row> {
    if room < codes.len() {
        return Err((10, codes.len() as u64));
    }
    Ok(())
}

/// The first row that fits, or the value of each code. The output has `room` entries.
pub fn expand(codes: &[u8], room: usize) -> Result<Vec<i16>, Row> {
    check_codes(codes)?;
    check_room(codes, room)?;
    Ok(codes.iter().map(|&code| code_value(code)).collect())
}

/// The value of row 12, if a range table is refused: 0 if it does not have a value for each code, else
/// the first code whose value is not above the one before.
pub fn table_fault(table: &[i16]) -> Option<u64> {
    if table.len() != 256 {
        return Some(0);
    }
    (1..256).find(|&code| table[code as usize] <= table[code as usize - 1])
}

/// The first row that fits, or the table's value of each code. The output has `room` entries.
pub fn expand_with(codes: &[u8], table: &[i16], room: usize) -> Result<Vec<i16>, Row> {
    check_codes(codes)?;
    if let Some(fault) = table_fault(table) {
        return Err((12, fault));
    }
    check_room(codes, room)?;
    Ok(codes.iter().map(|&code| table[usize::from(code)]).collect())
}

/// A record's content.
#[derive(Clone, Debug, PartialEq, Eq)]
pub struct Content {
    pub tolerance: Parts,
    /// Each with its tick and its value.
    pub samples: Vec<(u32, i16)>,
}

impl Content {
    /// The ticks and the values.
    pub fn trace(&self) -> (Vec<u32>, Vec<i16>) {
        self.samples.iter().copied().unzip()
    }
}

/// A command with its operands, each a number and its bytes: high byte first, two's complement.
fn command(byte: u8, operands: &[(i128, usize)]) -> Vec<u8> {
    let mut command = vec![byte];
    for &(number, bytes) in operands {
        command.extend(&number.to_be_bytes()[16 - bytes..]);
    }
    command
}

pub fn tolerance(p: u64, q: u64) -> Vec<u8> {
    command(0x54, &[(p.into(), 5), (q.into(), 3)])
}

/// The tolerance with unequal parts: p and q of the part above, then of the part below.
pub fn unequal(above: (u64, u64), below: (u64, u64)) -> Vec<u8> {
    let operands = [above, below].map(|(p, q)| [(p.into(), 5), (q.into(), 3)]);
    command(0x42, operands.as_flattened())
}

pub fn first(tick: u32, value: i16) -> Vec<u8> {
    command(0x41, &[(tick.into(), 4), (value.into(), 2)])
}

pub fn short(advance: u8, change: i8) -> Vec<u8> {
    command(0x53, &[(advance.into(), 1), (change.into(), 1)])
}

pub fn long(advance: u32, value: i16) -> Vec<u8> {
    command(0x4c, &[(advance.into(), 3), (value.into(), 2)])
}

pub fn end(samples: u16) -> Vec<u8> {
    command(0x45, &[(samples.into(), 2)])
}

/// Whether a step with this advance and this change of value is short.
fn is_short(advance: i128, change: i128) -> bool {
    advance <= 255 && (-128..=127).contains(&change)
}

/// The record with this content, which obeys the rules.
pub fn encode(content: &Content) -> Vec<u8> {
    let ratio = |Fraction { p, q }: Fraction| (p as u64, q as u64);
    let Parts { above, below } = content.tolerance;
    let mut record = match content.tolerance.one() {
        Some(Fraction { p, q }) => tolerance(p as u64, q as u64),
        None => unequal(ratio(above), ratio(below)),
    };
    let (tick, value) = content.samples[0];
    record.extend(first(tick, value));
    for step in content.samples.windows(2) {
        let [(from, before), (to, after)] = [step[0], step[1]];
        let (advance, change) = (to - from, i128::from(after) - i128::from(before));
        record.extend(if is_short(advance.into(), change) {
            short(advance as u8, change as i8)
        } else {
            long(advance, after)
        });
    }
    record.extend(end(content.samples.len() as u16));
    record
}

/// The number in these bytes, high byte first.
fn number(bytes: &[u8]) -> i128 {
    bytes.iter().fold(0, |n, &byte| 256 * n + i128::from(byte))
}

/// The number in these bytes, high byte first, in two's complement.
fn signed(bytes: &[u8]) -> i128 {
    let (n, size) = (number(bytes), 256i128.pow(bytes.len() as u32));
    if n < size / 2 {
        n
    } else {
        n - size
    }
}

/// The record's content, or the fault's byte.
pub fn decode(record: &[u8]) -> Result<Content, usize> {
    let mut tolerance = None;
    let mut samples: Vec<(u32, i16)> = Vec::new();
    let mut at = 0;
    loop {
        // At the record's end a command is missing.
        let (&command, operands) = record[at..].split_first().ok_or(at)?;
        let bytes = match command {
            0x54 if tolerance.is_none() => 8,
            0x42 if tolerance.is_none() => 16,
            0x41 if tolerance.is_some() && samples.is_empty() => 6,
            0x53 if !samples.is_empty() => 2,
            0x4c if !samples.is_empty() => 5,
            0x45 if !samples.is_empty() => 2,
            _ => return Err(at),
        };
        let operands = operands.get(..bytes).ok_or(at)?;
        let next = at + 1 + bytes;
        match command {
            0x54 | 0x42 => {
                let ratio = |bytes: &[u8]| Fraction {
                    p: number(&bytes[..5]),
                    q: number(&bytes[5..]),
                };
                // Of 54 the one ratio is both.
                let parts = Parts {
                    above: ratio(&operands[..8]),
                    below: ratio(&operands[bytes - 8..]),
                };
                let given = |Fraction { p, q }: Fraction| (p as u64, q as u64);
                let form = Form::Parts(given(parts.above), given(parts.below));
                // Each part is allowed, and lowest terms do not change it; those of 42 differ.
                let reduced = held(form) == Some(parts);
                if !reduced || (command == 0x42 && parts.one().is_some()) {
                    return Err(at);
                }
                tolerance = Some(parts);
            }
            0x41 => samples.push((number(&operands[..4]) as u32, signed(&operands[4..]) as i16)),
            0x45 => {
                if number(operands) != samples.len() as i128 {
                    return Err(at);
                }
                let tolerance = tolerance.ok_or(at)?;
                return match next == record.len() {
                    true => Ok(Content { tolerance, samples }),
                    false => Err(next),
                };
            }
            _ => {
                let (tick, value) = samples[samples.len() - 1];
                let (advance, value, change) = if command == 0x53 {
                    let change = signed(&operands[1..]);
                    (number(&operands[..1]), i128::from(value) + change, change)
                } else {
                    let new = signed(&operands[3..]);
                    (number(&operands[..3]), new, new - i128::from(value))
                };
                let tick = u32::try_from(i128::from(tick) + advance).map_err(|_| at)?;
                let value = i16::try_from(value).map_err(|_| at)?;
                if advance < 1
                    || is_short(advance, change) != (command == 0x53)
                    || tick - samples[0].0 > SPAN
                    || samples.len() == SAMPLES
                {
                    return Err(at);
                }
                samples.push((tick, value));
            }
        }
        at = next;
    }
}

/// The first row that fits, or the record. The buffer has `size` bytes.
pub fn write(
    ticks: &[u32],
    values: &[i16],
    list: &[u16],
    limits: impl Into<Limits<Form>>,
    size: usize,
    place: usize,
) -> Result<Vec<u8>, Row> {
    let limits = limits.into();
    if let Some(Invalid { link, .. }) = judge(ticks, values, list, limits)? {
        return Err((7, link as u64));
    }
    let kept = |&k: &u16| (ticks[usize::from(k)], values[usize::from(k)]);
    let record = encode(&Content {
        tolerance: limits.held()?.tolerance,
        samples: list.iter().map(kept).collect(),
    });
    // A place past the end counts as an empty part.
    let room = size.saturating_sub(place);
    if room < record.len() {
        return Err((10, record.len() as u64));
    }
    Ok(record)
}

/// The first row that fits, or the content. The outputs have so many entries.
pub fn read(record: &[u8], ticks: usize, values: usize) -> Result<Content, Row> {
    let content = decode(record).map_err(|fault| (8, fault as u64))?;
    let samples = content.samples.len();
    if ticks < samples || values < samples {
        return Err((10, samples as u64));
    }
    Ok(content)
}

/// The first row that fits, or whether the kept samples and the tolerances agree.
pub fn same(one: &[u8], other: &[u8]) -> Result<bool, Row> {
    let one = decode(one).map_err(|fault| (8, fault as u64))?;
    let other = decode(other).map_err(|fault| (9, fault as u64))?;
    Ok(one.samples == other.samples && one.tolerance == other.tolerance)
}

#[cfg(test)]
mod tests {
    use super::*;
    use crate::generate::{content, Random};

    #[test]
    fn codes() {
        let codes = [0, 31, 32, 63, 64, 255];
        let values = vec![0, 31, 32, 94, 96, 8_032];
        assert_eq!(expand(&codes, 6), Ok(values));
        assert_eq!(expand(&codes, 5), Err((10, 6)));
        assert_eq!(expand(&[], 0), Err((1, 0)));
    }

    #[test]
    fn tables() {
        let mut table: Vec<i16> = (0..256).map(|code| 100 * (code - 200)).collect();
        assert_eq!(expand_with(&[0, 255], &table, 2), Ok(vec![-20_000, 5_500]));
        assert_eq!(expand_with(&[0, 255], &table, 1), Err((10, 2)));
        assert_eq!(expand_with(&[0, 255], &table[1..], 1), Err((12, 0)));
        table[7] = table[6];
        assert_eq!(expand_with(&[0, 255], &table, 1), Err((12, 7)));
        assert_eq!(expand_with(&[], &table, 1), Err((1, 0)));
    }

    #[test]
    fn figure() {
        let record = [
            0x54, 0, 0, 0, 0, 2, 0, 0, 3, 0x41, 0, 0, 0, 0, 0, 0, 0x53, 3, 1, 0x45, 0, 2,
        ];
        let written = write(&[0, 1, 3], &[0, 1, 1], &[0, 2], Form::Ratio(4, 6), 22, 0);
        assert_eq!(written.as_deref(), Ok(&record[..]));
        let content = Content {
            tolerance: Fraction { p: 2, q: 3 }.into(),
            samples: vec![(0, 0), (3, 1)],
        };
        assert_eq!(decode(&record), Ok(content));
        // The gap limit is asked of the links and is not part of the record.
        let under = |gap, size| {
            let limits = Limits {
                tolerance: Form::Ratio(4, 6),
                gap: Some(gap),
            };
            write(&[0, 1, 3], &[0, 1, 1], &[0, 2], limits, size, 0)
        };
        assert_eq!(under(2, 22).as_deref(), Ok(&record[..]));
        assert_eq!(under(2, 21), Err((10, 22)));
        assert_eq!(under(1, 21), Err((7, 0)));
        assert_eq!(under(0, 21), Err((15, 0)));
    }

    /// A record with unequal parts, and every way in which its first command is faulty. Parts that are equal as
    /// numbers have one ratio.
    #[test]
    fn parts() {
        let record = [
            0x42, 0, 0, 0, 0, 2, 0, 0, 3, 0, 0, 0, 0, 1, 0, 0, 1, 0x41, 0, 0, 0, 0, 0, 0, 0x53, 3,
            1, 0x45, 0, 2,
        ];
        let (ticks, values) = ([0, 3], [0, 1]);
        let written = |above, below| {
            let form = Form::Parts(above, below);
            write(&ticks, &values, &[0, 1], form, 30, 0).unwrap()
        };
        assert_eq!(written((2, 3), (1, 1)), record);
        assert_eq!(written((4, 6), (2, 2)), record);
        assert_eq!(written((1, 1), (2, 3))[9..17], record[1..9]);
        let content = Content {
            tolerance: Parts {
                above: Fraction { p: 2, q: 3 },
                below: Fraction { p: 1, q: 1 },
            },
            samples: vec![(0, 0), (3, 1)],
        };
        assert_eq!(decode(&record), Ok(content));
        let equal = [&tolerance(1, 1), &record[17..]].concat();
        assert_eq!(written((2, 2), (1, 1)), equal);
        let good = (2, 3);
        for bad in [(2, 3), (4, 6), (0, 2), (1, 0), (65_536, 1), (1, 1_048_576)] {
            for command in [unequal(good, bad), unequal(bad, good), unequal(bad, bad)] {
                assert_eq!(decode(&[&command, &record[17..]].concat()), Err(0));
            }
        }
        for length in 0..17 {
            assert_eq!(decode(&record[..length]), Err(0));
        }
        // Later faults are 8 bytes further on.
        for length in 9..22 {
            let Err(fault) = decode(&equal[..length]) else {
                panic!("{length} bytes are no record")
            };
            assert_eq!(decode(&record[..length + 8]), Err(fault + 8));
        }
        // One tolerance after another.
        for (command, fault) in [(tolerance(1, 1), 9), (unequal((1, 2), (1, 3)), 17)] {
            assert_eq!(decode(&[&command, &record[..]].concat()), Err(fault));
        }
        let other = written((2, 3), (2, 1));
        assert_eq!(same(&record, &record), Ok(true));
        assert_eq!(same(&record, &other), Ok(false));
        assert_eq!(same(&record, &equal), Ok(false));
    }

    /// What is encoded is decoded again, and of changed bytes those are accepted that encode what they
    /// say. Up to a fault the record can go on: with the missing commands it has no fault.
    #[test]
    fn there_and_back() {
        let random = &mut Random::new(5);
        let mut seen = [0; 2];
        for _ in 0..3_000 {
            let samples = random.within(1, 12) as usize;
            let content = content(samples, random);
            let mut record = encode(&content);
            assert_eq!(record[0] == 0x54, content.tolerance.one().is_some());
            let head = if record[0] == 0x54 { 9 } else { 17 };
            assert_eq!(decode(&record), Ok(content));
            let at = random.below(record.len() as u64) as usize;
            record[at] = random.bits() as u8;
            record.truncate(random.choose(&[at, record.len(), record.len()]));
            match decode(&record) {
                Ok(content) => {
                    assert_eq!(encode(&content), record);
                    seen[0] += 1;
                }
                Err(fault) => {
                    let mut record = record[..fault].to_vec();
                    if fault == 0 {
                        record.extend(tolerance(0, 1));
                    }
                    if fault == 0 || fault == head {
                        record.extend(first(0, 0));
                    }
                    let ended = decode(&record).is_ok();
                    assert!(
                        ended || (1..=12).any(|n| decode(&[&record[..], &end(n)].concat()).is_ok())
                    );
                    seen[1] += 1;
                }
            }
        }
        assert!(seen.iter().all(|&count| count > 300), "{seen:?}");
    }
}
