//! The command `sum`: two traces with the same ticks added sample by sample, and what is kept of both.

use crate::args::Known;
use crate::budget::greatest;
use crate::failure::{Failure, Status};
use crate::fraction::{compared, Fraction};
use crate::line::{ratio, Limits, Line, Method};
use crate::line::{
    ABOVE, ABOVE2, BELOW, BELOW2, GAP, METHOD, OUTPUT, TOLERANCE, TOLERANCE2, TRACE,
};
use crate::measure::measures;
use crate::name::joined;
use crate::source::Source;
use crate::text::{self, Text};
use crate::tolerance::both;
use crate::{help, output, records};
use kovrelna::{hold, Parts, Ratio, ReducedTrace, Refusal, Tolerance};
use std::cmp::Ordering;
use std::ffi::{OsStr, OsString};

pub fn sum(arguments: &[OsString]) -> Result<Status, Failure> {
    let second_tolerance = [TOLERANCE2, ABOVE2, BELOW2];
    let others = [TOLERANCE, ABOVE, BELOW, GAP, METHOD, OUTPUT, TRACE];
    let options = [&second_tolerance[..], &others].concat();
    let line = Line::parse("sum", &options, arguments)?;
    if line.arguments.help {
        return output::print(help::SUM);
    }
    let Some((method, first)) = line.reduction()? else {
        return Err(line.wrong("--tolerance is missing"));
    };
    let second = match line.tolerance(second_tolerance)? {
        Some(held) => Limits { held, ..first },
        None => first,
    };
    let (record, trace) = (file(&line, OUTPUT)?, file(&line, TRACE)?);
    if let (Some(record), Some(trace)) = (record, trace) {
        if output::are_same(record, trace) {
            return Err(line.wrong("--output and --trace name the same file"));
        }
    }
    let [one, other] = line.inputs()?[..] else {
        return Err(line.wrong("two traces are wanted"));
    };
    let one = Reduced::read(one, method, first)?;
    let other = Reduced::read(other, method, second)?;
    let exact = bound(first.held, second.held);
    let tolerance = allowed(exact);
    let limits = Limits {
        held: both(tolerance),
        ..first
    };
    let sum = Sum::of(&one, &other, limits).map_err(|refusal| refused(&one, &other, refusal))?;
    if let Some(trace) = trace {
        let text = text::lines(&one.text.ticks, &sum.values);
        output::write(Some(trace), text.as_bytes(), true)?;
    }
    if let Some(record) = record {
        output::write(Some(record), &sum.record, false)?;
    }
    output::print(format!(
        "samples {}\nkept {}, joined from {} and {}\n{}\nerror {}\n",
        sum.values.len(),
        sum.list.len(),
        one.list.len(),
        other.list.len(),
        tolerance_line(tolerance, exact),
        ratio(sum.error)
    ))
}

/// The file that this option names, if it is given.
fn file(line: &Line, option: Known) -> Result<Option<&OsStr>, Failure> {
    let wrong = |cause| Err(line.wrong(format!("--{}: {cause}", option.name)));
    match line.value(option) {
        Some(path) if path == "-" => wrong("a file is wanted: standard output has the answer"),
        Some(path) if path.is_empty() => wrong("the name is empty"),
        path => Ok(path),
    }
}

/// A trace and what is kept of it.
struct Reduced {
    text: Text,
    list: Vec<u16>,
}

impl Reduced {
    fn read(input: &OsStr, method: Method, limits: Limits) -> Result<Reduced, Failure> {
        let text = Text::read(Source::open(Some(input))?)?.original()?;
        let list = method.list(&text, limits)?;
        Ok(Reduced { text, list })
    }

    fn trace(&self) -> ReducedTrace<'_> {
        ReducedTrace {
            ticks: &self.text.ticks,
            values: &self.text.values,
            list: &self.list,
        }
    }
}

/// Two traces added.
struct Sum {
    values: Vec<i16>,
    /// The joined list.
    list: Vec<u16>,
    /// Its error.
    error: Ratio,
    /// Its record.
    record: Vec<u8>,
}

impl Sum {
    /// The limits are those of the record.
    fn of(one: &Reduced, other: &Reduced, limits: Limits) -> Result<Sum, Refusal> {
        let ticks = &one.text.ticks;
        let (mut values, mut list) = (vec![0; ticks.len()], vec![0; ticks.len()]);
        let kept = kovrelna::sum(one.trace(), other.trace(), &mut values, &mut list)?;
        list.truncate(kept);
        let measures = measures(ticks, &values, &list)?;
        let errors = measures.iter().map(|measure| measure.error);
        let error = greatest(errors).unwrap_or_default();
        let record = records::save(ticks, &values, &list, limits)?;
        Ok(Sum {
            values,
            list,
            error,
            record,
        })
    }
}

/// The refusal at the samples that it is about.
fn refused(one: &Reduced, other: &Reduced, refusal: Refusal) -> Failure {
    let (one, other) = (&one.text, &other.text);
    Failure::Told(match refusal {
        Refusal::Mismatch(sample) => mismatch(one, other, sample),
        Refusal::Overflow(sample) => overflow(one, other, sample),
        refusal => joined(&[&one.name, &" and ", &other.name, &format!(": {refusal}")]),
    })
}

/// The ticks of this sample differ, or one of the traces does not have it.
fn mismatch(one: &Text, other: &Text, sample: usize) -> OsString {
    let lacks = |short: &Text, long: &Text| {
        let lacked = format!(": there is no sample {sample}, which ");
        let at = format!(" has at tick {}", long.ticks[sample]);
        joined(&[&short.name, &lacked, &long.line_of(sample), &at])
    };
    if sample == one.ticks.len() {
        return lacks(one, other);
    }
    if sample == other.ticks.len() {
        return lacks(other, one);
    }
    let [tick, other_tick] = [one, other].map(|text| text.ticks[sample]);
    let at = format!("sample {sample} is at tick {tick}, and at tick {other_tick} in ");
    let cause = format!(": the ticks differ: {at}");
    joined(&[&one.line_of(sample), &cause, &other.line_of(sample)])
}

/// The sum of this sample is no value.
fn overflow(one: &Text, other: &Text, sample: usize) -> OsString {
    let tick = one.ticks[sample];
    let [value, other_value] = [one, other].map(|text| i32::from(text.values[sample]));
    let has = format!(": sample {sample} at tick {tick} has value {value}, and ");
    let sum = value + other_value;
    let cause = format!(" has {other_value}: their sum {sum} is not from -32768 to 32767");
    joined(&[&one.line_of(sample), &has, &other.line_of(sample), &cause])
}

/// U1 + D1 + U2 + D2, which is 2 (T1 + T2) for tolerances with equal parts.
fn bound(one: Parts, other: Parts) -> Fraction {
    Fraction::from(one.above) + one.below + other.above + other.below
}

/// The greatest allowed tolerance. No link's error is above it, as all values are from -32768 to 32767.
const GREATEST: Ratio = Ratio { p: 65_535, q: 1 };
/// The greatest denominator of an allowed tolerance.
const DENOMINATOR: u64 = 1_048_575;

/// The least allowed tolerance that is not below this one; the greatest if there is none.
fn allowed(exact: Fraction) -> Ratio {
    match held(exact) {
        Some(held) => held,
        None if exact.compared(GREATEST).is_gt() => GREATEST,
        None => not_below(exact, DENOMINATOR),
    }
}

/// The fraction as a tolerance, if it is an allowed one.
fn held(Fraction { p, q }: Fraction) -> Option<Ratio> {
    let (p, q) = (p.try_into().ok()?, q.try_into().ok()?);
    let held = hold(Tolerance::Ratio { p, q }).ok()?;
    held.one()
}

/// Of the fractions with a denominator of at most `most`, the least that is not below p/q, which is at
/// most the greatest tolerance; in lowest terms.
fn not_below(Fraction { p, q }: Fraction, most: u64) -> Ratio {
    // What is left beside whole counts, times any denominator, is below 2^100.
    let (whole, left) = (p / q, p % q);
    let of = |denominator: u64| {
        let times = u128::from(denominator);
        Ratio {
            p: (whole * times + (left * times).div_ceil(q)) as u64,
            q: denominator,
        }
    };
    // Of equal fractions the first is taken, which is in lowest terms.
    (1..=most).map(of).min_by(compared).unwrap_or_default()
}

/// The tolerance of the record, and the exact bound if that is another.
fn tolerance_line(held: Ratio, exact: Fraction) -> String {
    let line = format!("tolerance {}", ratio(held));
    let cause = match exact.compared(held) {
        Ordering::Equal => return line,
        Ordering::Less => "whose denominator is above 1,048,575",
        Ordering::Greater => "which is above 65,535",
    };
    format!("{line} in place of {exact}, {cause}")
}

#[cfg(test)]
mod tests {
    use super::*;

    fn of(p: u64, q: u64) -> Ratio {
        Ratio { p, q }
    }

    /// The terms of 2 (1/1048575 + 1/1048574).
    const LONG: Ratio = Ratio {
        p: 2_097_149,
        q: 549_754_241_025,
    };

    #[test]
    fn bounds() {
        let greatest = of(65_535 * DENOMINATOR - 1, DENOMINATOR);
        for (one, other, expected) in [
            (of(0, 1), of(0, 1), of(0, 1)),
            (of(1, 3), of(0, 1), of(2, 3)),
            (of(0, 1), of(1, 1), of(2, 1)),
            (of(1, 4), of(1, 4), of(1, 1)),
            (of(1, 6), of(1, 10), of(8, 15)),
            (of(1, 1_048_575), of(1, 1_048_575), of(4, 1_048_575)),
            (of(1, 1_048_575), of(1, 1_048_574), LONG),
            (of(65_535, 1), of(65_535, 1), of(262_140, 1)),
            (greatest, greatest, of(4 * greatest.p, DENOMINATOR)),
            (
                greatest,
                of(65_535 * 1_048_574 - 1, 1_048_574),
                of(144_112_576_740_196_351, LONG.q),
            ),
        ] {
            let expected = expected.into();
            let (one, other) = (both(one), both(other));
            assert_eq!(bound(one, other), expected);
            assert_eq!(bound(other, one), expected);
        }
    }

    /// The sum of all four parts, whichever part of whichever trace they are.
    #[test]
    fn bounds_of_parts() {
        // The four denominators whose product is greatest, of those that have no divisor in common.
        let denominators = [0, 1, 2, 4].map(|less| DENOMINATOR - less);
        let q = 1_208_913_137_523_158_412_165_150;
        let (least, greatest) = (
            4_611_649_734_629_654_467,
            316_904_489_865_709_096_430_342_766_533,
        );
        for (parts, expected) in [
            ([of(2, 1), of(1, 1), of(0, 1), of(0, 1)], of(3, 1).into()),
            ([of(1, 2), of(1, 3), of(1, 4), of(1, 5)], of(77, 60).into()),
            ([of(1, 6), of(1, 10), of(2, 15), of(3, 5)], of(1, 1).into()),
            (denominators.map(|q| of(1, q)), Fraction { p: least, q }),
            (
                denominators.map(|q| of(65_535 * q - 1, q)),
                Fraction { p: greatest, q },
            ),
        ] {
            for turn in 0..4 {
                let mut turned = parts;
                turned.rotate_left(turn);
                let [one, other] = [0, 2].map(|k| Parts {
                    above: turned[k],
                    below: turned[k + 1],
                });
                assert_eq!(bound(one, other), expected);
            }
        }
        let place = format!("/{q}, whose denominator is above 1,048,575");
        let line = format!("tolerance 4/1048573 in place of {least}{place}");
        let exact = Fraction { p: least, q };
        assert_eq!(allowed(exact), of(4, 1_048_573));
        assert_eq!(tolerance_line(allowed(exact), exact), line);
        let exact = Fraction { p: greatest, q };
        let line = format!("tolerance 65535/1 in place of {greatest}/{q}, which is above 65,535");
        assert_eq!(tolerance_line(allowed(exact), exact), line);
    }

    #[test]
    fn least_allowed() {
        for (exact, expected, line) in [
            (of(0, 1), of(0, 1), "0/1"),
            (of(2, 3), of(2, 3), "2/3"),
            (of(4, 1_048_575), of(4, 1_048_575), "4/1048575"),
            (of(65_535, 1), of(65_535, 1), "65535/1"),
            (
                LONG,
                of(2, 524_287),
                "2/524287 in place of 2097149/549754241025, whose denominator is above 1,048,575",
            ),
            (
                of(1, 1_048_576),
                of(1, 1_048_575),
                "1/1048575 in place of 1/1048576, whose denominator is above 1,048,575",
            ),
            (
                of(65_535 * LONG.q - 1, LONG.q),
                of(65_535, 1),
                "65535/1 in place of 36028144185573374/549754241025, \
                 whose denominator is above 1,048,575",
            ),
            (
                of(131_071, 2),
                of(65_535, 1),
                "65535/1 in place of 131071/2, which is above 65,535",
            ),
            (
                of(65_535 * LONG.q + 1, LONG.q),
                of(65_535, 1),
                "65535/1 in place of 36028144185573376/549754241025, which is above 65,535",
            ),
            (
                of(262_140, 1),
                of(65_535, 1),
                "65535/1 in place of 262140/1, which is above 65,535",
            ),
        ] {
            let exact = exact.into();
            let found = allowed(exact);
            assert_eq!(found, expected);
            assert_eq!(tolerance_line(found, exact), format!("tolerance {line}"));
        }
    }

    /// Beside all fractions of such denominators.
    #[test]
    fn not_below_by_trial() {
        for most in 1..=9 {
            let all = (1..=most).flat_map(|q| (0..=3 * q).map(move |p| of(p, q)));
            let mut all: Vec<Ratio> = all.collect();
            // Of equal fractions, the one in lowest terms comes first.
            all.sort_by(compared);
            for q in 1..=40 {
                for p in 0..=3 * q {
                    let exact = of(p, q);
                    let least = all.iter().find(|other| compared(other, &exact).is_ge());
                    let found = not_below(exact.into(), most);
                    assert_eq!(found, *least.unwrap(), "{p}/{q} {most}");
                }
            }
        }
    }
}
