//! A tolerance, or one of its parts, as it is written on the command line: `p/q`, counts such as `2` or
//! `1.5`, or a noise and a multiple such as `3.25x4`. The library decides what is allowed.

use crate::number::{Decimal, Product};
use kovrelna::{hold, Parts, Ratio, Tolerance};

/// The ratio as which it is held, or why it is refused.
pub fn parse(text: &str) -> Result<Ratio, String> {
    let tolerance = form(text)?;
    match hold(tolerance) {
        // Both parts are the same.
        Ok(held) => Ok(held.above),
        Err(refusal) => Err(format!("{refusal}: {}", allowed(tolerance))),
    }
}

/// The parts in the line of a trace: one ratio for both, or two with a space between, the part above
/// first. Two may be equal, as two options may.
pub fn parse_line(text: &str) -> Result<Parts, String> {
    let Some((above, below)) = text.split_once(' ') else {
        return parse(text).map(both);
    };
    let part = |side, text| parse(text).map_err(|cause| format!("the part {side}: {cause}"));
    Ok(Parts {
        above: part("above", above)?,
        below: part("below", below)?,
    })
}

/// The same part above and below the line.
pub fn both(ratio: Ratio) -> Parts {
    Parts {
        above: ratio,
        below: ratio,
    }
}

fn form(text: &str) -> Result<Tolerance, String> {
    if let Some((p, q)) = text.split_once('/') {
        let (p, q) = (whole(p)?, whole(q)?);
        Ok(Tolerance::Ratio { p, q })
    } else if text.trim().starts_with("0x") {
        let cause = "could be meant as a hexadecimal number; write 0 for the tolerance 0";
        Err(format!("`{}` {cause}", text.trim()))
    } else if let Some((noise, multiple)) = text.split_once(['x', '*']) {
        Ok(Tolerance::Noise {
            noise: steps(noise, 64)?,
            multiple: steps(multiple, 8)?,
        })
    } else {
        let counts = steps(text, 64).map_err(|cause| cause + &as_ratio(text))?;
        Ok(Tolerance::Counts(counts))
    }
}

fn number(text: &str) -> Result<Decimal, String> {
    let text = text.trim();
    Decimal::parse(text).map_err(|cause| format!("`{text}` is {cause}"))
}

/// A part of a ratio.
fn whole(text: &str) -> Result<u64, String> {
    let wrong = || format!("`{}` is no whole number that a ratio may have", text.trim());
    match number(text)?.times(1) {
        Product::Whole(n) => n.try_into().map_err(|_| wrong()),
        _ => Err(wrong()),
    }
}

/// The number as an f64, which holds it exactly wherever it is within the limits.
fn steps(text: &str, in_one: u32) -> Result<f64, String> {
    match number(text)?.times(in_one) {
        Product::Whole(n) => Ok(n as f64 / f64::from(in_one)),
        Product::Huge => Ok(f64::INFINITY),
        Product::Fraction => Err(format!("`{}` is not a multiple of 1/{in_one}", text.trim())),
    }
}

/// How counts that are not in steps can be written, if they can.
fn as_ratio(text: &str) -> String {
    let millionths = number(text).map(|number| number.times(1_000_000));
    if let Ok(Product::Whole(n)) = millionths {
        let p = u64::try_from(n).unwrap_or(u64::MAX);
        // The library reduces the ratio; a million is an allowed denominator.
        if let Ok(held) = hold(Tolerance::Ratio { p, q: 1_000_000 }) {
            return format!("; write the ratio {held}");
        }
    }
    String::new()
}

/// What is allowed in this form.
fn allowed(tolerance: Tolerance) -> &'static str {
    match tolerance {
        Tolerance::Ratio { .. } | Tolerance::Parts(_) => {
            "p/q has q from 1 to 1,048,575 and p from 0 to 65,535 times q"
        }
        Tolerance::Counts(_) => "counts are from 0 to 65,535",
        Tolerance::Noise { .. } => "the noise is from 0 to 1,023 and the multiple from 0 to 63",
    }
}

#[cfg(test)]
mod tests {
    use super::*;

    #[test]
    fn forms() {
        for (text, p, q) in [
            ("4/6", 2, 3),
            ("0/7", 0, 1),
            (" 2 / 3 ", 2, 3),
            ("2", 2, 1),
            ("1.5", 3, 2),
            ("15e-1", 3, 2),
            ("-0", 0, 1),
            ("0.015625", 1, 64),
            ("65535", 65_535, 1),
            ("3.25x4", 13, 1),
            ("3.25*4", 13, 1),
            ("1.5x2.125", 51, 16),
            ("1023x63", 64_449, 1),
        ] {
            assert_eq!(parse(text), Ok(Ratio { p, q }), "{text}");
        }
    }

    #[test]
    fn lines() {
        let (two, one) = (Ratio { p: 2, q: 1 }, Ratio { p: 1, q: 1 });
        let (above, below) = (two, one);
        for (line, parts) in [
            ("2/1", both(two)),
            ("2/1 1/1", Parts { above, below }),
            ("4/2 3/3", Parts { above, below }),
            ("2/1 4/2", both(two)),
        ] {
            assert_eq!(parse_line(line), Ok(parts), "{line}");
        }
        for (line, cause) in [
            ("1/0", "the tolerance is not allowed: p/q has"),
            (
                "1/0 65536/1",
                "the part above: the tolerance is not allowed: p/q has",
            ),
            (
                "1/1 65536/1",
                "the part below: the tolerance is not allowed: p/q has",
            ),
        ] {
            let told = parse_line(line).unwrap_err();
            assert!(told.starts_with(cause), "{line}: {told}");
        }
    }

    #[test]
    fn refused() {
        for (text, cause) in [
            ("", "`` is not a number"),
            ("two", "`two` is not a number"),
            ("nan", "`nan` is not a number"),
            ("1/", "`` is not a number"),
            ("1/0", "the tolerance is not allowed: p/q has"),
            ("-1/2", "`-1` is no whole number"),
            ("1.5/2", "`1.5` is no whole number"),
            ("18446744073709551616/1", "is no whole number"),
            (
                "0.1",
                "`0.1` is not a multiple of 1/64; write the ratio 1/10",
            ),
            ("0.0156250000000000000001", "is not a multiple of 1/64"),
            ("-0.1", "`-0.1` is not a multiple of 1/64"),
            ("-1", "the tolerance is not allowed: counts are"),
            ("65535.015625", "the tolerance is not allowed: counts are"),
            ("1e99", "the tolerance is not allowed: counts are"),
            ("1e-99", "`1e-99` is not a multiple of 1/64"),
            ("3.25x0.1", "`0.1` is not a multiple of 1/8"),
            ("3x64", "the tolerance is not allowed: the noise is"),
            ("3x4x5", "`4x5` is not a number"),
            ("0x10", "`0x10` could be meant as a hexadecimal number"),
        ] {
            let told = parse(text).unwrap_err();
            assert!(told.contains(cause), "{text}: {told}");
        }
    }
}
