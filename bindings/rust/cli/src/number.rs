//! Decimal numbers, exactly as they are written: an optional sign, digits with an optional point, and
//! an optional exponent. Nothing is rounded.

/// Plus or minus digits times 10^power. The digits do not end with a zero.
#[derive(Clone, Copy, Debug, PartialEq, Eq)]
pub struct Decimal {
    negative: bool,
    digits: i128,
    power: i64,
}

/// A number times a factor.
#[derive(Clone, Copy, Debug, PartialEq, Eq)]
pub enum Product {
    Whole(i128),
    Fraction,
    /// Beyond every limit here.
    Huge,
}

const NONE: &str = "not a number";
const LONG: &str = "a number with too many digits";

/// The digits are below this, so that their product with any factor is exact.
const DIGITS: i128 = i128::MAX >> u32::BITS;

/// Longer exponents are cut to this; no limit here is near 10^30.
const EXPONENT: i64 = 1_000_000;

impl Decimal {
    /// The number, or why it is none.
    pub fn parse(text: &str) -> Result<Decimal, &'static str> {
        let (negative, unsigned) = match text.as_bytes() {
            [b'-', ..] => (true, &text[1..]),
            [b'+', ..] => (false, &text[1..]),
            _ => (false, text),
        };
        let (mantissa, exponent) = match unsigned.find(['e', 'E']) {
            Some(at) => (&unsigned[..at], exponent(&unsigned[at + 1..]).ok_or(NONE)?),
            None => (unsigned, 0),
        };
        let (whole, fraction) = mantissa.split_once('.').unwrap_or((mantissa, ""));
        let all = || whole.bytes().chain(fraction.bytes());
        if all().next().is_none() || !all().all(|byte| byte.is_ascii_digit()) {
            return Err(NONE);
        }
        let (mut digits, mut zeros) = (0, 0u32);
        for byte in all() {
            if byte == b'0' {
                zeros += 1;
                continue;
            }
            digits = appended(digits, zeros, byte - b'0').ok_or(LONG)?;
            zeros = 0;
        }
        Ok(Decimal {
            negative,
            digits,
            power: exponent + i64::from(zeros) - fraction.len() as i64,
        })
    }

    /// The number times the factor, exactly.
    pub fn times(self, factor: u32) -> Product {
        let ten = |power: i64| 10i128.checked_pow(power.try_into().ok()?);
        let product = self.digits * i128::from(factor);
        let size = match (product, self.power) {
            (0, _) => 0,
            (_, 0..) => match ten(self.power).and_then(|ten| product.checked_mul(ten)) {
                Some(size) => size,
                None => return Product::Huge,
            },
            _ => match ten(-self.power) {
                Some(ten) if product % ten == 0 => product / ten,
                _ => return Product::Fraction,
            },
        };
        Product::Whole(if self.negative { -size } else { size })
    }
}

/// The digits with so many zeros and this digit after them; zeros before the first digit do not count.
fn appended(digits: i128, zeros: u32, digit: u8) -> Option<i128> {
    let shifted = match digits {
        0 => 0,
        _ => digits.checked_mul(10i128.checked_pow(zeros + 1)?)?,
    };
    let longer = shifted.checked_add(digit.into())?;
    (longer < DIGITS).then_some(longer)
}

/// The exponent, cut to plus or minus `EXPONENT`.
fn exponent(text: &str) -> Option<i64> {
    let (sign, digits) = match text.as_bytes() {
        [b'-', rest @ ..] => (-1, rest),
        [b'+', rest @ ..] => (1, rest),
        all => (1, all),
    };
    if digits.is_empty() || !digits.iter().all(u8::is_ascii_digit) {
        return None;
    }
    let size = digits.iter().fold(0, |size, &digit| {
        EXPONENT.min(10 * size + i64::from(digit - b'0'))
    });
    Some(sign * size)
}

#[cfg(test)]
mod tests {
    use super::Product::{Fraction, Huge, Whole};
    use super::*;

    #[test]
    fn exact_products() {
        for (text, factor, expected) in [
            ("0", 1, Whole(0)),
            ("-0", 1, Whole(0)),
            ("007", 1, Whole(7)),
            ("+7", 1, Whole(7)),
            ("-32768", 1, Whole(-32_768)),
            ("4294967296", 1, Whole(1 << 32)),
            ("1.000000000000000000e+00", 1, Whole(1)),
            ("1.2e1", 1, Whole(12)),
            ("1200e-2", 1, Whole(12)),
            ("1.25e1", 1, Fraction),
            ("5.", 1, Whole(5)),
            (".5", 2, Whole(1)),
            ("1.5", 64, Whole(96)),
            ("0.015625", 64, Whole(1)),
            ("0.0156250000000000000001", 64, Fraction),
            ("0.1", 64, Fraction),
            ("1e-999999999999999999999", 64, Fraction),
            ("0e999999999999999999999", 1, Whole(0)),
            ("1e999999999999999999999", 1, Huge),
            ("1e40", 1, Huge),
            ("1e-1000000", 1, Fraction),
            (
                "100000000000000000000000000000000000000000e-41",
                1,
                Whole(1),
            ),
            (
                "0.000000000000000000000000000000000000000001e42",
                1,
                Whole(1),
            ),
        ] {
            let number = Decimal::parse(text).unwrap();
            assert_eq!(number.times(factor), expected, "{text}");
        }
    }

    #[test]
    fn no_numbers() {
        for text in [
            "", "-", "+", ".", "e1", "1e", "1e+", "--1", "0x10", "1_000", "nan", "inf", "1.2.3",
            "1 2", "1,5", "٣", "1e1.5", "é",
        ] {
            assert_eq!(Decimal::parse(text), Err(NONE), "{text}");
        }
        for text in [
            "1".repeat(40),
            format!("1{}1", "0".repeat(40)),
            format!("2.{}1", "0".repeat(36)),
        ] {
            assert_eq!(Decimal::parse(&text), Err(LONG), "{text}");
        }
    }
}
