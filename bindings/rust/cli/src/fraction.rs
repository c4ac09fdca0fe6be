//! Exact fractions beyond the limits of a tolerance: sums of up to four tolerances or parts.

use kovrelna::Ratio;
use std::cmp::Ordering;
use std::fmt::{self, Display, Formatter};
use std::ops::Add;

/// p/q in lowest terms. It need not be an allowed tolerance. Of a sum of four parts, whose denominators
/// are below 2^20 and which are below 2^16, q is below 2^80 and p below 2^98.
#[derive(Clone, Copy, Debug, PartialEq, Eq)]
pub struct Fraction {
    pub p: u128,
    pub q: u128,
}

impl From<Ratio> for Fraction {
    fn from(Ratio { p, q }: Ratio) -> Fraction {
        Fraction {
            p: p.into(),
            q: q.into(),
        }
    }
}

impl Add<Ratio> for Fraction {
    type Output = Fraction;

    fn add(self, other: Ratio) -> Fraction {
        let other = Fraction::from(other);
        let (p, q) = (self.p * other.q + other.p * self.q, self.q * other.q);
        let (mut divisor, mut rest) = (q, p % q);
        while rest > 0 {
            (divisor, rest) = (rest, divisor % rest);
        }
        Fraction {
            p: p / divisor,
            q: q / divisor,
        }
    }
}

impl Display for Fraction {
    fn fmt(&self, f: &mut Formatter) -> fmt::Result {
        write!(f, "{}/{}", self.p, self.q)
    }
}

impl Fraction {
    /// How it compares with a ratio, whose denominator is below 2^20.
    pub fn compared(self, other: Ratio) -> Ordering {
        let Fraction { p, q } = other.into();
        (self.p * q).cmp(&(p * self.q))
    }
}

/// By cross multiplication.
pub fn compared(one: &Ratio, other: &Ratio) -> Ordering {
    Fraction::from(*one).compared(*other)
}
