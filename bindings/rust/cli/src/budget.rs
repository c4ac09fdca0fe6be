//! What an error budget may say of samples kept at a tolerance. It is proved of every list whose links
//! are valid: docs/PROMISES.md, "Heights, means and areas". README has the same sentences.

use crate::fraction::{compared, Fraction};
use kovrelna::{Parts, Ratio};

/// The tolerance, and the sentences to copy.
pub fn text(tolerance: Parts) -> String {
    match tolerance.one() {
        Some(one) => text_of_one(one),
        None => text_of_parts(tolerance),
    }
}

/// For the same part above and below the lines.
fn text_of_one(tolerance: Ratio) -> String {
    let both = exact(tolerance);
    let (once, twice) = (
        short(tolerance),
        short(Fraction::from(tolerance) + tolerance),
    );
    format!(
        "greatest tolerance {both}\n\
         From the first kept sample to the last, at every tick, whole or fractional, \
         the straight lines between the samples kept at tolerance {both} \
         differ by at most {once} ADC counts from the straight lines between all samples of the original trace. \
         Their maximum is at most {once} too low and never too high, \
         their minimum at most {once} too high and never too low, \
         so a pulse height read off them as maximum minus minimum is at most {twice} too small and never too large. \
         Their mean over any window of ticks is within {once}, \
         and their area over any stretch of ticks within {once} times its length in ticks, \
         so a pulse height read off them as maximum minus the mean of a baseline window \
         is at most {twice} too small and at most {once} too large. \
         Reducing the kept samples again adds the two tolerances.\n"
    )
}

/// For parts that differ. No sample is above the lines by more than the part above: by so much the lines are
/// too low at most.
fn text_of_parts(Parts { above, below }: Parts) -> String {
    let tolerance = format!("{} above and {} below", exact(above), exact(below));
    let (low, high) = (short(above), short(below));
    let sum = short(Fraction::from(above) + below);
    format!(
        "greatest tolerance {tolerance}\n\
         From the first kept sample to the last, at every tick, whole or fractional, \
         the straight lines between all samples of the original trace are at most {low} ADC counts above \
         and at most {high} ADC counts below the straight lines between the samples kept at tolerance {tolerance}. \
         So the lines between the kept samples are at most {low} too low and at most {high} too high. \
         Their maximum is at most {low} too low and never too high, \
         their minimum at most {high} too high and never too low, \
         so a pulse height read off them as maximum minus minimum is at most {sum} too small and never too large. \
         Their mean over any window of ticks is at most {low} too low and at most {high} too high, \
         and their area over any stretch of ticks at most {low} times its length in ticks too small \
         and at most {high} times its length in ticks too large, \
         so a pulse height read off them as maximum minus the mean of a baseline window \
         is at most {sum} too small and at most {low} too large. \
         Reducing the kept samples again adds the two parts above and the two parts below.\n"
    )
}

/// The greatest of these.
pub fn greatest(ratios: impl IntoIterator<Item = Ratio>) -> Option<Ratio> {
    ratios.into_iter().max_by(compared)
}

/// The greatest part of each side.
pub fn greatest_parts(tolerances: &[Parts]) -> Option<Parts> {
    Some(Parts {
        above: greatest(tolerances.iter().map(|parts| parts.above))?,
        below: greatest(tolerances.iter().map(|parts| parts.below))?,
    })
}

/// The tolerance in words: `8`, or `8 above and 2 below` if its parts differ.
pub fn words(tolerance: Parts) -> String {
    let Parts { above, below } = tolerance;
    match tolerance.one() {
        Some(one) => ratio(one),
        None => format!("{} above and {} below", ratio(above), ratio(below)),
    }
}

/// p/q, or p if q is 1.
pub fn ratio(fraction: impl Into<Fraction>) -> String {
    let fraction = fraction.into();
    match fraction.q {
        1 => fraction.p.to_string(),
        _ => fraction.to_string(),
    }
}

/// p/q, and the decimal number that it is, if it has a short one.
fn exact(Ratio { p, q }: Ratio) -> String {
    let exact = ratio(Ratio { p, q });
    match decimal(p.into(), q.into()) {
        Some(decimal) if q > 1 => format!("{exact} ({decimal})"),
        _ => exact,
    }
}

/// A decimal number if there is a short one, or else p/q.
fn short(fraction: impl Into<Fraction>) -> String {
    let fraction = fraction.into();
    decimal(fraction.p, fraction.q).unwrap_or_else(|| ratio(fraction))
}

/// p/q, which is in lowest terms, as a decimal number, if it has at most 6 decimals.
fn decimal(p: u128, q: u128) -> Option<String> {
    let places = (0..=6).find(|&places| 10u128.pow(places) % q == 0)?;
    let (whole, rest) = (p / q, p % q * (10u128.pow(places) / q));
    Some(match places {
        0 => whole.to_string(),
        _ => format!("{whole}.{rest:0width$}", width = places as usize),
    })
}

#[cfg(test)]
mod tests {
    use super::*;
    use crate::tolerance::both;

    #[test]
    fn decimals() {
        for (p, q, expected) in [
            (0, 1, Some("0")),
            (65_535, 1, Some("65535")),
            (3, 2, Some("1.5")),
            (1, 64, Some("0.015625")),
            (4_194_239, 64, Some("65534.984375")),
            (21, 20, Some("1.05")),
            (1, 1_000_000, Some("0.000001")),
            (2, 3, None),
            (1, 128, None),
            (1, 1_048_575, None),
        ] {
            assert_eq!(decimal(p, q).as_deref(), expected, "{p}/{q}");
        }
    }

    #[test]
    fn order() {
        let ratio = |(p, q)| Ratio { p, q };
        let of = |list: &[(u64, u64)]| greatest(list.iter().copied().map(ratio));
        assert_eq!(of(&[]), None);
        assert_eq!(of(&[(2, 3), (0, 1), (3, 4), (1, 2)]), Some(ratio((3, 4))));
        let near = [(68_717_379_749, 1_048_575), (68_717_314_215, 1_048_574)];
        assert_eq!(of(&near), Some(ratio(near[1])));
    }

    #[test]
    fn amounts() {
        for (p, q, amounts) in [
            (
                8,
                1,
                ["tolerance 8 differ", "most 8 ADC", "most 16 too small"],
            ),
            (
                3,
                2,
                [
                    "tolerance 3/2 (1.5) differ",
                    "most 1.5 ADC",
                    "most 3 too small",
                ],
            ),
            (
                1,
                4,
                [
                    "tolerance 1/4 (0.25) differ",
                    "most 0.25 ADC",
                    "most 0.5 too small",
                ],
            ),
            (
                2,
                3,
                ["tolerance 2/3 differ", "most 2/3 ADC", "most 4/3 too small"],
            ),
            (
                5,
                6,
                ["tolerance 5/6 differ", "most 5/6 ADC", "most 5/3 too small"],
            ),
        ] {
            let text = text(both(Ratio { p, q }));
            for amount in amounts {
                assert!(text.contains(amount), "{amount}: {text}");
            }
            assert_eq!(text.lines().count(), 2);
        }
    }

    /// Each part on its own side, and their sum.
    #[test]
    fn amounts_of_parts() {
        for (above, below, amounts) in [
            (
                (3, 2),
                (1, 3),
                [
                    "tolerance 3/2 (1.5) above and 1/3 below\n",
                    "trace are at most 1.5 ADC counts above and at most 1/3 ADC counts below the",
                    "at tolerance 3/2 (1.5) above and 1/3 below. So",
                    "samples are at most 1.5 too low and at most 1/3 too high. ",
                    "maximum is at most 1.5 too low and never too high",
                    "minimum at most 1/3 too high and never too low",
                    "minus minimum is at most 11/6 too small and never too large",
                    "window of ticks is at most 1.5 too low and at most 1/3 too high",
                    "at most 1.5 times its length in ticks too small",
                    "at most 1/3 times its length in ticks too large",
                    "baseline window is at most 11/6 too small and at most 1.5 too large",
                ],
            ),
            (
                (0, 1),
                (1_048_573, 1_048_575),
                [
                    "tolerance 0 above and 1048573/1048575 below\n",
                    "trace are at most 0 ADC counts above",
                    "and at most 1048573/1048575 ADC counts below the",
                    "samples are at most 0 too low and at most 1048573/1048575 too high. ",
                    "maximum is at most 0 too low and never too high",
                    "minimum at most 1048573/1048575 too high and never too low",
                    "minus minimum is at most 1048573/1048575 too small and never too large",
                    "window of ticks is at most 0 too low and at most 1048573/1048575 too high",
                    "at most 0 times its length in ticks too small",
                    "at most 1048573/1048575 times its length in ticks too large",
                    "window is at most 1048573/1048575 too small and at most 0 too large",
                ],
            ),
        ] {
            let ratio = |(p, q)| Ratio { p, q };
            let (above, below) = (ratio(above), ratio(below));
            let text = text(Parts { above, below });
            for amount in amounts {
                assert!(text.contains(amount), "{amount}: {text}");
            }
            assert_eq!(text.lines().count(), 2);
        }
    }

    #[test]
    fn greatest_of_each_side() {
        let ratio = |(p, q)| Ratio { p, q };
        let parts = |(above, below)| Parts {
            above: ratio(above),
            below: ratio(below),
        };
        let of = |list: &[_]| greatest_parts(&list.iter().copied().map(parts).collect::<Vec<_>>());
        assert_eq!(of(&[]), None);
        let (two, three, five) = ((2, 3), (3, 4), (5, 1));
        let list = [(two, five), (three, two), (two, two)];
        assert_eq!(of(&list), Some(parts((three, five))));
        assert_eq!(of(&[(two, five), (five, two)]), Some(both(ratio(five))));
    }
}
