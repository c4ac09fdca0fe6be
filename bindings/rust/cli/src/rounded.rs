//! Exact numbers as they are printed: rounded to thousandths, and halves away from 0.

/// p/q, where q is above 0.
pub fn ratio(p: i64, q: i64) -> String {
    let size = (2_000 * p.abs() + q) / (2 * q);
    let sign = if p < 0 && size > 0 { "-" } else { "" };
    format!("{sign}{}", decimal(size))
}

/// The square root of a number, divided by q, which is above 0.
pub fn root(square: u64, q: u64) -> String {
    // Twice the thousandths, times q, rounded down: no whole number lies between them and this.
    let twice = (4_000_000 * u128::from(square)).isqrt();
    let q = u128::from(q);
    decimal(((twice + q) / (2 * q)) as i64)
}

/// So many thousandths.
fn decimal(thousandths: i64) -> String {
    format!("{}.{:03}", thousandths / 1_000, thousandths % 1_000)
}

#[cfg(test)]
mod tests {
    use super::*;

    #[test]
    fn ratios() {
        for (p, q, expected) in [
            (0, 7, "0.000"),
            (2, 3, "0.667"),
            (-2, 3, "-0.667"),
            (1, 2_000, "0.001"),
            (-1, 2_000, "-0.001"),
            (-1, 2_001, "0.000"),
            (1, 16, "0.063"),
            (3, 16, "0.188"),
            (-4_096 * 32_768, 4_096, "-32768.000"),
            (65_535 * 1_048_575 - 1, 1_048_575, "65535.000"),
            (65_535 * 1_048_575, 1_048_575, "65535.000"),
        ] {
            assert_eq!(ratio(p, q), expected, "{p}/{q}");
        }
    }

    #[test]
    fn roots() {
        for (square, q, expected) in [
            (0, 4_096, "0.000"),
            (2, 1, "1.414"),
            (2, 3, "0.471"),
            (4, 6, "0.333"),
            (1, 2_000, "0.001"),
            (1, 2_001, "0.000"),
            // A half, and the nearest squares to it: 0.0625.
            (1 << 48, 1 << 28, "0.063"),
            ((1 << 48) - 1, 1 << 28, "0.062"),
            ((1 << 48) + 1, 1 << 28, "0.063"),
            // The same where the root of a rounded number would be the half.
            (2_147_483_633u64.pow(2), 16, "134217727.063"),
            (2_147_483_633u64.pow(2) - 1, 16, "134217727.062"),
            // The greatest width, of as many least as greatest values, and 16 times it.
            (65_535 * 65_535, 2, "32767.500"),
            ((2_048 * 65_535u64).pow(2), 4_096, "32767.500"),
            ((16 * 2_048 * 65_535u64).pow(2), 4_096, "524280.000"),
        ] {
            assert_eq!(root(square, q), expected, "{square} {q}");
        }
    }

    /// Each is nearest, by squares of whole numbers.
    #[test]
    fn nearest_roots() {
        let mut square = 1u64;
        while square < 1 << 62 {
            for q in [1, 2, 3, 64, 4_095, 4_096] {
                let printed = root(square, q).replace('.', "");
                let twice = 2 * printed.parse::<u128>().unwrap();
                let exact = 4_000_000 * u128::from(square);
                let bound = |twice: u128| (twice * u128::from(q)).pow(2);
                assert!(twice == 0 || bound(twice - 1) <= exact, "{square} {q}");
                assert!(exact < bound(twice + 1), "{square} {q}");
            }
            square += square / 7 + 1;
        }
    }
}
