use kovrelna::Tolerance;
use kovrelna::Tolerance::Counts;
use kovrelna_evidence::cases::held_tolerances;
use kovrelna_evidence::compare::{exactly_parts, hold, judge, noise, parts, ratio, reduce};
use kovrelna_reference::generate::Random;
use kovrelna_reference::{Fraction, Row, METHODS};

/// p and q of a ratio.
type Ratio = (u64, u64);

const REFUSED: Result<Ratio, Row> = Err((4, 0));

fn ratio_of(Fraction { p, q }: Fraction) -> Ratio {
    (p as u64, q as u64)
}

/// The ratio as which a tolerance is held that has the same part above and below.
fn held(tolerance: Tolerance) -> Result<Ratio, Row> {
    hold(tolerance).map(|held| {
        assert_eq!(held.above, held.below, "{tolerance:?}");
        ratio_of(held.above)
    })
}

/// The float one step further from zero, and the one a step nearer.
fn neighbours(x: f64) -> [f64; 2] {
    [x.to_bits() + 1, x.to_bits() - 1].map(f64::from_bits)
}

/// Floats at every limit and of every sort, with both signs.
fn awkward() -> Vec<f64> {
    let mut floats = vec![
        0.0,
        5e-324,
        f64::MIN_POSITIVE,
        1e300,
        f64::MAX,
        f64::INFINITY,
        f64::NAN,
        f64::from_bits(0x7ff0_0000_0000_0001),
        f64::from_bits(0x7fff_ffff_ffff_ffff),
        1.0 / 3.0,
        2f64.powi(52),
        2f64.powi(63),
        2f64.powi(64),
        2f64.powi(70),
    ];
    for limit in [0.0, 1.0, 63.0, 1_023.0, 32_768.0, 65_535.0, 65_536.0] {
        for step in [
            0.0,
            0.003_906_25,
            0.007_812_5,
            0.015_625,
            0.062_5,
            0.125,
            0.5,
        ] {
            floats.extend([limit + step, limit - step]);
        }
        floats.extend(neighbours(limit + 0.125));
        floats.extend(neighbours(limit.max(0.015_625)));
    }
    let negative: Vec<f64> = floats.iter().map(|x| -x).collect();
    floats.extend(negative);
    floats
}

#[test]
fn counts_by_hand() {
    for (counts, expected) in [
        (0.0, Ok((0, 1))),
        (-0.0, Ok((0, 1))),
        (0.015_625, Ok((1, 64))),
        (0.75, Ok((3, 4))),
        (2.0, Ok((2, 1))),
        (65_534.984_375, Ok((4_194_239, 64))),
        (65_535.0, Ok((65_535, 1))),
        (65_535.015_625, REFUSED),
        (neighbours(65_535.0)[0], REFUSED),
        (neighbours(65_535.0)[1], REFUSED),
        (0.007_812_5, REFUSED),
        (0.023_437_5, REFUSED),
        (5e-324, REFUSED),
        (-5e-324, REFUSED),
        (-0.015_625, REFUSED),
        (1e300, REFUSED),
        (f64::NAN, REFUSED),
        (-f64::NAN, REFUSED),
        (f64::INFINITY, REFUSED),
        (-f64::INFINITY, REFUSED),
    ] {
        assert_eq!(held(Counts(counts)), expected, "{counts}");
    }
}

#[test]
fn noise_by_hand() {
    for (part, multiple, expected) in [
        (0.0, 0.0, Ok((0, 1))),
        (-0.0, 63.0, Ok((0, 1))),
        (1_023.0, -0.0, Ok((0, 1))),
        (0.015_625, 0.125, Ok((1, 512))),
        (1.5, 2.125, Ok((51, 16))),
        (1_023.0, 63.0, Ok((64_449, 1))),
        (1_022.984_375, 62.875, Ok((65_471 * 503, 512))),
        (1_023.015_625, 0.0, REFUSED),
        (1_023.0, 63.125, REFUSED),
        (0.0, 63.125, REFUSED),
        (0.0, 0.062_5, REFUSED),
        (0.007_812_5, 2.0, REFUSED),
        (0.0, f64::NAN, REFUSED),
        (f64::INFINITY, 0.0, REFUSED),
        (-1.0, -1.0, REFUSED),
        (1_024.0, 64.0, REFUSED),
    ] {
        assert_eq!(held(noise(part, multiple)), expected, "{part} {multiple}");
    }
}

/// Ratios at the limits, and as what they are held.
fn ratios() -> Vec<(u64, u64, Result<Ratio, Row>)> {
    vec![
        (0, 1, Ok((0, 1))),
        (0, 1_048_575, Ok((0, 1))),
        (4, 6, Ok((2, 3))),
        (1, 1_048_575, Ok((1, 1_048_575))),
        (65_535, 1, Ok((65_535, 1))),
        (65_535 * 1_048_575, 1_048_575, Ok((65_535, 1))),
        (
            65_535 * 1_048_575 - 1,
            1_048_575,
            Ok((68_718_362_624, 1_048_575)),
        ),
        (65_535 * 1_048_575 + 1, 1_048_575, REFUSED),
        (65_536, 1, REFUSED),
        (0, 0, REFUSED),
        (1, 0, REFUSED),
        (0, 1_048_576, REFUSED),
        (u64::MAX, u64::MAX, REFUSED),
        (0, u64::MAX, REFUSED),
        (u64::MAX, 1, REFUSED),
    ]
}

#[test]
fn ratios_by_hand() {
    for (p, q, expected) in ratios() {
        assert_eq!(held(ratio(p, q)), expected, "{p}/{q}");
    }
}

/// Every two of these ratios as parts: each is held as by itself, the one above first, and both are refused
/// exactly if one is.
#[test]
fn parts_by_hand() {
    for (p, q, above) in ratios() {
        for (below_p, below_q, below) in ratios() {
            let answer = hold(parts((p, q), (below_p, below_q)));
            let answer = answer.map(|held| (ratio_of(held.above), ratio_of(held.below)));
            let expected = above.and_then(|above| Ok((above, below?)));
            assert_eq!(answer, expected, "{p}/{q} {below_p}/{below_q}");
        }
    }
}

#[test]
fn awkward_floats() {
    let floats = awkward();
    for &x in &floats {
        let _ = hold(Counts(x));
        for &y in &floats {
            let _ = hold(noise(x, y));
        }
    }
}

#[test]
fn awkward_ratios() {
    let mut all = Vec::new();
    for q in [
        0,
        1,
        2,
        3,
        6,
        1_048_574,
        1_048_575,
        1_048_576,
        1 << 32,
        1 << 48,
        u64::MAX,
    ] {
        let most = q.wrapping_mul(65_535);
        for p in [
            0,
            1,
            2,
            q,
            q.wrapping_add(1),
            most.wrapping_sub(1),
            most,
            most.wrapping_add(1),
            most / 2,
            most / 3,
            1 << 32,
            1 << 48,
            1 << 63,
            u64::MAX,
        ] {
            let _ = hold(ratio(p, q));
            all.push((p, q));
        }
    }
    for &above in &all {
        for &below in &all {
            let _ = hold(parts(above, below));
        }
    }
}

/// Every count and every multiple on the grid of half steps, up to beyond the limits.
#[test]
fn grids() {
    let mut allowed = 0;
    for halves in 0..=2 * 64 * 65_536 {
        allowed += u32::from(hold(Counts(f64::from(halves) / 128.0)).is_ok());
    }
    assert_eq!(allowed, 64 * 65_535 + 1);
    allowed = 0;
    for halves in 0..=2 * 8 * 64 {
        allowed += u32::from(hold(noise(1.0, f64::from(halves) / 16.0)).is_ok());
    }
    assert_eq!(allowed, 8 * 63 + 1);
}

#[test]
fn random_tolerances() {
    let random = &mut Random::new(4);
    (0..100_000).for_each(|_| held_tolerances(random));
}

/// A tolerance that is held is its own, also where it is given as its parts; one that is refused is refused by
/// every call.
#[test]
fn held_again() {
    let ratios = ratios().into_iter().map(|(p, q, _)| (p, q));
    let each = ratios.clone().map(|(p, q)| ratio(p, q));
    let pairs = ratios
        .clone()
        .flat_map(|above| ratios.clone().map(move |below| parts(above, below)));
    for tolerance in awkward().into_iter().map(Counts).chain(each).chain(pairs) {
        let judged = judge(&[0], &[0], &[0], tolerance);
        match hold(tolerance) {
            Ok(held) => {
                assert_eq!((hold(exactly_parts(held)), judged), (Ok(held), Ok(None)));
                if let Some(Fraction { p, q }) = held.one() {
                    assert_eq!(hold(ratio(p as u64, q as u64)), Ok(held));
                }
            }
            Err(row) => assert_eq!(judged, Err(row)),
        }
        for method in METHODS {
            let reduced = reduce(method, &[0], &[0], tolerance, 1);
            assert_eq!(reduced.err(), judged.err());
        }
    }
}
