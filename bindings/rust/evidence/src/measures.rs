//! What holds of the measures of links and of invalid ones beyond their definitions. A check that fails
//! panics, with its input.

use crate::compare::{asked, exactly, exactly_parts, judge, measure};
use kovrelna::Limits;
use kovrelna_reference::generate::{just_below, Trace};
use kovrelna_reference::{deviation, link_parts, link_valid, Invalid, Measure, Parts, Side};

/// Measures a link of the trace and sees what holds of every measure: that of the samples from i to j alone
/// is the same but for the sample's number; that of the values turned over (-1 - v for v) has the other side;
/// and of the link among links of one step, judge says yes at its error and at its parts, and just below it
/// and with either part just below no with the measure.
pub fn link(trace: &Trace, i: usize, j: usize) -> Measure {
    let Trace { ticks, values } = trace;
    let found = measure(ticks, values, i, j).unwrap();
    let input = || format!("{i} {j} {found:?}\n{trace:?}");
    let alone = measure(&ticks[i..=j], &values[i..=j], 0, j - i).unwrap();
    let sample = found.sample - i;
    assert_eq!(alone, Measure { sample, ..found }, "{}", input());
    let turned: Vec<i16> = values.iter().map(|&value| -1 - value).collect();
    let side = match found.side {
        Side::Above => Side::Below,
        Side::Below => Side::Above,
        side => side,
    };
    let turned = measure(ticks, &turned, i, j).unwrap();
    assert_eq!(turned, Measure { side, ..found }, "{}", input());
    let list: Vec<u16> = (0..=i).chain(j..ticks.len()).map(|k| k as u16).collect();
    let judged = |tolerance| judge(ticks, values, &list, tolerance);
    let parts = link_parts(ticks, values, i, j);
    assert_eq!(judged(exactly(found.error)), Ok(None), "{}", input());
    assert_eq!(judged(exactly_parts(parts)), Ok(None), "{}", input());
    let invalid = Invalid {
        link: i,
        measure: found,
    };
    let mut below = Vec::new();
    if found.error.p > 0 {
        below.push(exactly(just_below(found.error)));
    }
    if parts.above.p > 0 {
        let above = just_below(parts.above);
        below.push(exactly_parts(Parts { above, ..parts }));
    }
    if parts.below.p > 0 {
        let under = just_below(parts.below);
        let parts = Parts {
            below: under,
            ..parts
        };
        below.push(exactly_parts(parts));
    }
    for tolerance in below {
        assert_eq!(judged(tolerance), Ok(Some(invalid)), "{}", input());
    }
    found
}

/// Judges a kept list of the trace and sees what holds of every no: the link's measure is given, and some
/// sample is not within its part of the tolerance, where the parts are equal the measure's own; or the link's
/// error, where all samples are, with the sample before the first hole, and the link has more than one step.
pub fn judged(trace: &Trace, list: &[u16], limits: impl Into<Limits>) -> Option<Invalid> {
    let limits = limits.into();
    let Trace { ticks, values } = trace;
    let invalid = judge(ticks, values, list, limits).unwrap()?;
    let Invalid {
        link,
        measure: said,
    } = invalid;
    let (i, j) = (usize::from(list[link]), usize::from(list[link + 1]));
    let plain = measure(ticks, values, i, j).unwrap();
    let tolerance = asked(limits).held().unwrap().tolerance;
    let within = link_valid(ticks, values, i, j, tolerance);
    let is_hole = |&k: &usize| ticks[k + 1] - ticks[k] > limits.gap;
    let holds = match said.side {
        Side::On => false,
        Side::Above | Side::Below => {
            let deviation = deviation(ticks, values, i, j, said.sample);
            let offends = tolerance.one().map(|one| !deviation.at_most(one));
            said == plain && !within && offends.unwrap_or(true)
        }
        Side::Gap => {
            said.error == plain.error
                && within
                && j - i > 1
                && (i..j).find(is_hole) == Some(said.sample)
        }
    };
    assert!(
        holds,
        "{invalid:?}, measured {plain:?}\n{list:?} {trace:?}\n{limits:?}"
    );
    Some(invalid)
}
