//! Why a link is invalid, in words, from what the library says of it.

use crate::fraction::compared;
use crate::line::ratio;
use kovrelna::{Measure, Parts, Side};

/// Which hole a link crosses, and its error, where only the gap limit makes it invalid.
pub fn crosses(ticks: &[u32], measure: Measure) -> String {
    let (before, after) = (ticks[measure.sample], ticks[measure.sample + 1]);
    let error = ratio(measure.error);
    format!("crosses the hole from tick {before} to tick {after}, and its error is {error}")
}

/// How far the sample lies from the line, where a sample is not within its part of this tolerance. The one
/// that is named lies farthest off, and may be within its own part: then one on the other side is not.
pub fn lies(ticks: &[u32], measure: Measure, Parts { above, below }: Parts) -> String {
    let Measure {
        error,
        sample,
        side,
    } = measure;
    let lies = format!(
        "sample {sample} at tick {} lies {} {side} the line",
        ticks[sample],
        ratio(error)
    );
    let (own, other, other_side) = match side {
        Side::Below => (below, above, Side::Above),
        _ => (above, below, Side::Below),
    };
    match compared(&error, &own).is_gt() {
        true => lies,
        false => {
            let (own, other) = (ratio(own), ratio(other));
            format!("{lies}, within {own}; another lies more than {other} {other_side} it")
        }
    }
}
