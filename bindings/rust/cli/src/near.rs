//! The command `near`: how near the lists of walk and gallop are to the shortest.

use crate::failure::{Failure, Status};
use crate::line::{and_gap, half, ratio, Limits, Line, Method};
use crate::line::{ABOVE, BELOW, GAP, METHODS, TOLERANCE};
use crate::{counts, help, output};
use std::ffi::OsString;

pub fn near(arguments: &[OsString]) -> Result<Status, Failure> {
    let line = Line::parse("near", &[TOLERANCE, ABOVE, BELOW, GAP], arguments)?;
    if line.arguments.help {
        return output::print(help::NEAR);
    }
    let limits = line.needed_limits()?;
    let inputs = line.inputs()?;
    let at_half = limits.half();
    output::print(heading(limits))?;
    let [walk, gallop, minimum] = METHODS;
    let zeros = [Some(0), Some(0), Some(0), Some(0), at_half.map(|_| 0)];
    let status = counts::print(&inputs, zeros, |text| {
        let kept = |method: Method, limits: Limits| Ok(method.list(text, limits)?.len());
        Ok([
            Some(text.ticks.len()),
            Some(kept(walk, limits)?),
            Some(kept(gallop, limits)?),
            Some(kept(minimum, limits)?),
            at_half.map(|half| kept(minimum, half)).transpose()?,
        ])
    })?;
    if at_half.is_none() {
        let half = ratio(half(limits.held));
        let cause = "is no tolerance: its denominator is above 1,048,575";
        output::print(format!("# {half} {cause}\n"))?;
    }
    Ok(status)
}

/// What the columns mean, and their names.
fn heading(Limits { held, gap }: Limits) -> String {
    let (half, gap) = (ratio(half(held)), and_gap(gap));
    let of = match held.one() {
        Some(_) => "",
        None => ", half of the smaller part",
    };
    format!(
        "# samples kept at {held}{gap}; half: by minimum at {half}{of}\n\
         samples    walk  gallop minimum    half  file\n"
    )
}
