//! The command `probes`: how many probes gallop takes.

use crate::failure::{Failure, Status};
use crate::line::{and_gap, Line, ABOVE, BELOW, GAP, TOLERANCE};
use crate::{counts, help, output};
use kovrelna::gallop;
use std::ffi::OsString;

pub fn probes(arguments: &[OsString]) -> Result<Status, Failure> {
    let line = Line::parse("probes", &[TOLERANCE, ABOVE, BELOW, GAP], arguments)?;
    if line.arguments.help {
        return output::print(help::PROBES);
    }
    let limits = line.needed_limits()?;
    let inputs = line.inputs()?;
    output::print(format!(
        "# gallop at {}{}\nsamples   stops  probes  file\n",
        limits.held,
        and_gap(limits.gap)
    ))?;
    counts::print(&inputs, [Some(0); 3], |text| {
        let samples = text.ticks.len();
        let galloped = gallop(&text.ticks, &text.values, limits, &mut vec![0; samples])
            .map_err(|refusal| text.refused(refusal))?;
        Ok([samples, galloped.kept - 1, galloped.probes].map(Some))
    })
}
