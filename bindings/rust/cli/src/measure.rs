//! The command `measure`: how far a link strays from its trace, and at which sample.

use crate::failure::{Failure, Status};
use crate::line::{ratio, Line};
use crate::source::Source;
use crate::text::{whole, Text};
use crate::{help, output};
use kovrelna::{Measure, Refusal};
use std::ffi::{OsStr, OsString};

/// The greatest number of a sample.
const LAST: usize = 4_095;

pub fn measure(arguments: &[OsString]) -> Result<Status, Failure> {
    let line = Line::parse("measure", &[], arguments)?;
    if line.arguments.help {
        return output::print(help::MEASURE);
    }
    let Some((inputs, [i, j])) = line.arguments.operands.split_last_chunk() else {
        return Err(line.wrong("the two samples of a link are wanted"));
    };
    let input = line.only(inputs)?;
    let number = |which, written: &OsStr| {
        let number = whole(which, &written.to_string_lossy(), 0, LAST);
        number.map_err(|cause| line.wrong(cause))
    };
    let (i, j) = (number("first sample", i)?, number("second sample", j)?);
    let text = Text::read(Source::open(input)?)?.original()?;
    let measured = kovrelna::measure(&text.ticks, &text.values, i, j);
    let Measure {
        error,
        sample,
        side,
    } = measured.map_err(|refusal| match refusal {
        Refusal::List(end) => no_link(&text, (i, j), end),
        refusal => text.refused(refusal),
    })?;
    let (error, tick, value) = (ratio(error), text.ticks[sample], text.values[sample]);
    output::print(format!(
        "error {error}\nsample {sample}\ntick {tick}\nvalue {value}\nside {side}\n"
    ))
}

/// The measure of each link of this list.
pub fn measures(ticks: &[u32], values: &[i16], list: &[u16]) -> Result<Vec<Measure>, Refusal> {
    let measure = |link: &[u16]| kovrelna::measure(ticks, values, link[0].into(), link[1].into());
    list.windows(2).map(measure).collect()
}

/// Samples i and j are no link of the trace: because of i if `end` is 0, of j if it is 1.
fn no_link(text: &Text, (i, j): (usize, usize), end: usize) -> Failure {
    let last = text.ticks.len() - 1;
    let sample = if end == 0 { i } else { j };
    let cause = match sample > last {
        true => format!("sample {sample} is beyond the trace, whose last sample is {last}"),
        false => format!("the second sample, {j}, is not above the first, {i}"),
    };
    Failure::at(&text.name, cause)
}
