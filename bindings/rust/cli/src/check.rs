//! The command `check`: whether a record may stand for a trace. Its samples are samples of the trace,
//! the first and the last among them, and every link is valid at its own tolerance and the gap limit.

use crate::failure::{Failure, Status};
use crate::line::{Limits, Line, GAP};
use crate::name::joined;
use crate::records::{self, Record};
use crate::source::Source;
use crate::stray::{crosses, lies};
use crate::text::Text;
use crate::{help, output};
use kovrelna::{judge, Side, Verdict};
use std::ffi::OsString;

pub fn check(arguments: &[OsString]) -> Result<Status, Failure> {
    let line = Line::parse("check", &[GAP], arguments)?;
    if line.arguments.help {
        return output::print(help::CHECK);
    }
    let gap = line.gap()?;
    let [record, trace] = line.inputs()?[..] else {
        return Err(line.wrong("a record and its trace are wanted"));
    };
    let source = Source::open(Some(record))?;
    let name = source.name.clone();
    let record = records::load(source)?;
    let trace = Text::read(Source::open(Some(trace))?)?.original()?;
    match fault(&record, &trace, gap)? {
        None => output::print("yes\n"),
        Some(fault) => {
            output::print(joined(&[&"no: ", &name, &": ", &fault, &"\n"]))?;
            Ok(Status::No)
        }
    }
}

/// Why the record may not stand for the trace, if it may not.
fn fault(record: &Record, trace: &Text, gap: Option<u32>) -> Result<Option<OsString>, Failure> {
    trace.must_be_a_trace()?;
    let list = match list_of(record, trace) {
        Ok(list) => list,
        Err(fault) => return Ok(Some(fault)),
    };
    let held = record.tolerance;
    let limits = Limits { held, gap };
    let verdict = judge(&trace.ticks, &trace.values, &list, limits);
    let verdict = verdict.map_err(|refusal| trace.refused(refusal))?;
    let Verdict::Outside { link, measure } = verdict else {
        return Ok(None);
    };
    let tick = |sample: u16| trace.ticks[usize::from(sample)];
    let end = |sample| format!("sample {sample} at tick {}", tick(sample));
    let ends = format!("{} to {}", end(list[link]), end(list[link + 1]));
    let cause = match measure.side {
        Side::Gap => crosses(&trace.ticks, measure),
        _ => {
            let lies = lies(&trace.ticks, measure, held);
            format!("is not within {held}: {lies}")
        }
    };
    Ok(Some(joined(&[
        &format!("link {link}, from {ends} of "),
        &trace.name,
        &format!(", {cause}"),
    ])))
}

/// The record's samples by their numbers in the trace, or why they are no kept list of it.
fn list_of(record: &Record, trace: &Text) -> Result<Vec<u16>, OsString> {
    let mut list = Vec::new();
    for (sample, (tick, value)) in record.ticks.iter().zip(&record.values).enumerate() {
        let here = format!("sample {sample}, at tick {tick},");
        let Ok(found) = trace.ticks.binary_search(tick) else {
            return Err(joined(&[&here, &" is not in ", &trace.name]));
        };
        let other = trace.values[found];
        if other != *value {
            let has = format!("{here} has value {value}, and ");
            let line = trace.line_of(found);
            return Err(joined(&[&has, &line, &format!(" has {other}")]));
        }
        list.push(found as u16);
    }
    let last = (trace.ticks.len() - 1) as u16;
    for (end, sample, kept) in [("first", 0, list.first()), ("last", last, list.last())] {
        if kept != Some(&sample) {
            let sample = usize::from(sample);
            let tick = trace.ticks[sample];
            let here = format!("the {end} sample of the trace, at tick {tick} in ");
            return Err(joined(&[&here, &trace.line_of(sample), &", is not kept"]));
        }
    }
    Ok(list)
}
