//! The command `draw`.

use crate::failure::{Failure, Status};
use crate::fraction::compared;
use crate::holes::holes;
use crate::line::{and_gap, Kept, Line};
use crate::line::{ABOVE, BELOW, FROM, GAP, METHOD, OUTPUT, TO, TOLERANCE};
use crate::measure::measures;
use crate::name::{placed, shown};
use crate::source::Source;
use crate::svg::{self, Picture, Worst};
use crate::text::Text;
use crate::{budget, help, output, records};
use std::ffi::OsString;
use std::path::Path;

pub fn draw(arguments: &[OsString]) -> Result<Status, Failure> {
    let options = [TOLERANCE, ABOVE, BELOW, GAP, METHOD, OUTPUT, FROM, TO];
    let line = Line::parse("draw", &options, arguments)?;
    if line.arguments.help {
        return output::print(help::DRAW);
    }
    let input = line.input()?;
    let (is_record, source) = records::begins(Source::open(input)?)?;
    let place = source.name.clone();
    let (counts, mut picture) = match is_record {
        true => picture_of_record(&line, source)?,
        false => picture_of_trace(&line, source)?,
    };
    let mut ticks = String::new();
    if let Some((from, to)) = stretch(&line, place, picture.stretch)? {
        picture.stretch = (from, to);
        ticks = format!(", ticks {from} to {to}");
    }
    let name = match input.and_then(|input| Path::new(input).file_name()) {
        Some(name) if name != "-" => format!(": {}", shown(name).to_string_lossy()),
        _ => String::new(),
    };
    let (tolerance, gap) = (budget::words(picture.tolerance), and_gap(line.gap()?));
    let title = format!("{counts}, tolerance {tolerance}{gap}{ticks}{name}");
    let svg = svg::draw(&title, &picture);
    output::write(line.value(OUTPUT), svg.as_bytes(), true)
}

/// The part of these ticks that is wanted, if not all of them are.
fn stretch(
    line: &Line,
    place: OsString,
    (first, last): (u32, u32),
) -> Result<Option<(u32, u32)>, Failure> {
    let (from, to) = match (line.tick(FROM)?, line.tick(TO)?) {
        (None, None) => return Ok(None),
        (from, to) => (from.unwrap_or(first), to.unwrap_or(last)),
    };
    if from > last || to < first || from > to {
        let cause = format!("nothing is from tick {from} to tick {to}");
        let cause = format!("{cause}: its ticks are from {first} to {last}");
        return Err(Failure::at(place, cause));
    }
    Ok(Some((from.max(first), to.min(last))))
}

/// So many samples, in words.
pub fn samples(count: usize) -> String {
    format!("{count} sample{}", if count == 1 { "" } else { "s" })
}

/// The lines of a record, and how many samples there are in words.
fn picture_of_record(line: &Line, source: Source) -> Result<(String, Picture), Failure> {
    let given = |option| line.value(option).is_some();
    let options = [TOLERANCE, ABOVE, BELOW, GAP, METHOD];
    if options.into_iter().any(given) {
        let tolerance = match given(ABOVE) || given(BELOW) {
            true => "--above, --below",
            false => "--tolerance",
        };
        let cause = "a record, with its own tolerance";
        let cause = format!("{cause}: {tolerance}, --gap and --method do not apply");
        return Err(line.wrong(placed(&source.name, cause)));
    }
    let record = records::load(source)?;
    let counts = format!("{} kept", samples(record.ticks.len()));
    let kept: Vec<_> = record.ticks.into_iter().zip(record.values).collect();
    let picture = Picture::whole(Vec::new(), kept, record.tolerance, Vec::new());
    Ok((counts, picture))
}

/// A trace and the lines that are kept of it, and how many samples there are in words.
fn picture_of_trace(line: &Line, source: Source) -> Result<(String, Picture), Failure> {
    let reduction = line.reduction()?;
    let text = Text::read(source)?;
    let Some(kept) = Kept::of(&text, reduction)? else {
        let cause = "--tolerance is missing, and this is no record";
        return Err(line.wrong(placed(&text.name, cause)));
    };
    let holes = holes(&text.ticks, kept.limits.gap);
    let worst = worst(&text, &kept.list)?;
    let trace: Vec<_> = text.ticks.into_iter().zip(text.values).collect();
    let counts = match kept.method {
        Some(method) => format!(
            "{}, {} kept by {method}",
            samples(trace.len()),
            kept.list.len()
        ),
        None => format!("{} kept", samples(trace.len())),
    };
    let lines = kept.list.iter().map(|&k| trace[usize::from(k)]).collect();
    let samples = match kept.method {
        Some(_) => trace,
        None => Vec::new(),
    };
    let picture = Picture {
        worst,
        ..Picture::whole(samples, lines, kept.limits.held, holes)
    };
    Ok((counts, picture))
}

/// The sample of the first link whose error is the list's, unless that is 0.
fn worst(text: &Text, list: &[u16]) -> Result<Option<Worst>, Failure> {
    let measures = measures(&text.ticks, &text.values, list);
    let measures = measures.map_err(|refusal| text.refused(refusal))?;
    // The greatest error counts as the least: of several, the first is taken.
    let worst = measures
        .iter()
        .min_by(|one, other| compared(&other.error, &one.error));
    let worst = worst.filter(|worst| worst.error.p > 0);
    Ok(worst.map(|worst| Worst {
        tick: text.ticks[worst.sample],
        error: worst.error,
        side: worst.side,
    }))
}
