//! The command `report`: the sheet of a crate.

use crate::channels::{in_file, Traces, CHANNELS};
use crate::failure::{Failure, Status};
use crate::line::{and_gap, ratio, Limits, Line, ABOVE, BELOW, CSV, GAP, TOLERANCE};
use crate::name::joined;
use crate::source::Source;
use crate::table::{self, quoted, Columns};
use crate::text::Text;
use crate::{help, output};
use kovrelna::{Ratio, Refusal, Summary};
use std::ffi::{OsStr, OsString};

pub fn report(arguments: &[OsString]) -> Result<Status, Failure> {
    let options = [TOLERANCE, ABOVE, BELOW, GAP, CSV];
    let line = Line::parse("report", &options, arguments)?;
    if line.arguments.help {
        return output::print(help::REPORT);
    }
    let limits = line.needed_limits()?;
    let inputs = line.inputs()?;
    let channels = channels(&inputs)?;
    let rows = rows(&channels, limits).map_err(|refusal| match refusal {
        Refusal::Crate => line.wrong("more than 64 files"),
        refusal => line.wrong(refusal.to_string()),
    })?;
    output::print(match line.value(CSV) {
        Some(_) => csv(&rows, limits),
        None => aligned(&rows, limits),
    })
}

/// The channels, with their numbers: a file for each, or all of them in one.
fn channels(inputs: &[&OsStr]) -> Result<Vec<(u32, Text)>, Failure> {
    if let [input] = inputs {
        return in_file(input);
    }
    let inputs = (0..).zip(inputs.iter().take(CHANNELS + 1));
    let channel = |(channel, input): (u32, &&OsStr)| {
        let text = Text::read(Source::open(Some(input))?)?;
        Ok((channel, text.original()?))
    };
    inputs.map(channel).collect()
}

/// A line of the sheet.
struct Row {
    /// The channel's number, or `total`.
    channel: String,
    samples: usize,
    kept: usize,
    error: Ratio,
    /// Where the error occurs first, a sample of the channel's own trace, or 0; none for the total.
    sample: Option<usize>,
    /// The number of the channel's refusal, or 0; none for the total.
    refusal: Option<u32>,
    /// Empty for the total.
    file: OsString,
    /// Why the channel is refused, with the file and the line; empty if it is not. For the total, how
    /// many channels are refused.
    cause: OsString,
}

/// The lines of the channels, and that of the total.
fn rows(channels: &[(u32, Text)], limits: Limits) -> Result<Vec<Row>, Refusal> {
    let Traces {
        ticks,
        values,
        lengths,
    } = Traces::of(channels.iter().map(|(_, text)| text));
    let mut summaries = vec![Summary::default(); lengths.len()];
    let totals = kovrelna::report(&ticks, &values, &lengths, limits, &mut summaries)?;
    let row = |((channel, text), summary): (&(u32, Text), &Summary)| Row {
        channel: channel.to_string(),
        samples: summary.samples,
        kept: summary.kept,
        error: summary.error,
        sample: Some(summary.sample),
        refusal: Some(summary.number),
        file: text.name.clone(),
        cause: match text.must_be_a_trace() {
            Err(Failure::Told(cause)) => cause,
            _ => OsString::new(),
        },
    };
    let mut rows: Vec<Row> = channels.iter().zip(&summaries).map(row).collect();
    let refused = rows.iter().filter(|row| row.refusal != Some(0)).count();
    rows.push(Row {
        channel: "total".to_string(),
        samples: totals.samples,
        kept: totals.kept,
        error: totals.error,
        sample: None,
        refusal: None,
        file: OsString::new(),
        cause: format!("{refused} of {} refused", channels.len()).into(),
    });
    Ok(rows)
}

/// The sheet with columns of equal width.
fn aligned(rows: &[Row], Limits { held, gap }: Limits) -> OsString {
    let heading = ["channel", "samples", "kept", "error", "worst at", "refusal"];
    let mut lines = vec![(heading.map(String::from), OsStr::new("file"))];
    for row in rows {
        // Where the error is 0 no sample is the worst.
        let sample = row.sample.filter(|_| row.error.p > 0);
        let fields = [
            row.channel.clone(),
            row.samples.to_string(),
            row.kept.to_string(),
            ratio(row.error),
            sample.map_or("-".to_string(), |sample| sample.to_string()),
            row.refusal
                .map_or("-".to_string(), |number| number.to_string()),
        ];
        let last = if row.cause.is_empty() {
            &row.file
        } else {
            &row.cause
        };
        lines.push((fields, last));
    }
    let heading = format!("# kept by walk at {held}{}\n", and_gap(gap));
    joined(&[&heading, &table::aligned(&lines)])
}

/// The sheet for a spreadsheet. A ratio has two columns, as p/q would be taken for a date. The gap limit
/// has one at the end, if it is given, and the part below two more, if it is not that above.
fn csv(rows: &[Row], Limits { held, gap }: Limits) -> OsString {
    let tolerance = Columns::of(&[held]);
    let (name, gap) = match gap {
        Some(gap) => (",gap limit", format!(",{gap}")),
        None => ("", String::new()),
    };
    let heading = format!(
        "channel,samples,kept,error p,error q,sample,{},refusal,file,cause",
        tolerance.names
    );
    let mut sheet = joined(&[&heading, &name, &tolerance.last_names, &"\n"]);
    for row in rows {
        let (channel, samples, kept) = (&row.channel, row.samples, row.kept);
        let error = table::pair(row.error);
        let (tolerance, last) = tolerance.fields(held);
        let sample = row
            .sample
            .map_or(String::new(), |sample| sample.to_string());
        let refusal = row
            .refusal
            .map_or(String::new(), |number| number.to_string());
        let fields = format!("{channel},{samples},{kept},{error},{sample},{tolerance},{refusal},");
        let (file, cause) = (quoted(&row.file), quoted(&row.cause));
        sheet.push(joined(&[&fields, &file, &",", &cause, &gap, &last, &"\n"]));
    }
    sheet
}
