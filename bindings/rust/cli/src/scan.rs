//! The command `scan`: how many samples walk keeps at each of several tolerances.

use crate::draw::samples;
use crate::failure::{Failure, Status};
use crate::fraction::compared;
use crate::kept::{self, Point};
use crate::line::{and_gap, Limits, Line, METHODS};
use crate::line::{ABOVES, BELOWS, CSV, DRAW, GAP, OUTPUT, TOLERANCES};
use crate::name::{joined, shown};
use crate::source::Source;
use crate::table::{self, quoted, Columns};
use crate::text::Text;
use crate::{help, output, records};
use kovrelna::{Parts, Tolerance, GAP_MAX, TOLERANCES_MAX};
use std::ffi::{OsStr, OsString};
use std::path::Path;

pub fn scan(arguments: &[OsString]) -> Result<Status, Failure> {
    let options = [TOLERANCES, ABOVES, BELOWS, GAP, CSV, DRAW, OUTPUT];
    let line = Line::parse("scan", &options, arguments)?;
    if line.arguments.help {
        return output::print(help::SCAN);
    }
    let limits = limits(&line)?;
    let (is_csv, is_drawn) = (line.value(CSV).is_some(), line.value(DRAW).is_some());
    if is_csv && is_drawn {
        return Err(line.wrong("one of --csv and --draw is wanted"));
    }
    if line.value(OUTPUT).is_some() && !is_drawn {
        return Err(line.wrong("--output needs --draw"));
    }
    if is_drawn {
        must_have_equal_parts(&line, &limits)?;
    }
    let input = line.input()?;
    let text = Text::read(Source::open(input)?)?.original()?;
    let rows = rows(&text, &limits)?;
    if is_drawn {
        let svg = picture(&rows, &text, input)?;
        output::write(line.value(OUTPUT), svg.as_bytes(), true)
    } else if is_csv {
        output::print(csv(&rows, &text)?)
    } else {
        output::print(lines(&rows, &text))
    }
}

/// Each tolerance, in the order given, with the gap limit.
fn limits(line: &Line) -> Result<Vec<Limits>, Failure> {
    let (tolerances, gap) = (line.tolerances()?, line.gap()?);
    if tolerances.is_empty() {
        return Err(line.wrong("--tolerance is missing"));
    }
    let limits = tolerances.into_iter().map(|held| Limits { held, gap });
    let limits: Vec<Limits> = limits.collect();
    // Nothing but the number of tolerances can be refused here.
    match lists(&[0], &[0], &limits) {
        Ok(_) => Ok(limits),
        Err(refusal) => {
            let given = limits.len();
            Err(line.wrong(format!("--tolerance: {refusal}: {given} are given")))
        }
    }
}

/// Fails if a tolerance has two parts that differ: a place on the axis of tolerances is one number.
fn must_have_equal_parts(line: &Line, limits: &[Limits]) -> Result<(), Failure> {
    let differ = |limits: &Limits| limits.held.one().is_none();
    let Some(position) = limits.iter().position(differ) else {
        return Ok(());
    };
    let tolerance = format!("{}, at position {position}", limits[position].held);
    let cause = "has two parts, and the axis one number for a tolerance";
    Err(line.wrong(format!("--draw: {tolerance}, {cause}")))
}

/// Walk's list at each tolerance.
fn lists(
    ticks: &[u32],
    values: &[i16],
    limits: &[Limits],
) -> Result<Vec<Vec<u16>>, kovrelna::Refusal> {
    let tolerances: Vec<Tolerance> = limits.iter().map(|limits| limits.held.into()).collect();
    let gap = limits.first().and_then(|limits| limits.gap);
    let samples = ticks.len();
    let mut out = vec![0; TOLERANCES_MAX * samples];
    let kept = kovrelna::scan(ticks, values, &tolerances, gap.unwrap_or(GAP_MAX), &mut out)?;
    let list = |position: usize| out[position * samples..][..kept[position]].to_vec();
    Ok((0..limits.len()).map(list).collect())
}

/// A line of the table.
struct Row {
    limits: Limits,
    kept: usize,
    /// The bytes of the record.
    bytes: usize,
}

impl Row {
    /// How many samples minimum keeps at half the smaller part of the tolerance, if that is an allowed one.
    fn bound(&self, text: &Text) -> Result<Option<usize>, Failure> {
        let [_, _, minimum] = METHODS;
        let list = self.limits.half().map(|half| minimum.list(text, half));
        Ok(list.transpose()?.map(|list| list.len()))
    }
}

fn rows(text: &Text, limits: &[Limits]) -> Result<Vec<Row>, Failure> {
    let refused = |refusal| text.refused(refusal);
    let lists = lists(&text.ticks, &text.values, limits).map_err(refused)?;
    let row = |(list, &limits): (&Vec<u16>, &Limits)| {
        let record = records::save(&text.ticks, &text.values, list, limits).map_err(refused)?;
        Ok(Row {
            limits,
            kept: list.len(),
            bytes: record.len(),
        })
    };
    lists.iter().zip(limits).map(row).collect()
}

/// The gap limit of all rows, if there is one.
fn gap(rows: &[Row]) -> Option<u32> {
    rows.first().and_then(|row| row.limits.gap)
}

/// The table with columns of equal width.
fn lines(rows: &[Row], text: &Text) -> OsString {
    let heading = ["tolerance", "kept", "bytes"].map(String::from);
    let mut lines = vec![(heading, OsStr::new(""))];
    for row in rows {
        let fields = [
            row.limits.held.to_string(),
            row.kept.to_string(),
            row.bytes.to_string(),
        ];
        lines.push((fields, OsStr::new("")));
    }
    let (samples, gap) = (samples(text.ticks.len()), and_gap(gap(rows)));
    let heading = format!("# kept by walk of {samples}{gap}\n");
    joined(&[&heading, &table::aligned(&lines)])
}

/// The table for a spreadsheet. A tolerance has two columns, as p/q would be taken for a date. The gap limit
/// has one at the end, if it is given, and the part below two more, if a tolerance has parts that differ.
fn csv(rows: &[Row], text: &Text) -> Result<OsString, Failure> {
    let tolerances: Vec<Parts> = rows.iter().map(|row| row.limits.held).collect();
    let columns = Columns::of(&tolerances);
    let (name, gap) = match gap(rows) {
        Some(gap) => (",gap limit", format!(",{gap}")),
        None => ("", String::new()),
    };
    let heading = format!("{},samples,kept,bytes,bound,file", columns.names);
    let mut table = joined(&[&heading, &name, &columns.last_names, &"\n"]);
    let (samples, file) = (text.ticks.len(), quoted(&text.name));
    for row in rows {
        let (tolerance, last) = columns.fields(row.limits.held);
        let (kept, bytes) = (row.kept, row.bytes);
        let bound = row.bound(text)?;
        let bound = bound.map_or(String::new(), |bound| bound.to_string());
        let fields = format!("{tolerance},{samples},{kept},{bytes},{bound},");
        table.push(joined(&[&fields, &file, &gap, &last, &"\n"]));
    }
    Ok(table)
}

/// The picture of the kept numbers and their bounds, with each tolerance, whose parts are equal, once.
fn picture(rows: &[Row], text: &Text, input: Option<&OsStr>) -> Result<String, Failure> {
    let mut rows: Vec<&Row> = rows.iter().collect();
    rows.sort_by(|one, other| compared(&one.limits.held.above, &other.limits.held.above));
    rows.dedup_by_key(|row| row.limits.held);
    let point = |row: &&Row| {
        let held = row.limits.held.above;
        Ok(Point {
            tolerance: held.p as f64 / held.q as f64,
            kept: row.kept,
            bound: row.bound(text)?,
        })
    };
    let points: Vec<Point> = rows.iter().map(point).collect::<Result<_, Failure>>()?;
    let name = match input.and_then(|input| Path::new(input).file_name()) {
        Some(name) if name != "-" => format!(": {}", shown(name).to_string_lossy()),
        _ => String::new(),
    };
    let (samples, gap) = (samples(text.ticks.len()), and_gap(rows[0].limits.gap));
    let title = format!("{samples}, kept by walk at each tolerance{gap}{name}");
    Ok(kept::draw(&title, &points))
}
