//! The command `watch`: a view of a trace that grows.

use crate::curve::Sample;
use crate::failure::{Failure, Status};
use crate::line::{Line, INNER};
use crate::plot::{self, plot};
use crate::source::Source;
use crate::terminal::{self, Redrawn};
use crate::text::{whole, Growing, Text};
use crate::{help, output};
use kovrelna::{Refusal, View, VIEW_K_MAX};
use std::ffi::OsString;
use std::fmt::Display;
use std::io::{self, IsTerminal};

/// The k of a view where none is given.
const K: u64 = 8;
/// The last columns of a terminal, for its cursor after the `^C` that it shows.
const FREE: usize = 3;

pub fn watch(arguments: &[OsString]) -> Result<Status, Failure> {
    let line = Line::parse("watch", &[INNER], arguments)?;
    if line.arguments.help {
        return output::print(help::WATCH);
    }
    let mut view = begin(&line)?;
    let mut growing = Growing::open(Source::open(line.input()?)?)?;
    let mut redrawn = io::stdout().is_terminal().then(|| Redrawn);
    while growing.grow()? {
        let text = &growing.text;
        text.must_be_original()?;
        // The view is begun with the first sample.
        if text.ticks.len() > 1 {
            let added = view.add(&text.ticks, &text.values);
            added.map_err(|refusal| text.refused(refusal))?;
        }
        match &mut redrawn {
            Some(redrawn) => redrawn.draw(&drawn(text, view.list()))?,
            None => output::standard(printed(text, view.list()).as_bytes())?,
        }
    }
    match growing.text.ticks.is_empty() {
        true => Err(growing.text.refused(Refusal::Length)),
        false => Ok(Status::Done),
    }
}

/// The view of the first sample.
fn begin(line: &Line) -> Result<View, Failure> {
    let wrong = |cause: &dyn Display| line.wrong(format!("--inner: {cause}"));
    let k = match line.text(INNER)? {
        Some(written) => {
            whole("k", written, 0, VIEW_K_MAX.into()).map_err(|cause| wrong(&cause))?
        }
        None => K,
    };
    View::begin(k).map_err(|refusal| wrong(&refusal))
}

/// The line of a view for a file or a pipe: how many samples there are, and which are kept.
fn printed(text: &Text, list: &[u16]) -> String {
    let list: Vec<String> = list.iter().map(u16::to_string).collect();
    format!("{} {}\n", text.ticks.len(), list.join(","))
}

/// The line of a view for the terminal.
fn drawn(text: &Text, list: &[u16]) -> String {
    let sample = |&sample: &u16| (text.ticks[sample as usize], text.values[sample as usize]);
    let kept: Vec<Sample> = list.iter().map(sample).collect();
    let marks = match terminal::is_utf8() {
        true => plot::BLOCKS,
        false => plot::ASCII,
    };
    let columns = usize::from(terminal::columns()).saturating_sub(FREE);
    let label = label(text.ticks.len(), &kept, columns);
    let plot = plot(&kept, columns - label.len(), marks);
    label + &plot
}

/// What stands before the plot, in ASCII; it leaves a third of the columns to the plot.
fn label(samples: usize, kept: &[Sample], columns: usize) -> String {
    let count = kept.len();
    let (_, last) = kept[count - 1];
    let values = || kept.iter().map(|&(_, value)| value);
    let (least, greatest) = (values().fold(last, i16::min), values().fold(last, i16::max));
    let long = format!("{count} of {samples} kept, {least} to {greatest}, last {last} ");
    let short = format!("{count}/{samples} ");
    let fits = |label: &String| 3 * label.len() <= 2 * columns;
    [long, short].into_iter().find(fits).unwrap_or_default()
}
