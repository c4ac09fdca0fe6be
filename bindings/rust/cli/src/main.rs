//! The command-line tool `kovrelna`, a filter for traces and records.
//!
//! - `args`: options and operands of a command line.
//! - `help`: what `--help` and `--version` print.
//! - `failure`: why the tool stops, and its exit status.
//! - `number`: decimal numbers, exactly as they are written.
//! - `fraction`: exact sums of tolerances.
//! - `tolerance`: a tolerance as it is written on the command line.
//! - `name`: names of files in what is printed.
//! - `source`: files and standard input.
//! - `text`: traces and lists as text.
//! - `channels`: the channels of a crate.
//! - `runs`: runs of a crate, in files or folders.
//! - `records`: records as files.
//! - `output`: standard output, and files that are replaced whole.
//! - `temporary`: a new file beside the one that it replaces.
//! - `terminal`: a line of the terminal that is redrawn.
//! - `ending`: signals that end the tool.
//! - `chart`: what pictures share.
//! - `svg`: pictures of a trace.
//! - `curve`: curves of straight lines in them.
//! - `levels`: pictures of two pedestal runs.
//! - `kept`: pictures of kept numbers by tolerance.
//! - `plot`: plots in one line of text.
//! - `line`: what the commands share.
//! - `holes`: holes of a trace.
//! - `stray`: why a link is invalid, in words.
//! - `table`: columns, and fields of CSV.
//! - `counts`: tables of counts.
//! - `rounded`: numbers that are rounded in print.
//! - `budget`: what an error budget may say.
//! - `commands`: one function for each command.
//! - `check`, `draw`, `judge`, `measure`, `near`, `pedestals`, `probes`, `report`, `same`, `scan`, `sum`,
//!   `summary`, `watch`: commands with a file of their own.
//!
//! Which samples are kept, whether a list is within a tolerance and where it strays, what a tolerance is
//! held as, what is in a record, what two traces add up to and which channels have moved or are noisy:
//! all this is asked of the library.
#![deny(unsafe_code)]

mod args;
mod budget;
mod channels;
mod chart;
mod check;
mod commands;
mod counts;
mod curve;
mod draw;
#[allow(unsafe_code)]
mod ending;
mod failure;
mod fraction;
mod help;
mod holes;
mod judge;
mod kept;
mod levels;
mod line;
mod measure;
mod name;
mod near;
mod number;
mod output;
mod pedestals;
mod plot;
mod probes;
mod records;
mod report;
mod rounded;
mod runs;
mod same;
mod scan;
mod source;
mod stray;
mod sum;
mod summary;
mod svg;
mod table;
mod temporary;
mod terminal;
mod text;
mod tolerance;
mod watch;

use failure::{Failure, Status};
use name::{joined, placed, shown};
use std::env;
use std::ffi::OsString;
use std::process::ExitCode;

fn main() -> ExitCode {
    let arguments: Vec<OsString> = env::args_os().skip(1).collect();
    match run(&arguments) {
        Ok(status) => status.into(),
        Err(failure) => {
            failure.report();
            Status::Error.into()
        }
    }
}

fn run(arguments: &[OsString]) -> Result<Status, Failure> {
    let Some((name, rest)) = arguments.split_first() else {
        return Err(Failure::usage("a command is missing", ""));
    };
    let alone = |text| match rest {
        [] => output::print(text),
        [more, ..] => {
            let cause = placed(shown(more), "nothing may follow");
            Err(Failure::usage(cause, ""))
        }
    };
    match name.to_str() {
        Some("--help" | "-h") => alone(help::TOOL),
        Some("--version" | "-V") => alone(help::VERSION),
        name => match name.and_then(commands::find) {
            Some(command) => command(rest),
            None => {
                let cause = joined(&[&"there is no command ", &shown(&arguments[0])]);
                Err(Failure::usage(cause, ""))
            }
        },
    }
}
