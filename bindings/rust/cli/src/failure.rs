//! Why the tool stops, in words, and its exit status.

use crate::name::{joined, placed, printed};
use std::ffi::{OsStr, OsString};
use std::io::{self, IsTerminal, Write};
use std::process::ExitCode;

/// How the tool ends.
#[derive(Clone, Copy, Debug, PartialEq, Eq)]
pub enum Status {
    /// Done; where something is asked, the answer is yes.
    Done,
    /// The answer is no, or something is listed.
    No,
    /// Something was refused, or could not be read or written.
    Error,
}

impl From<Status> for ExitCode {
    fn from(status: Status) -> ExitCode {
        ExitCode::from(match status {
            Status::Done => 0,
            Status::No => 1,
            Status::Error => 2,
        })
    }
}

/// Why the tool stops.
#[derive(Debug, PartialEq, Eq)]
pub enum Failure {
    /// What standard error is told.
    Told(OsString),
    /// Nobody reads standard output any more: nothing is told.
    BrokenPipe,
}

impl Failure {
    /// At this file, or whatever else is at fault.
    pub fn at(place: impl AsRef<OsStr>, cause: impl ToString) -> Failure {
        Failure::Told(placed(place, cause))
    }

    /// At a line of this file; lines are counted from 1.
    pub fn at_line(place: impl AsRef<OsStr>, line: usize, cause: impl ToString) -> Failure {
        Failure::at(line_of(place, line), cause)
    }

    /// An operation on this file failed.
    pub fn io(place: impl AsRef<OsStr>, error: &io::Error) -> Failure {
        Failure::at(place, words(error))
    }

    /// The command line is wrong; `command` is the command's name, if it is known.
    pub fn usage(cause: impl AsRef<OsStr>, command: &str) -> Failure {
        let space = if command.is_empty() { "" } else { " " };
        let help = format!("\nTry `kovrelna{space}{command} --help`.");
        Failure::Told(joined(&[&cause, &help]))
    }

    /// Tells standard error, as far as it can be written.
    pub fn report(&self) {
        if let Failure::Told(message) = self {
            let line = joined(&[&"kovrelna: ", message, &"\n"]);
            let to_terminal = io::stderr().is_terminal();
            let _ = io::stderr().write_all(&printed(&line, to_terminal));
        }
    }
}

/// A line of this file, in a message.
pub fn line_of(place: impl AsRef<OsStr>, line: usize) -> OsString {
    joined(&[&place, &format!(":{line}")])
}

/// The error without the system's number for it.
fn words(error: &io::Error) -> String {
    let words = error.to_string();
    match words.rfind(" (os error ") {
        Some(end) => words[..end].to_string(),
        None => words,
    }
}

#[cfg(test)]
mod tests {
    use super::*;

    #[test]
    fn messages() {
        let told = |words: &str| Failure::Told(words.into());
        assert_eq!(Failure::at_line("a.csv", 3, "why"), told("a.csv:3: why"));
        let missing = io::Error::from_raw_os_error(2);
        assert_eq!(
            Failure::io("a.csv", &missing),
            told("a.csv: No such file or directory")
        );
        assert_eq!(
            Failure::usage("why", ""),
            told("why\nTry `kovrelna --help`.")
        );
    }
}
