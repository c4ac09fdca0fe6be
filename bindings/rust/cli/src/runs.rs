//! A run of a crate as it is read: a file with all channels, or a folder with a file for each.

use crate::channels::{in_file, CHANNELS};
use crate::failure::Failure;
use crate::name::{joined, shown};
use crate::source::Source;
use crate::text::Text;
use std::ffi::{OsStr, OsString};
use std::os::unix::ffi::OsStrExt;
use std::path::Path;
use std::{fs, io};

/// A run as it was read.
pub struct Run {
    /// Of the file or the folder.
    pub name: OsString,
    pub channels: Vec<Channel>,
    is_folder: bool,
}

/// A channel of a run, which is a trace.
pub struct Channel {
    /// In the third column; in a folder, counted from 0.
    pub number: u32,
    /// Its name in the folder; empty in one file.
    pub file: OsString,
    pub text: Text,
}

impl Run {
    /// Reads a file with all channels, or a folder with a file for each.
    pub fn read(input: &OsStr) -> Result<Run, Failure> {
        let is_folder = input != "-" && Path::new(input).is_dir();
        let channels = match is_folder {
            true => Channel::in_folder(input)?,
            false => Channel::in_file(input)?,
        };
        for channel in &channels {
            channel.text.must_be_a_trace()?;
        }
        let name = match is_folder {
            true => shown(input),
            false => channels[0].text.name.clone(),
        };
        Ok(Run {
            name,
            channels,
            is_folder,
        })
    }

    /// Fails unless both runs have the same channels. Then they have them in the same order.
    pub fn must_be_paired(&self, other: &Run) -> Result<(), Failure> {
        if self.is_folder != other.is_folder {
            let names = joined(&[&self.name, &" and ", &other.name]);
            let cause = "a file and a folder, whose channels have no names in common";
            return Err(Failure::at(names, cause));
        }
        other.must_have_all_of(self)?;
        self.must_have_all_of(other)
    }

    /// Fails if the other run has a channel that this one lacks.
    fn must_have_all_of(&self, other: &Run) -> Result<(), Failure> {
        let lacks = |wanted: &&Channel| !self.channels.iter().any(|found| found.is(wanted));
        match other.channels.iter().find(lacks) {
            None => Ok(()),
            Some(channel) => {
                let lacked = joined(&[&"there is no ", &channel.words()]);
                let cause = joined(&[&lacked, &", which ", &other.name, &" has"]);
                Err(Failure::Told(joined(&[&self.name, &": ", &cause])))
            }
        }
    }
}

impl Channel {
    /// Every channel in one file.
    fn in_file(input: &OsStr) -> Result<Vec<Channel>, Failure> {
        let channel = |(number, text)| Channel {
            number,
            file: OsString::new(),
            text,
        };
        Ok(in_file(input)?.into_iter().map(channel).collect())
    }

    /// The channels of a folder.
    fn in_folder(folder: &OsStr) -> Result<Vec<Channel>, Failure> {
        let channel = |(number, file)| {
            let path = Path::new(folder).join(&file);
            let text = Text::read(Source::open(Some(path.as_os_str()))?)?.original()?;
            Ok(Channel { number, file, text })
        };
        (0..).zip(files(folder)?).map(channel).collect()
    }

    /// Whether this is the same channel in another run.
    fn is(&self, other: &Channel) -> bool {
        match self.file.is_empty() {
            true => self.number == other.number,
            false => self.file == other.file,
        }
    }

    /// In a message.
    pub fn words(&self) -> OsString {
        match self.file.is_empty() {
            true => format!("channel {}", self.number).into(),
            false => shown(&self.file),
        }
    }
}

/// The names of the files of a folder, in their order; hidden files and folders are passed over.
fn files(folder: &OsStr) -> Result<Vec<OsString>, Failure> {
    let failed = |error: io::Error| Failure::io(shown(folder), &error);
    let mut names = Vec::new();
    for entry in fs::read_dir(folder).map_err(failed)? {
        let entry = entry.map_err(failed)?;
        let name = entry.file_name();
        if !name.as_bytes().starts_with(b".") && !entry.path().is_dir() {
            names.push(name);
        }
    }
    names.sort_by(|one, other| (order(one), one).cmp(&(order(other), other)));
    let wrong = |cause| Err(Failure::at(shown(folder), cause));
    match names.len() {
        0 => wrong("no files in this folder"),
        1..=CHANNELS => Ok(names),
        _ => wrong("more than 64 files in this folder"),
    }
}

/// What a name is ordered by: its bytes, but digits in a row by the number that they are. So ch2 comes
/// before ch10.
fn order(name: &OsStr) -> Vec<(u8, usize, &[u8])> {
    let mut rest = name.as_bytes();
    let mut parts = Vec::new();
    while let [first, ..] = rest {
        let digits = rest.iter().take_while(|byte| byte.is_ascii_digit()).count();
        let zeros = rest.iter().take_while(|&&byte| byte == b'0').count();
        parts.push(match digits {
            0 => (*first, 0, &[][..]),
            _ => (b'0', digits - zeros, &rest[zeros..digits]),
        });
        rest = &rest[digits.max(1)..];
    }
    parts
}

#[cfg(test)]
mod tests {
    use super::*;

    #[test]
    fn orders() {
        let names = [
            "",
            "0",
            "1",
            "10",
            "99999999999999999999999999",
            "100000000000000000000000000",
            "a",
            "ch",
            "ch-1",
            "ch.csv",
            "ch0",
            "ch00",
            "ch1",
            "ch1-9",
            "ch1-10",
            "ch01a",
            "ch002",
            "ch2",
            "ch10",
            "ch:",
        ];
        let key = |name: &'static str| (order(OsStr::new(name)), name);
        for pair in names.windows(2) {
            assert!(key(pair[0]) < key(pair[1]), "{pair:?}");
        }
    }
}
