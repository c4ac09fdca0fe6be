//! The channels of a crate: in one file, and as the library takes them.

use crate::failure::Failure;
use crate::source::Source;
use crate::text::Text;
use kovrelna::Run;
use std::ffi::OsStr;

/// The most channels of a crate. With one more the library refuses it.
pub const CHANNELS: usize = 64;

/// The channels in one file, by rising number; without a third column, channel 0.
pub fn in_file(input: &OsStr) -> Result<Vec<(u32, Text)>, Failure> {
    let source = Source::open(Some(input))?;
    let name = source.name.clone();
    let channels = Text::channels(source, CHANNELS)?.into_iter();
    let channels = channels.map(|(channel, text)| Ok((channel, text.original()?)));
    let channels: Vec<_> = channels.collect::<Result<_, Failure>>()?;
    match channels.len() <= CHANNELS {
        true => Ok(channels),
        false => {
            let cause = "more than 64 channels in the third column";
            Err(Failure::at(name, cause))
        }
    }
}

/// Traces end to end.
#[derive(Default)]
pub struct Traces {
    pub ticks: Vec<u32>,
    pub values: Vec<i16>,
    /// The number of samples of each.
    pub lengths: Vec<usize>,
}

impl Traces {
    pub fn of<'a>(texts: impl Iterator<Item = &'a Text>) -> Traces {
        let mut traces = Traces::default();
        for text in texts {
            traces.ticks.extend(&text.ticks);
            traces.values.extend(&text.values);
            traces.lengths.push(text.ticks.len());
        }
        traces
    }

    pub fn run(&self) -> Run<'_> {
        Run {
            ticks: &self.ticks,
            values: &self.values,
            lengths: &self.lengths,
        }
    }
}
