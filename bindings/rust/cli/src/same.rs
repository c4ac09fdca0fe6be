//! The command `same`: whether two records are the same, and if they are not, what differs.

use crate::failure::{Failure, Status};
use crate::line::Line;
use crate::name::joined;
use crate::records::{self, Record};
use crate::source::Source;
use crate::{help, output};
use std::ffi::{OsStr, OsString};

pub fn same(arguments: &[OsString]) -> Result<Status, Failure> {
    let line = Line::parse("same", &[], arguments)?;
    if line.arguments.help {
        return output::print(help::SAME);
    }
    let [first, second] = line.inputs()?[..] else {
        return Err(line.wrong("two records are wanted"));
    };
    let (first, second) = (Named::load(first)?, Named::load(second)?);
    let samples = samples(&first, &second);
    let tolerances = tolerances(&first, &second);
    let differ = match (&samples, &tolerances) {
        (None, None) => return output::print("yes\n"),
        (Some(_), None) => "no: the samples differ\n",
        (None, Some(_)) => "no: the tolerances differ\n",
        (Some(_), Some(_)) => "no: the samples and the tolerances differ\n",
    };
    let mut text = OsString::from(differ);
    text.extend(samples.into_iter().chain(tolerances));
    output::print(text)?;
    Ok(Status::No)
}

/// A record and the name of its file.
struct Named {
    name: OsString,
    record: Record,
}

impl Named {
    fn load(path: &OsStr) -> Result<Named, Failure> {
        let source = Source::open(Some(path))?;
        let name = source.name.clone();
        let record = records::load(source)?;
        Ok(Named { name, record })
    }

    /// The tick and the value of this sample, if there is one.
    fn sample(&self, k: usize) -> Option<(u32, i16)> {
        Some((*self.record.ticks.get(k)?, *self.record.values.get(k)?))
    }
}

/// A line with the first sample that differs.
fn samples(first: &Named, second: &Named) -> Option<OsString> {
    let most = first.record.ticks.len().max(second.record.ticks.len());
    let k = (0..most).find(|&k| first.sample(k) != second.sample(k))?;
    let [one, other] = [first, second].map(|record| match record.sample(k) {
        Some((tick, value)) => format!("at tick {tick} with value {value}"),
        None => "missing".to_string(),
    });
    let is = format!("sample {k} is {one} in ");
    let and = format!(", and {other} in ");
    Some(joined(&[&is, &first.name, &and, &second.name, &"\n"]))
}

/// A line with the tolerances, if they differ.
fn tolerances(first: &Named, second: &Named) -> Option<OsString> {
    let (one, other) = (first.record.tolerance, second.record.tolerance);
    let is = format!("the tolerance is {one} in ");
    let and = format!(", and {other} in ");
    (one != other).then(|| joined(&[&is, &first.name, &and, &second.name, &"\n"]))
}
