//! The command `summary`.

use crate::failure::{Failure, Status};
use crate::line::{each, Line, BUDGET};
use crate::name::joined;
use crate::records::{self, Record};
use crate::{budget, help, output};
use kovrelna::Parts;
use std::ffi::{OsStr, OsString};

/// What a line of the summary says.
struct Counts {
    samples: usize,
    span: u64,
    least: i16,
    greatest: i16,
    bytes: usize,
}

impl Counts {
    fn of(record: &Record) -> Counts {
        let (ticks, values) = (&record.ticks, &record.values);
        Counts {
            samples: ticks.len(),
            span: u64::from(ticks[ticks.len() - 1] - ticks[0]),
            least: values.iter().copied().min().unwrap_or(0),
            greatest: values.iter().copied().max().unwrap_or(0),
            bytes: record.bytes,
        }
    }

    fn plus(&self, other: &Counts) -> Counts {
        Counts {
            samples: self.samples + other.samples,
            span: self.span + other.span,
            least: self.least.min(other.least),
            greatest: self.greatest.max(other.greatest),
            bytes: self.bytes + other.bytes,
        }
    }

    fn line(&self, tolerance: &str, name: impl AsRef<OsStr>) -> OsString {
        let Counts {
            samples,
            span,
            least,
            greatest,
            bytes,
        } = self;
        let counts = format!("{samples}\t{span}\t{tolerance}\t{least}\t{greatest}\t{bytes}\t");
        joined(&[&counts, &name, &"\n"])
    }
}

pub fn summary(arguments: &[OsString]) -> Result<Status, Failure> {
    let line = Line::parse("summary", &[BUDGET], arguments)?;
    if line.arguments.help {
        return output::print(help::SUMMARY);
    }
    let inputs = line.inputs()?;
    output::print("samples\tspan\ttolerance\tleast\tgreatest\tbytes\tfile\n")?;
    let mut total: Option<Counts> = None;
    let mut tolerances = Vec::new();
    let status = each(&inputs, |source| {
        let name = source.name.clone();
        let record = records::load(source)?;
        let counts = Counts::of(&record);
        let line = counts.line(&record.tolerance.to_string(), name);
        total = Some(match &total {
            Some(before) => before.plus(&counts),
            None => counts,
        });
        tolerances.push(record.tolerance);
        Ok(line)
    })?;
    output::print(match total {
        Some(total) => total.line(&common(&tolerances), "total"),
        None => "0\t0\t-\t-\t-\t0\ttotal\n".into(),
    })?;
    if line.value(BUDGET).is_some() {
        print_budget(&tolerances, inputs.len())?;
    }
    Ok(status)
}

/// The tolerance that all records have, if there is one.
fn common(tolerances: &[Parts]) -> String {
    match tolerances {
        [first, rest @ ..] if rest.iter().all(|other| other == first) => first.to_string(),
        _ => "-".to_string(),
    }
}

/// For the greatest tolerance, of each side, if every record could be read.
fn print_budget(tolerances: &[Parts], records: usize) -> Result<(), Failure> {
    match budget::greatest_parts(tolerances) {
        Some(greatest) if tolerances.len() == records => {
            output::print(format!("\n{}", budget::text(greatest)))?;
        }
        _ => Failure::at("--budget", "none, as not every record could be read").report(),
    }
    Ok(())
}
