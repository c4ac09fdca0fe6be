//! One function for each command. It takes the arguments after the command's name.

use crate::failure::{Failure, Status};
use crate::line::{each, Kept, Line, METHODS};
use crate::line::{ABOVE, ALLOWANCE, BELOW, BUDGET, GAP, METHOD, OUTPUT, TOLERANCE};
use crate::name::{joined, placed};
use crate::records;
use crate::source::Source;
use crate::text::{self, Text};
use crate::{
    budget, check, draw, help, judge, measure, near, output, pedestals, probes, report, same, scan,
    sum, summary, watch,
};
use kovrelna::{Least, Ratio, Refusal, Tolerance, GAP_MAX};
use std::ffi::OsString;
use std::fmt::Display;

type Command = fn(&[OsString]) -> Result<Status, Failure>;

/// The command with this name.
pub fn find(name: &str) -> Option<Command> {
    Some(match name {
        "record" => record,
        "show" => show,
        "judge" => judge::judge,
        "check" => check::check,
        "same" => same::same,
        "measure" => measure::measure,
        "least" => least,
        "near" => near::near,
        "probes" => probes::probes,
        "scan" => scan::scan,
        "watch" => watch::watch,
        "sum" => sum::sum,
        "summary" => summary::summary,
        "report" => report::report,
        "pedestals" => pedestals::pedestals,
        "draw" => draw::draw,
        _ => return None,
    })
}

fn record(arguments: &[OsString]) -> Result<Status, Failure> {
    let options = [TOLERANCE, ABOVE, BELOW, GAP, METHOD, OUTPUT, BUDGET];
    let line = Line::parse("record", &options, arguments)?;
    if line.arguments.help {
        return output::print(help::RECORD);
    }
    let output = line.value(OUTPUT);
    let budget = line.value(BUDGET).is_some();
    if budget && output.is_none_or(|output| output == "-") {
        return Err(line.wrong("--budget is printed on standard output: the record needs -o FILE"));
    }
    let reduction = line.reduction()?;
    let text = Text::read(Source::open(line.input()?)?)?;
    let Some(kept) = Kept::of(&text, reduction)? else {
        let cause = "--tolerance is missing, and there is no line `# tolerance p/q`";
        return Err(line.wrong(placed(&text.name, cause)));
    };
    let record = records::save(&text.ticks, &text.values, &kept.list, kept.limits)
        .map_err(|refusal| text.refused(refusal))?;
    let status = output::write(output, &record, false)?;
    match budget {
        true => output::print(budget::text(kept.limits.held)),
        false => Ok(status),
    }
}

fn show(arguments: &[OsString]) -> Result<Status, Failure> {
    let line = Line::parse("show", &[], arguments)?;
    if line.arguments.help {
        return output::print(help::SHOW);
    }
    let inputs = line.inputs()?;
    each(&inputs, |source| {
        let mut text = match inputs.len() {
            1 => OsString::new(),
            _ => joined(&[&"# ", &source.name, &"\n"]),
        };
        let record = records::load(source)?;
        text.push(format!("# tolerance {}\n", record.tolerance));
        text.push(text::lines(&record.ticks, &record.values));
        Ok(text)
    })
}

/// The most samples of a trace for least.
const LEAST_SAMPLES: usize = 256;

fn least(arguments: &[OsString]) -> Result<Status, Failure> {
    let line = Line::parse("least", &[ALLOWANCE, GAP], arguments)?;
    if line.arguments.help {
        return output::print(help::LEAST);
    }
    let Some(allowance) = line.text(ALLOWANCE)? else {
        return Err(line.wrong("--allowance is missing"));
    };
    let wrong = |cause: &dyn Display| line.wrong(format!("--allowance: {cause}"));
    let allowance: u64 = text::whole("allowance", allowance, 2, 4_096).map_err(|c| wrong(&c))?;
    let gap = line.gap()?.unwrap_or(GAP_MAX);
    let text = Text::read(Source::open(line.input()?)?)?.original()?;
    let mut list = vec![0; text.ticks.len()];
    let answer = kovrelna::least(&text.ticks, &text.values, gap, allowance, &mut list);
    let Least { kept, error } = answer.map_err(|refusal| match refusal {
        Refusal::Allowance => wrong(&refusal),
        Refusal::Length => text.too_long(LEAST_SAMPLES),
        Refusal::Holes => too_many_holes(&text, gap),
        refusal => text.refused(refusal),
    })?;
    let list: Vec<String> = list[..kept].iter().map(u16::to_string).collect();
    let Ratio { p, q } = error;
    output::print(format!("error {p}/{q}\nlist {}\n", list.join(",")))
}

/// Every list that obeys the gap limit has more samples than the allowance: how many the shortest has.
fn too_many_holes(text: &Text, gap: u32) -> Failure {
    // All samples of a trace are within the greatest tolerance of any link.
    let greatest = Tolerance::Counts(65_535.0);
    let [_, _, minimum] = METHODS;
    match minimum.list(text, greatest.with_gap(gap)) {
        Ok(list) => {
            let cause = format!("{}: the shortest has {}", Refusal::Holes, list.len());
            Failure::at(&text.name, cause)
        }
        Err(failure) => failure,
    }
}
