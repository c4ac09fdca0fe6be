//! The command `judge`: whether a list of samples is within a tolerance; and its second question, whether the
//! size bound of the greedy reductions holds of the list too.

use crate::budget;
use crate::failure::{Failure, Status};
use crate::line::{half, smaller, Limits, Line};
use crate::line::{ABOVE, BELOW, GAP, GREEDY, LIST, LIST_FILE, TOLERANCE};
use crate::source::Source;
use crate::stray::{crosses, lies};
use crate::text::{List, Text};
use crate::{help, output};
use kovrelna::{Fault, GreedyVerdict, Refusal, Side, Verdict};
use std::ffi::{OsStr, OsString};

pub fn judge(arguments: &[OsString]) -> Result<Status, Failure> {
    let options = [TOLERANCE, ABOVE, BELOW, GAP, LIST, LIST_FILE, GREEDY];
    let line = Line::parse("judge", &options, arguments)?;
    if line.arguments.help {
        return output::print(help::JUDGE);
    }
    let limits = line.needed_limits()?;
    let input = line.input()?.unwrap_or(OsStr::new("-"));
    if line.value(LIST_FILE) == Some(OsStr::new("-")) && input == "-" {
        return Err(line.wrong("standard input is wanted twice"));
    }
    let list = match (line.text(LIST)?, line.value(LIST_FILE)) {
        (Some(list), None) => List::of(LIST.name, list).map_err(|cause| line.wrong(cause))?,
        (None, Some(file)) => List::read(Source::open(Some(file))?)?,
        _ => return Err(line.wrong("one of --list and --list-file is wanted")),
    };
    let text = Text::read(Source::open(line.input()?)?)?.original()?;
    let question = match line.value(GREEDY) {
        None => within,
        Some(_) => greedy,
    };
    let answer = question(&text, &list.entries, limits);
    let (status, words) = answer.map_err(|refusal| match refusal {
        Refusal::List(entry) => list.refused(entry),
        refusal => text.refused(refusal),
    })?;
    output::print(words)?;
    Ok(status)
}

/// Whether every link is valid; if not, the first that is not, and where it strays.
fn within(text: &Text, list: &[u16], limits: Limits) -> Result<(Status, String), Refusal> {
    let verdict = kovrelna::judge(&text.ticks, &text.values, list, limits)?;
    let Verdict::Outside { link, measure } = verdict else {
        return Ok((Status::Done, "yes\n".to_string()));
    };
    let (from, to) = (list[link], list[link + 1]);
    let cause = match measure.side {
        Side::Gap => format!("it {}", crosses(&text.ticks, measure)),
        _ => lies(&text.ticks, measure, limits.held),
    };
    let link = format!("link {link}, from sample {from} to {to}");
    Ok((Status::No, format!("no at {link}: {cause}\n")))
}

/// Whether every link is valid, and each stop but the last sample is followed by an invalid link from the same
/// start: the sentences to quote; if not, the first link at fault.
fn greedy(text: &Text, list: &[u16], limits: Limits) -> Result<(Status, String), Refusal> {
    let verdict = kovrelna::judge_greedy(&text.ticks, &text.values, list, limits)?;
    Ok(match verdict {
        GreedyVerdict::Yes => {
            let sentences = size_bound(list.len(), text.ticks.len(), limits);
            (Status::Done, format!("yes\n{sentences}\n"))
        }
        GreedyVerdict::No { link, fault } => {
            let ends = (list[link].into(), list[link + 1].into());
            let cause = at_fault(&text.ticks, ends, fault);
            (Status::No, format!("no at link {link}, {cause}\n"))
        }
    })
}

/// The link from sample i to sample j, and its fault.
fn at_fault(ticks: &[u32], (i, j): (usize, usize), fault: Fault) -> String {
    let sample = |k: usize| format!("sample {k} at tick {}", ticks[k]);
    let link = format!("from {} to {}", sample(i), sample(j));
    let fault = match fault {
        Fault::Link => {
            "the link is invalid; kovrelna judge without --greedy says where it strays".to_string()
        }
        Fault::Stop => {
            let next = sample(j + 1);
            format!("the stop is at fault, as the link from sample {i} to {next} is valid too")
        }
    };
    format!("{link}: {fault}")
}

/// What may be said of a list of so many samples that passes. It is proved of every such list:
/// docs/PROMISES.md.
fn size_bound(kept: usize, samples: usize, Limits { held, gap }: Limits) -> String {
    let counted = |count: usize, what: &str| match count {
        1 => format!("1 {what}"),
        _ => format!("{count} {what}s"),
    };
    let (under, obeys) = match gap {
        None => (String::new(), ""),
        Some(gap) => (
            format!(" under a gap limit of {}", counted(gap as usize, "tick")),
            " and obeys this gap limit",
        ),
    };
    let (tolerance, sum) = (budget::words(held), budget::ratio(smaller(held)));
    let half = held.one().map_or(String::new(), |_| {
        let half = budget::ratio(half(held));
        format!(" In particular no such list within {half}, half the tolerance, has fewer.")
    });
    format!(
        "Every link of this list of {kept} of {} is valid at tolerance {tolerance}{under}, \
         and wherever a link ends before the last sample, \
         the link from its start to the sample after its end is not. \
         So for all fractions a and b, neither below 0, whose sum is at most {sum}: \
         no list of the trace that has its first sample and its last{obeys}, \
         and from whose lines no sample lies more than a above or more than b below, has fewer samples.{half}",
        counted(samples, "sample")
    )
}
