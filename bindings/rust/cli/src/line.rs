//! What the commands share: their options, their inputs, the limits of links, the reductions by name,
//! and what is kept of a trace.

use crate::args::{Arguments, Known};
use crate::failure::{Failure, Status};
use crate::fraction::compared;
use crate::name::{joined, placed, shown};
use crate::source::Source;
use crate::text::{whole, Text};
use crate::tolerance::both;
use crate::{output, tolerance};
use kovrelna::{hold, judge, Parts, Ratio, Refusal, Tolerance, GAP_MAX};
use std::ffi::{OsStr, OsString};
use std::fmt::Display;

pub const TOLERANCE: Known = Known::valued("tolerance", Some('t'));
pub const ABOVE: Known = Known::valued("above", None);
pub const BELOW: Known = Known::valued("below", None);
pub const TOLERANCE2: Known = Known::valued("tolerance2", None);
pub const ABOVE2: Known = Known::valued("above2", None);
pub const BELOW2: Known = Known::valued("below2", None);
pub const TOLERANCES: Known = Known::repeated("tolerance", Some('t'));
pub const ABOVES: Known = Known::repeated("above", None);
pub const BELOWS: Known = Known::repeated("below", None);
pub const GAP: Known = Known::valued("gap", None);
pub const METHOD: Known = Known::valued("method", Some('m'));
pub const OUTPUT: Known = Known::valued("output", Some('o'));
pub const TRACE: Known = Known::valued("trace", None);
pub const LIST: Known = Known::valued("list", Some('l'));
pub const LIST_FILE: Known = Known::valued("list-file", Some('f'));
pub const GREEDY: Known = Known::flag("greedy", None);
pub const ALLOWANCE: Known = Known::valued("allowance", Some('a'));
pub const FROM: Known = Known::valued("from", None);
pub const TO: Known = Known::valued("to", None);
pub const BUDGET: Known = Known::flag("budget", Some('b'));
pub const CSV: Known = Known::flag("csv", None);
pub const NOISE: Known = Known::valued("noise", Some('k'));
pub const INNER: Known = Known::valued("inner", Some('k'));
pub const DRAW: Known = Known::flag("draw", None);

/// A command line of a command.
pub struct Line {
    command: &'static str,
    pub arguments: Arguments,
}

impl Line {
    pub fn parse(
        command: &'static str,
        known: &[Known],
        arguments: &[OsString],
    ) -> Result<Line, Failure> {
        let arguments = Arguments::parse(command, known, arguments)?;
        Ok(Line { command, arguments })
    }

    pub fn wrong(&self, cause: impl AsRef<OsStr>) -> Failure {
        Failure::usage(cause, self.command)
    }

    pub fn value(&self, option: Known) -> Option<&OsStr> {
        self.arguments.value(option.name)
    }

    /// An option's value as text.
    pub fn text(&self, option: Known) -> Result<Option<&str>, Failure> {
        let value = self.value(option);
        let text = value.map(|value| self.as_text(option.name, value));
        text.transpose()
    }

    /// This value of the option with this name as text.
    fn as_text<'a>(&self, name: &str, value: &'a OsStr) -> Result<&'a str, Failure> {
        value.to_str().ok_or_else(|| {
            let place = format!("--{name}: ");
            self.wrong(joined(&[&place, &shown(value), &" is no text"]))
        })
    }

    /// An option's value as a tolerance or a part of one: the ratio as which it is held.
    fn ratio(&self, option: Known) -> Result<Option<Ratio>, Failure> {
        let Some(text) = self.text(option)? else {
            return Ok(None);
        };
        match tolerance::parse(text) {
            Ok(ratio) => Ok(Some(ratio)),
            Err(cause) => Err(self.wrong(format!("--{}: {cause}", option.name))),
        }
    }

    /// A tolerance as it is held, by the option for both parts, or by that for the part above and that for
    /// the part below.
    pub fn tolerance(&self, options: [Known; 3]) -> Result<Option<Parts>, Failure> {
        let [option, above, below] = options.map(|option| option.name);
        let [one, part_above, part_below] = options.map(|option| self.ratio(option));
        let cause = match (one?, part_above?, part_below?) {
            (None, None, None) => return Ok(None),
            (Some(one), None, None) => return Ok(Some(both(one))),
            (None, Some(above), Some(below)) => return Ok(Some(Parts { above, below })),
            (None, Some(_), None) => format!("--{above} needs --{below}"),
            (None, None, Some(_)) => format!("--{below} needs --{above}"),
            (Some(_), ..) => {
                format!("--{option} has both parts: --{above} and --{below} do not go with it")
            }
        };
        Err(self.wrong(cause))
    }

    /// Each tolerance of a command that takes several, as it is held, in the order given: by the option for
    /// both parts, or by those for the part above and the part below, which follow one another.
    pub fn tolerances(&self) -> Result<Vec<Parts>, Failure> {
        let names = [TOLERANCES, ABOVES, BELOWS].map(|option| option.name);
        let mut options = self.arguments.all(&names).into_iter();
        let mut tolerances = Vec::new();
        while let Some(option) = options.next() {
            let position = tolerances.len();
            let one = self.ratio_at(position, option)?;
            let mut followed_by = |Known { name, .. }| match options.next() {
                Some(next) if next.0 == name => self.ratio_at(position, next),
                _ => Err(self.wrong_at(position, option, &format!("--{name} must follow it"))),
            };
            tolerances.push(if option.0 == ABOVES.name {
                Parts {
                    above: one,
                    below: followed_by(BELOWS)?,
                }
            } else if option.0 == BELOWS.name {
                Parts {
                    above: followed_by(ABOVES)?,
                    below: one,
                }
            } else {
                both(one)
            });
        }
        Ok(tolerances)
    }

    /// What this option, by its name and its value, gives for the tolerance at this position: the ratio as
    /// which it is held.
    fn ratio_at(&self, position: usize, option: (&str, &OsStr)) -> Result<Ratio, Failure> {
        let text = self.as_text(option.0, option.1)?;
        tolerance::parse(text).map_err(|cause| self.wrong_at(position, option, &cause))
    }

    /// The option is wrong, at this position.
    fn wrong_at(&self, position: usize, (name, value): (&str, &OsStr), cause: &str) -> Failure {
        let (option, at) = (format!("--{name} "), format!(", at position {position}"));
        self.wrong(placed(joined(&[&option, &shown(value), &at]), cause))
    }

    /// The gap limit, if one is given.
    pub fn gap(&self) -> Result<Option<u32>, Failure> {
        let Some(written) = self.text(GAP)? else {
            return Ok(None);
        };
        let wrong = |cause: &dyn Display| self.wrong(format!("--gap: {cause}"));
        let gap = whole("gap limit", written, 1, GAP_MAX).map_err(|cause| wrong(&cause))?;
        // Nothing but the gap limit can be refused here.
        match judge(&[0], &[0], &[0], Tolerance::Counts(0.0).with_gap(gap)) {
            Ok(_) => Ok(Some(gap)),
            Err(refusal) => Err(wrong(&refusal)),
        }
    }

    /// The tolerance, and the gap limit with it.
    fn limits(&self) -> Result<Option<Limits>, Failure> {
        match (self.tolerance([TOLERANCE, ABOVE, BELOW])?, self.gap()?) {
            (None, None) => Ok(None),
            (None, Some(_)) => Err(self.wrong("--gap needs --tolerance")),
            (Some(held), gap) => Ok(Some(Limits { held, gap })),
        }
    }

    /// The limits of a command that needs a tolerance.
    pub fn needed_limits(&self) -> Result<Limits, Failure> {
        match self.limits()? {
            Some(limits) => Ok(limits),
            None => Err(self.wrong("--tolerance is missing")),
        }
    }

    /// An option's value as a tick.
    pub fn tick(&self, option: Known) -> Result<Option<u32>, Failure> {
        let Some(written) = self.text(option)? else {
            return Ok(None);
        };
        let tick = whole("tick", written, 0, u32::MAX);
        let wrong = |cause| self.wrong(format!("--{}: {cause}", option.name));
        tick.map(Some).map_err(wrong)
    }

    fn method(&self) -> Result<Option<Method>, Failure> {
        let Some(name) = self.text(METHOD)? else {
            return Ok(None);
        };
        match METHODS.iter().find(|method| method.name == name) {
            Some(&method) => Ok(Some(method)),
            None => Err(self.wrong(format!("--method: `{name}` is not walk, gallop or minimum"))),
        }
    }

    /// The method, which is walk if none is given, and the limits that it needs.
    pub fn reduction(&self) -> Result<Option<(Method, Limits)>, Failure> {
        match (self.method()?, self.limits()?) {
            (None, None) => Ok(None),
            (Some(_), None) => Err(self.wrong("--method needs --tolerance")),
            (method, Some(limits)) => Ok(Some((method.unwrap_or(METHODS[0]), limits))),
        }
    }

    /// The only operand, if there is one.
    pub fn input(&self) -> Result<Option<&OsStr>, Failure> {
        self.only(&self.arguments.operands)
    }

    /// The only one of these operands, if there is one.
    pub fn only<'a>(&self, operands: &'a [OsString]) -> Result<Option<&'a OsStr>, Failure> {
        match operands {
            [] => Ok(None),
            [input] => Ok(Some(input)),
            [_, more, ..] => Err(self.wrong(placed(shown(more), "only one input is read"))),
        }
    }

    /// Every operand, or standard input.
    pub fn inputs(&self) -> Result<Vec<&OsStr>, Failure> {
        let operands = &self.arguments.operands;
        if operands.iter().filter(|&operand| operand == "-").count() > 1 {
            return Err(self.wrong("standard input is wanted twice"));
        }
        Ok(match &operands[..] {
            [] => vec![OsStr::new("-")],
            operands => operands.iter().map(OsString::as_os_str).collect(),
        })
    }
}

/// The ratio as it is printed.
pub fn ratio(Ratio { p, q }: Ratio) -> String {
    format!("{p}/{q}")
}

/// Prints the answer for each input; says what is wrong with an input and goes on with the next.
pub fn each(
    inputs: &[&OsStr],
    mut answer: impl FnMut(Source) -> Result<OsString, Failure>,
) -> Result<Status, Failure> {
    let mut status = Status::Done;
    for input in inputs {
        match Source::open(Some(input)).and_then(&mut answer) {
            Ok(text) => {
                output::print(text)?;
            }
            Err(failure) => {
                failure.report();
                status = Status::Error;
            }
        }
    }
    Ok(status)
}

/// What a link is asked to meet.
#[derive(Clone, Copy)]
pub struct Limits {
    /// The parts as which the tolerance is held.
    pub held: Parts,
    /// The gap limit, if one is given.
    pub gap: Option<u32>,
}

impl Limits {
    /// Half the smaller part of the tolerance, above and below alike, under the same gap limit, if it is an
    /// allowed tolerance. Walk and gallop keep no more samples than minimum keeps there.
    pub fn half(self) -> Option<Limits> {
        let Ratio { p, q } = half(self.held);
        let held = hold(Tolerance::Ratio { p, q }).ok()?;
        Some(Limits { held, ..self })
    }
}

/// The smaller part.
pub fn smaller(Parts { above, below }: Parts) -> Ratio {
    if compared(&above, &below).is_le() {
        above
    } else {
        below
    }
}

/// Half of the smaller part, in lowest terms: of p/q, p over 2q. It need not be an allowed tolerance.
pub fn half(parts: Parts) -> Ratio {
    let Ratio { p, q } = smaller(parts);
    match p % 2 {
        0 => Ratio { p: p / 2, q },
        _ => Ratio { p, q: 2 * q },
    }
}

impl From<Limits> for kovrelna::Limits {
    fn from(Limits { held, gap }: Limits) -> kovrelna::Limits {
        Tolerance::from(held).with_gap(gap.unwrap_or(GAP_MAX))
    }
}

/// The gap limit after a tolerance, if one is given.
pub fn and_gap(gap: Option<u32>) -> String {
    gap.map_or(String::new(), |gap| format!(", gap limit {gap}"))
}

type Reduction = fn(&[u32], &[i16], kovrelna::Limits, &mut [u16]) -> Result<usize, Refusal>;

/// A reduction.
#[derive(Clone, Copy)]
pub struct Method {
    pub name: &'static str,
    reduce: Reduction,
}

/// Walk, gallop, minimum.
pub const METHODS: [Method; 3] = [
    Method {
        name: "walk",
        reduce: kovrelna::walk,
    },
    Method {
        name: "gallop",
        reduce: |ticks, values, limits, out| {
            kovrelna::gallop(ticks, values, limits, out).map(|galloped| galloped.kept)
        },
    },
    Method {
        name: "minimum",
        reduce: kovrelna::minimum,
    },
];

impl Method {
    /// The kept list.
    pub fn list(
        self,
        text: &Text,
        limits: impl Into<kovrelna::Limits>,
    ) -> Result<Vec<u16>, Failure> {
        let mut list = vec![0; text.ticks.len()];
        let kept = (self.reduce)(&text.ticks, &text.values, limits.into(), &mut list)
            .map_err(|refusal| text.refused(refusal))?;
        list.truncate(kept);
        Ok(list)
    }
}

/// What is kept of a trace.
pub struct Kept {
    pub list: Vec<u16>,
    pub limits: Limits,
    /// The method's name; none if every sample is kept.
    pub method: Option<&'static str>,
}

impl Kept {
    /// By the reduction given; without one every sample, at the tolerance of the trace's own line.
    /// Nothing if there is neither. Samples that were reduced before are not reduced again, as they
    /// are not the samples that the tolerance would be about.
    pub fn of(text: &Text, reduction: Option<(Method, Limits)>) -> Result<Option<Kept>, Failure> {
        Ok(Some(match (reduction, text.tolerance()?) {
            (None, None) => return Ok(None),
            (Some(_), Some(held)) => {
                let cause = "samples are reduced already at";
                let cause = format!("{cause} {held}: tolerances would add");
                return Err(text.at_tolerance(&cause));
            }
            (Some((method, limits)), None) => Kept {
                list: method.list(text, limits)?,
                limits,
                method: Some(method.name),
            },
            (None, Some(held)) => {
                text.must_be_a_trace()?;
                Kept {
                    list: text.every_sample(),
                    limits: Limits { held, gap: None },
                    method: None,
                }
            }
        }))
    }
}
