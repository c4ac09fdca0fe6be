//! Options and operands of a command line. An option takes a value, as `--name value`, `--name=value`,
//! `-n value` or `-nvalue`, or is a flag, as `--help` is. Some may be given several times. `--` ends the
//! options; `-` alone is an operand.

use crate::failure::Failure;
use crate::name::{placed, shown};
use std::ffi::{OsStr, OsString};
use std::os::unix::ffi::OsStrExt;

/// An option.
#[derive(Clone, Copy)]
pub struct Known {
    pub name: &'static str,
    letter: Option<char>,
    is_flag: bool,
    is_repeated: bool,
}

impl Known {
    /// An option with a value.
    pub const fn valued(name: &'static str, letter: Option<char>) -> Known {
        Known {
            name,
            letter,
            is_flag: false,
            is_repeated: false,
        }
    }

    /// An option with a value that may be given several times.
    pub const fn repeated(name: &'static str, letter: Option<char>) -> Known {
        Known {
            is_repeated: true,
            ..Known::valued(name, letter)
        }
    }

    /// An option without a value.
    pub const fn flag(name: &'static str, letter: Option<char>) -> Known {
        Known {
            name,
            letter,
            is_flag: true,
            is_repeated: false,
        }
    }
}

/// What a command line gives.
#[derive(Debug, Default)]
pub struct Arguments {
    options: Vec<(&'static str, OsString)>,
    pub operands: Vec<OsString>,
    pub help: bool,
}

impl Arguments {
    /// The arguments of the command with this name and these options.
    pub fn parse(
        command: &str,
        known: &[Known],
        arguments: &[OsString],
    ) -> Result<Arguments, Failure> {
        let mut parsed = Arguments::default();
        let mut arguments = arguments.iter();
        while let Some(argument) = arguments.next() {
            if argument == "--" {
                parsed.operands.extend(arguments.cloned());
                break;
            }
            let Some((name, value)) = option(argument) else {
                parsed.operands.push(argument.clone());
                continue;
            };
            if [&b"--help"[..], b"-h"].contains(&name) && value.is_none() {
                parsed.help = true;
                continue;
            }
            let wrong = |cause: &str| Failure::usage(placed(shown(argument), cause), command);
            let known = named(known, name).ok_or_else(|| wrong("there is no such option"))?;
            if parsed.value(known.name).is_some() && !known.is_repeated {
                return Err(wrong("the option is given twice"));
            }
            let value = match (known.is_flag, value) {
                (true, Some(_)) => return Err(wrong("the option takes no value")),
                (true, None) => Some(OsStr::new("")),
                (false, value) => value.or_else(|| arguments.next().map(OsString::as_os_str)),
            };
            let value = value.ok_or_else(|| wrong("a value is missing"))?;
            parsed.options.push((known.name, value.to_os_string()));
        }
        Ok(parsed)
    }

    /// The option's value, which is empty for a flag, if the option is given.
    pub fn value(&self, name: &str) -> Option<&OsStr> {
        self.all(&[name]).first().map(|&(_, value)| value)
    }

    /// Each of these options that is given, in the order given: its name and its value.
    pub fn all(&self, names: &[&str]) -> Vec<(&'static str, &OsStr)> {
        let found = self.options.iter();
        let found = found.filter(|(option, _)| names.contains(option));
        found.map(|(name, value)| (*name, &value[..])).collect()
    }
}

/// The known option with this name, which has its dashes.
fn named(known: &[Known], name: &[u8]) -> Option<Known> {
    let named = |known: &&Known| match name {
        [b'-', b'-', name @ ..] => name == known.name.as_bytes(),
        name => known.letter.is_some_and(|letter| name[1] == letter as u8),
    };
    known.iter().find(named).copied()
}

/// An option's name with its dashes, and the value in the same argument, if there is one.
fn option(argument: &OsStr) -> Option<(&[u8], Option<&OsStr>)> {
    let bytes = argument.as_bytes();
    let (name, value) = match bytes {
        [b'-', b'-', ..] => match bytes.iter().position(|&byte| byte == b'=') {
            Some(equals) => (&bytes[..equals], Some(&bytes[equals + 1..])),
            None => (bytes, None),
        },
        [b'-', _] => (bytes, None),
        [b'-', _, value @ ..] => (&bytes[..2], Some(value)),
        _ => return None,
    };
    Some((name, value.map(OsStr::from_bytes)))
}

#[cfg(test)]
mod tests {
    use super::*;

    const KNOWN: &[Known] = &[
        Known::valued("tolerance", Some('t')),
        Known::valued("output", Some('o')),
        Known::valued("from", None),
        Known::flag("budget", Some('b')),
        Known::repeated("level", Some('l')),
    ];

    fn parse(arguments: &[&str]) -> Result<Arguments, Failure> {
        let arguments: Vec<OsString> = arguments.iter().map(OsString::from).collect();
        Arguments::parse("record", KNOWN, &arguments)
    }

    #[test]
    fn options_and_operands() {
        for line in [
            &["--tolerance", "2", "-o", "out", "in"][..],
            &["--tolerance=2", "in", "-oout"],
            &["in", "-t2", "--output", "out"],
            &["-t", "2", "-oout", "--", "in"],
        ] {
            let parsed = parse(line).unwrap();
            assert_eq!(parsed.value("tolerance"), Some(OsStr::new("2")), "{line:?}");
            assert_eq!(parsed.value("output"), Some(OsStr::new("out")), "{line:?}");
            assert_eq!(parsed.operands, ["in"], "{line:?}");
            assert!(!parsed.help);
        }
        let parsed = parse(&["-", "--", "-t", "--help"]).unwrap();
        assert_eq!(parsed.operands, ["-", "-t", "--help"]);
        assert_eq!(parsed.value("tolerance"), None);
        assert!(parse(&["-t", "1", "--help"]).unwrap().help);
        for line in [&["in", "--budget"][..], &["-b", "in"]] {
            let parsed = parse(line).unwrap();
            assert_eq!(parsed.value("budget"), Some(OsStr::new("")));
            assert_eq!(parsed.operands, ["in"]);
        }
        let from = parse(&["--from", "-5"]).unwrap();
        assert_eq!(from.value("from"), Some(OsStr::new("-5")));
        let several = parse(&["-l1", "in", "--level", "3", "-t2", "--level=1"]).unwrap();
        let level = |value| ("level", OsStr::new(value));
        assert_eq!(several.all(&["level"]), ["1", "3", "1"].map(level));
        let of_both = several.all(&["level", "tolerance", "from"]);
        let tolerance = ("tolerance", OsStr::new("2"));
        assert_eq!(of_both, [level("1"), level("3"), tolerance, level("1")]);
        assert!(several.all(&["from"]).is_empty());
        let empty = parse(&["--output=", ""]).unwrap();
        assert_eq!(empty.value("output"), Some(OsStr::new("")));
        assert_eq!(empty.operands, [""]);
    }

    #[test]
    fn wrong_lines() {
        for (line, cause) in [
            (&["--tolerances", "2"][..], "there is no such option"),
            (&["-x"], "there is no such option"),
            (&["--=2"], "there is no such option"),
            (&["--help=2"], "there is no such option"),
            (&["-f5"], "there is no such option"),
            (&["-t"], "a value is missing"),
            (&["--budget=2"], "the option takes no value"),
            (&["-b2"], "the option takes no value"),
            (&["-b", "--budget"], "the option is given twice"),
            (&["--tolerance", "2", "-t3"], "the option is given twice"),
        ] {
            match parse(line) {
                Err(Failure::Told(message)) => {
                    let message = message.into_string().unwrap();
                    assert!(message.contains(cause), "{message}");
                }
                other => panic!("{line:?} {other:?}"),
            }
        }
    }
}
