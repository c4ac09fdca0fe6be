//! How far a link strays from its trace, and at which sample, beside the slow reference.

use super::{done, fails, files, run, run_in, run_with, told, written, TOOL, WAVE};
use kovrelna_reference::generate::{any_limited, any_list, tied, Random};
use kovrelna_reference::{judge, measure, Form, Fraction, Invalid, Limits, Measure, Side};
use std::ffi::OsStr;
use std::os::unix::ffi::OsStrExt;
use std::process::{Command, Stdio};

/// The side in a word.
pub fn word(side: Side) -> &'static str {
    match side {
        Side::On => "on",
        Side::Above => "above",
        Side::Below => "below",
        Side::Gap => "gap",
    }
}

/// Why a link is invalid that a sample is too far from.
pub fn lies(ticks: &[u32], measure: Measure) -> String {
    let Fraction { p, q } = measure.error;
    let (sample, side) = (measure.sample, word(measure.side));
    let tick = ticks[sample];
    format!("sample {sample} at tick {tick} lies {p}/{q} {side} the line")
}

/// What the tool prints of a link.
fn lines(error: &str, sample: usize, (tick, value): (u32, i16), side: &str) -> String {
    format!("error {error}\nsample {sample}\ntick {tick}\nvalue {value}\nside {side}\n")
}

#[test]
fn measures() {
    for (trace, link, expected) in [
        (
            "0,0\n1,1\n3,1\n",
            ["0", "2"],
            lines("2/3", 1, (1, 1), "above"),
        ),
        ("0,0\n1,0\n3,0\n", ["0", "2"], lines("0/1", 0, (0, 0), "on")),
        // Of two samples that are equally far from the line, the first.
        (WAVE, ["0", "4"], lines("2/1", 1, (1, 2), "above")),
        (WAVE, ["2", "4"], lines("2/1", 3, (3, -2), "below")),
        // Nothing lies between.
        (WAVE, ["3", "4"], lines("0/1", 3, (3, -2), "on")),
        // Above the first end, and below the line.
        (
            "0,0\n1,5\n2,20\n",
            ["0", "2"],
            lines("5/1", 1, (1, 5), "below"),
        ),
        (
            "4294967293,-32768\n4294967294,32767\n4294967295,-32768\n",
            ["0", "2"],
            lines("65535/1", 1, (4_294_967_294, 32_767), "above"),
        ),
        // Samples may be written as ticks and values are.
        (WAVE, ["2.0", "4e0"], lines("2/1", 3, (3, -2), "below")),
    ] {
        let printed = done(&[&["measure"], &link[..]].concat(), trace);
        assert_eq!(String::from_utf8(printed).unwrap(), expected, "{trace}");
    }
}

/// The input is what stands before the two samples.
#[test]
fn inputs() {
    let folder = files("measure_inputs", &[("trace", WAVE), ("1", "0,7\n1,7\n")]);
    let wave = lines("2/1", 1, (1, 2), "above");
    for arguments in [
        &["trace", "0", "4"][..],
        &["--", "trace", "0", "4"],
        &["./trace", "0", "--", "4"],
    ] {
        let output = run_in(&folder, &[&["measure"], arguments].concat());
        assert_eq!(told(&output), (0, wave.clone(), "".into()), "{arguments:?}");
    }
    for arguments in [&["measure", "0", "4"][..], &["measure", "-", "0", "4"]] {
        assert_eq!(done(arguments, WAVE), wave.as_bytes(), "{arguments:?}");
    }
    let one = lines("0/1", 0, (0, 7), "on");
    let output = run_in(&folder, &["measure", "1", "0", "1"]);
    assert_eq!(told(&output), (0, one, "".into()));
}

#[test]
fn refusals() {
    for (i, j, beyond) in [
        ("5", "6", "5"),
        ("5", "0", "5"),
        ("4", "5", "5"),
        ("0", "4096", "4096"),
        ("18446744073709551615", "1", "18446744073709551615"),
        ("1", "18446744073709551615", "18446744073709551615"),
    ] {
        let cause = format!("sample {beyond} is beyond the trace, whose last sample is 4");
        fails(&["measure", i, j], WAVE, &format!("<stdin>: {cause}\n"));
    }
    for (i, j) in [("3", "2"), ("4", "4"), ("0", "0")] {
        let cause = format!("the second sample, {j}, is not above the first, {i}");
        fails(&["measure", i, j], WAVE, &format!("<stdin>: {cause}\n"));
    }
    // What is no trace is refused before what is no link of it.
    for (trace, cause) in [
        ("", ": no samples\n"),
        ("0,0\n0,0\n", ":2: the tick is not above the one before\n"),
        ("0,0\n1048576,0\n", ":2: the tick is over 1,048,575 above"),
    ] {
        fails(&["measure", "9", "9"], trace, &format!("<stdin>{cause}"));
    }
    let long: String = (0..4_097).map(|tick| format!("{tick},0\n")).collect();
    let cause = "<stdin>:4097: too many samples: at most 4096 are allowed\n";
    fails(&["measure", "9", "9"], &long, cause);
    let longest = long.strip_suffix("4096,0\n").unwrap();
    done(&["measure", "0", "4095"], longest);
    let cause = "<stdin>: sample 4096 is beyond the trace, whose last sample is 4095\n";
    fails(&["measure", "0", "4096"], longest, cause);
    fails(
        &["measure", "missing", "0", "1"],
        "",
        "missing: No such file",
    );
}

#[test]
fn command_lines() {
    for (arguments, cause) in [
        (&[][..], "the two samples of a link are wanted\nTry"),
        (&["1"], "the two samples of a link are wanted\nTry"),
        (&["a", "b", "0", "1"], "b: only one input is read\nTry"),
        (
            &["trace", "1"],
            "the first sample `trace` is not a number\nTry",
        ),
        (
            &["0", "1", "trace"],
            "the second sample `trace` is not a number\nTry",
        ),
        (&["", "1"], "the first sample `` is not a number\nTry"),
        (
            &["0", "1.5"],
            "the second sample `1.5` is no whole number\nTry",
        ),
        (
            &["0", "1e99"],
            "the second sample `1e99` is not from 0 to 4095\nTry",
        ),
        (
            &["--", "-1", "1"],
            "the first sample `-1` is not from 0 to 4095\nTry",
        ),
        (&["-1", "1"], "-1: there is no such option\nTry"),
        (&["-t2", "0", "1"], "-t2: there is no such option\nTry"),
    ] {
        fails(&[&["measure"], arguments].concat(), WAVE, cause);
    }
    let mut tool = Command::new(TOOL);
    tool.arg("measure")
        .arg(OsStr::from_bytes(b"\xff1"))
        .arg("2");
    tool.stdout(Stdio::piped());
    let (status, printed, error) = told(&run_with(tool, WAVE.as_bytes()));
    assert_eq!((status, &printed[..]), (2, ""));
    let cause = "kovrelna: the first sample `\u{fffd}1` is not a number\nTry";
    assert!(error.starts_with(cause), "{error}");
}

/// Links of any sort, and pairs of samples that are none.
#[test]
fn as_the_reference() {
    let random = &mut Random::new(21);
    let (mut sides, mut refused) = ([0; 3], [0; 2]);
    for samples in (1..=40).flat_map(|samples| [samples; 8]) {
        let trace = match random.below(2) {
            0 => any_limited(samples, random).0,
            _ => tied(samples, random),
        };
        let any = |random: &mut Random| random.below(samples as u64 + 1) as usize;
        let (i, j) = match random.below(3) {
            0 => (0, samples - 1),
            _ => (any(random), any(random)),
        };
        let arguments = ["measure", &i.to_string(), &j.to_string()];
        let (status, printed, error) = told(&run(&arguments, written(&trace)));
        let found = match measure(&trace.ticks, &trace.values, i, j) {
            Ok(found) => found,
            Err((number, end)) => {
                assert_eq!((number, status, &printed[..]), (6, 2, ""));
                let beyond = if end == 0 { i } else { j };
                let cause = match beyond < samples {
                    true => format!("the second sample, {j}, is not above the first, {i}"),
                    false => format!("sample {beyond} is beyond the trace"),
                };
                let message = format!("kovrelna: <stdin>: {cause}");
                assert!(error.starts_with(&message), "{error} {message}");
                refused[end as usize] += 1;
                continue;
            }
        };
        let Measure {
            error: Fraction { p, q },
            sample,
            side,
        } = found;
        let at = (trace.ticks[sample], trace.values[sample]);
        let expected = lines(&format!("{p}/{q}"), sample, at, word(side));
        assert_eq!((status, printed), (0, expected), "{trace:?} {i} {j}");
        sides[side as usize] += 1;
    }
    let seen = sides.iter().chain(&refused);
    assert!(seen.clone().min() > Some(&9), "{seen:?}");
}

/// Every kind of answer of judge.
#[test]
fn judges_as_the_reference() {
    let random = &mut Random::new(22);
    // Yes; above, below, a hole.
    let mut seen = [0; 4];
    for samples in (2..=40).flat_map(|samples| [samples; 12]) {
        let (trace, gap) = any_limited(samples, random);
        let list = any_list(&trace.ticks, gap, random);
        let (p, q) = random.choose(&[(0, 1), (2, 1), (7, 3), (500, 1), (65_535, 1)]);
        let limits = Limits {
            tolerance: Form::Ratio(p, q),
            gap: Some(gap),
        };
        let entries: Vec<String> = list.iter().map(u16::to_string).collect();
        let (tolerance, gap) = (format!("-t{p}/{q}"), format!("--gap={gap}"));
        let arguments = ["judge", &tolerance, &gap, "-l", &entries.join(",")];
        let answer = told(&run(&arguments, written(&trace)));
        let found = judge(&trace.ticks, &trace.values, &list, limits).unwrap();
        let Some(Invalid { link, measure }) = found else {
            assert_eq!(answer, (0, "yes\n".into(), "".into()), "{arguments:?}");
            seen[0] += 1;
            continue;
        };
        seen[measure.side as usize] += 1;
        let Fraction { p, q } = measure.error;
        let cause = match measure.side {
            Side::Gap => {
                let tick = |sample: usize| trace.ticks[sample];
                let (before, after) = (tick(measure.sample), tick(measure.sample + 1));
                let hole = format!("the hole from tick {before} to tick {after}");
                format!("it crosses {hole}, and its error is {p}/{q}")
            }
            _ => lies(&trace.ticks, measure),
        };
        let ends = format!("from sample {} to {}", list[link], list[link + 1]);
        let expected = format!("no at link {link}, {ends}: {cause}\n");
        assert_eq!(answer, (1, expected, "".into()), "{arguments:?}");
    }
    assert!(seen.iter().min() > Some(&9), "{seen:?}");
}
