//! Views of traces that grow, beside the slow reference: line by line while the input is open, and on a
//! pseudo-terminal.

use super::signals::{is_ignored, send};
use super::{done, fails, files, path, run_in, run_with, shipped, told, written, TOOL, WAVE};
use kovrelna::Refusal;
use kovrelna_reference::generate::{growing, Random, Trace};
use kovrelna_reference::views::{add, begin};
use std::ffi::{c_int, c_ulong};
use std::fs::{self, File};
use std::io::{pipe, BufRead, BufReader, Write};
use std::os::fd::{AsRawFd, OwnedFd};
use std::os::unix::fs::OpenOptionsExt;
use std::os::unix::process::ExitStatusExt;
use std::process::{Child, ChildStdin, Command, ExitStatus, Stdio};

/// A trace whose view with k = 1 is as far off as a view may be.
const FARTHEST: &str = "0 -4\n1 -4\n2 0\n3 4\n4 -4\n5 4\n6 -4\n7 0\n";

/// What the tool prints with these options.
fn watched(options: &[&str], input: &str) -> String {
    let printed = done(&[&["watch"], options].concat(), input);
    String::from_utf8(printed).unwrap()
}

/// What it is to print of this trace.
fn expected(trace: &Trace, k: u64) -> String {
    let mut state = begin(k).unwrap();
    let line = |samples: usize| {
        if samples > 1 {
            let (ticks, values) = (&trace.ticks[..samples], &trace.values[..samples]);
            state = add(&state, ticks, values).unwrap();
        }
        let list = state.list().unwrap().iter().map(u16::to_string);
        format!("{samples} {}\n", list.collect::<Vec<_>>().join(","))
    };
    (1..=trace.ticks.len()).map(line).collect()
}

#[test]
fn example() {
    let lines = [
        "1 0",
        "2 0,1",
        "3 0,1,2",
        "4 0,1,2,3",
        "5 0,1,3,4",
        "6 0,3,4,5",
        "7 0,4,5,6",
        "8 0,4,5,7",
    ];
    let printed = format!("{}\n", lines.join("\n"));
    for options in [
        &["-k1"][..],
        &["-k", "1"],
        &["--inner=1"],
        &["-k1.0", "-"],
        &["-", "--inner", "1"],
    ] {
        assert_eq!(watched(options, FARTHEST), printed, "{options:?}");
    }
    // The last line need not be ended.
    assert_eq!(watched(&["-k1"], FARTHEST.trim_end()), printed);
    let ends = "1 0\n2 0,1\n3 0,2\n4 0,3\n5 0,4\n";
    assert_eq!(watched(&["-k0"], WAVE), ends);
    assert_eq!(watched(&["-k32"], "7,9\n"), "1 0\n");
}

#[test]
fn as_the_reference() {
    let random = &mut Random::new(11);
    for (k, options) in [
        (0, &["-k0"][..]),
        (1, &["-k1"]),
        (3, &["-k3"]),
        (8, &[]),
        (32, &["-k32"]),
    ] {
        for samples in [1, 2, 40, 200] {
            let trace = growing(samples, random);
            let printed = watched(options, &written(&trace));
            assert_eq!(printed, expected(&trace, k), "{k} {trace:?}");
        }
    }
}

/// The last line has a list that judge takes.
#[test]
fn files_and_lists() {
    let pulse = shipped("examples/pulse.csv");
    let pulse = path(&pulse);
    let printed = watched(&[pulse], "");
    assert_eq!(printed, watched(&[], &fs::read_to_string(pulse).unwrap()));
    let (samples, list) = printed.lines().last().unwrap().split_once(' ').unwrap();
    assert_eq!((samples, list.split(',').count()), ("128", 18));
    assert_eq!(done(&["judge", "-t99", "-l", list, pulse], ""), b"yes\n");
}

/// A run whose input is open.
struct Live {
    child: Child,
    input: Option<ChildStdin>,
    /// What it prints, on standard output and on standard error.
    output: BufReader<File>,
}

impl Live {
    /// With its output in a pipe.
    fn piped(options: &[&str]) -> Live {
        let (reader, writer) = pipe().unwrap();
        let ends = [reader.into(), writer.into()].map(|end: OwnedFd| end.into());
        Live::start(":", options, ends)
    }

    /// With its output on a terminal; the shell does this before.
    fn on_a_terminal(columns: u16, before: &str, options: &[&str]) -> Option<Live> {
        let ends = terminal(columns)?;
        Some(Live::start(before, options, ends))
    }

    fn start(before: &str, options: &[&str], [output, written]: [File; 2]) -> Live {
        let script = format!("{before}; exec \"$0\" watch \"$@\"");
        let mut shell = Command::new("sh");
        shell.args(["-c", &script, TOOL]).args(options);
        shell.env_remove("COLUMNS").env("LC_ALL", "C.UTF-8");
        shell.stdin(Stdio::piped());
        shell.stdout(written.try_clone().unwrap()).stderr(written);
        let mut child = shell.spawn().unwrap();
        Live {
            input: child.stdin.take(),
            output: BufReader::new(output),
            child,
        }
    }

    fn give(&mut self, text: &str) {
        let input = self.input.as_mut().unwrap();
        input.write_all(text.as_bytes()).unwrap();
    }

    /// What is printed next, up to this byte; nothing at the end.
    fn next(&mut self, last: u8) -> String {
        let mut bytes = Vec::new();
        // A terminal that no program has open any more has an error in the place of an end.
        let _ = self.output.read_until(last, &mut bytes);
        String::from_utf8(bytes).unwrap()
    }

    /// The line that is printed for this text.
    fn answer(&mut self, text: &str) -> String {
        self.give(text);
        self.next(b'\n')
    }

    /// The line that is redrawn for this text.
    fn redrawn(&mut self, text: &str) -> String {
        self.give(text);
        let drawn = self.next(b'K');
        let line = drawn.strip_prefix('\r').unwrap();
        line.strip_suffix("\x1b[K").unwrap().to_string()
    }

    /// What else it prints, and how it ends.
    fn end(mut self) -> (String, ExitStatus) {
        self.input = None;
        let mut rest = String::new();
        loop {
            match self.next(b'\n') {
                line if line.is_empty() => break,
                line => rest += &line,
            }
        }
        (rest, self.child.wait().unwrap())
    }
}

impl Drop for Live {
    fn drop(&mut self) {
        let _ = self.child.kill();
        let _ = self.child.wait();
    }
}

/// Each sample is answered before the next line is written.
#[test]
fn as_they_come() {
    let mut run = Live::piped(&["-k0"]);
    assert_eq!(run.answer("0 5\n"), "1 0\n");
    assert_eq!(run.answer("1 5\n"), "2 0,1\n");
    // A line that comes in parts, and lines that come together.
    run.give("2");
    run.give(" 5");
    assert_eq!(run.answer("\n"), "3 0,2\n");
    assert_eq!(run.answer("3 5\n4 5\n"), "4 0,3\n");
    assert_eq!(run.next(b'\n'), "5 0,4\n");
    let (rest, status) = run.end();
    assert_eq!((&rest[..], status.code()), ("", Some(0)));

    let mut run = Live::piped(&[]);
    run.give("\u{feff}# a comment\r\n\r\nTick;\"Value\"\r\n");
    assert_eq!(run.answer("10;-5 # the first\r\n"), "1 0\n");
    run.give("# between\n");
    assert_eq!(run.answer("20, 5\n"), "2 0,1\n");
    // At the end of the input the last line is whole.
    run.give("30 7");
    let (rest, status) = run.end();
    assert_eq!((&rest[..], status.code()), ("3 0,1,2\n", Some(0)));
}

/// What was printed stays, and what is wrong is named while the input is still open.
#[test]
fn refused_samples() {
    for (line, cause) in [
        ("x,1\n", "the tick `x` is not a number"),
        (
            "9\n",
            "a tick and a value are wanted, and there is 1 column",
        ),
        ("9,1.5\n", "the value `1.5` is no whole number"),
        ("7,0\n", "the tick is not above the one before"),
        (
            "1048581,0\n",
            "the tick is over 1,048,575 above that of the first sample",
        ),
        (
            "# tolerance 2/1\n",
            "a second record begins here, or its tolerance comes after its samples",
        ),
    ] {
        let mut run = Live::piped(&[]);
        assert_eq!(run.answer("tick,value\n5,0\n"), "1 0\n");
        assert_eq!(run.answer("7,3\n"), "2 0,1\n");
        let message = format!("kovrelna: <stdin>:4: {cause}\n");
        assert_eq!(run.answer(line), message);
        let (rest, status) = run.end();
        assert_eq!((&rest[..], status.code()), ("", Some(2)));
    }
    for text in ["", "# only\n\n", "tick,value\n"] {
        fails(&["watch"], text, "<stdin>: no samples\n");
    }
    let kept = format!("# tolerance 2/1\n{WAVE}");
    let cause = "<stdin>:1: samples are reduced already at 2/1";
    fails(&["watch"], kept, cause);
    fails(&["watch", "missing"], "", "missing: No such file");
    let folder = files("watch_refused", &[("bad.csv", "0,1\n2,1\n1,1\n")]);
    let (status, printed, error) = told(&run_in(&folder, &["watch", "bad.csv"]));
    assert_eq!((status, &printed[..]), (2, "1 0\n2 0,1\n"));
    let cause = "kovrelna: bad.csv:3: the tick is not above the one before\n";
    assert_eq!(error, cause);
}

/// A trace is full with 4,096 samples.
#[test]
fn too_many_samples() {
    let ticks: Vec<u32> = (0..4_096).map(|k| 256 * k).collect();
    let values = ticks.iter().map(|tick| (tick / 7 % 1_000) as i16).collect();
    let trace = Trace { ticks, values };
    let full = written(&trace);
    let more = format!("{full}1048575,0\n");
    let folder = files("watch_too_many", &[("full", &full), ("more", &more)]);
    let cause = "kovrelna: more:4097: too many samples: at most 4096 are allowed\n";
    for (name, status, cause) in [("full", 0, ""), ("more", 2, cause)] {
        let (ended, printed, error) = told(&run_in(&folder, &["watch", name]));
        assert_eq!((ended, &error[..]), (status, cause));
        assert!(printed == expected(&trace, 8), "{name}");
    }
}

#[test]
fn command_lines() {
    let refused = format!("--inner: {}\nTry", Refusal::View);
    for k in ["33", "100", "18446744073709551615"] {
        fails(&["watch", "-k", k], WAVE, &refused);
        // The command line comes before what is read.
        fails(&["watch", "-k", k, "missing"], "", &refused);
    }
    for (options, cause) in [
        (&["-k-1"][..], "--inner: the k `-1` is not from 0 to 32"),
        (
            &["-k", "18446744073709551616"],
            "--inner: the k `18446744073709551616` is not from 0 to 32",
        ),
        (&["-k0.5"], "--inner: the k `0.5` is no whole number"),
        (&["-keight"], "--inner: the k `eight` is not a number"),
        (&["-k="], "--inner: the k `=` is not a number"),
        (&["-k"], "-k: a value is missing"),
        (
            &["-k1", "--inner=2"],
            "--inner=2: the option is given twice",
        ),
        (&["-", "more"], "more: only one input is read"),
        (&["-t2"], "-t2: there is no such option"),
        (&["--gap=2"], "--gap=2: there is no such option"),
    ] {
        let arguments = [&["watch"], options].concat();
        fails(&arguments, WAVE, &format!("{cause}\nTry"));
    }
}

/// A run that waits for a sample ends as the signal ends it, and prints nothing more.
#[test]
fn signals() {
    for (signal, number) in [("HUP", 1), ("INT", 2), ("TERM", 15)] {
        if is_ignored(number) {
            continue;
        }
        let mut run = Live::piped(&[]);
        assert_eq!(run.answer("0 5\n"), "1 0\n");
        send(&run.child, signal);
        assert_eq!(run.next(b'\n'), "");
        let status = run.child.wait().unwrap();
        assert_eq!(status.signal(), Some(number as i32), "{status}");
    }
}

/// A reader that goes away: a silent failure.
#[test]
fn closed_output() {
    let samples: String = (0..4_096).map(|tick| format!("{tick},0\n")).collect();
    let folder = files("watch_closed_output", &[("samples", &samples)]);
    let script = "{ \"$0\" watch -k32 samples; echo $? >&2; } | head -n 1";
    let mut shell = Command::new("sh");
    shell.current_dir(&folder).args(["-c", script, TOOL]);
    shell.stdout(Stdio::piped());
    let (_, printed, error) = told(&run_with(shell, b""));
    assert_eq!((&printed[..], &error[..]), ("1 0\n", "2\n"));
}

extern "C" {
    fn ioctl(descriptor: c_int, request: c_ulong, ...) -> c_int;
}

/// A pseudo-terminal with so many columns: its screen, and what a program has of it. Where there is none it
/// says so. The numbers are those of Linux.
fn terminal(columns: u16) -> Option<[File; 2]> {
    const UNLOCK: c_ulong = 0x4004_5431;
    const NUMBER: c_ulong = 0x8004_5430;
    const NOT_CONTROLLING: c_int = 0o400;
    let open = |path: &str| {
        let mut options = File::options();
        options.read(true).write(true);
        options.custom_flags(NOT_CONTROLLING).open(path)
    };
    let opened = open("/dev/ptmx").and_then(|screen| {
        let (mut number, locked): (c_int, c_int) = (0, 0);
        // SAFETY: the requests take a pointer to a number.
        unsafe {
            ioctl(screen.as_raw_fd(), UNLOCK, &locked);
            ioctl(screen.as_raw_fd(), NUMBER, &mut number);
        }
        resize(&screen, columns);
        let program = open(&format!("/dev/pts/{number}"))?;
        Ok([screen, program])
    });
    if let Err(error) = &opened {
        eprintln!("watch: no pseudo-terminal here, so no test on one: {error}");
    }
    opened.ok()
}

fn resize(screen: &File, columns: u16) {
    const RESIZE: c_ulong = 0x5414;
    let size = [24, columns, 0, 0];
    // SAFETY: the request takes a pointer to four numbers of this size.
    unsafe { ioctl(screen.as_raw_fd(), RESIZE, &size) };
}

/// One line, which fills the terminal as wide as it is by then, but for the last columns.
#[test]
fn on_a_terminal() {
    let Some(mut run) = Live::on_a_terminal(33, ":", &["-k1"]) else {
        return;
    };
    let flat = "▁".repeat(26);
    assert_eq!(run.redrawn("0 0\n"), format!("1/1 {flat}"));
    assert_eq!(run.redrawn("13 0\n"), format!("2/2 {flat}"));
    let peak = format!("3/3 {}▄█", "▁".repeat(24));
    assert_eq!(run.redrawn("14 8\n"), peak);
    let step = format!("4/4 {}{}", "▁".repeat(13), "█".repeat(13));
    assert_eq!(run.redrawn("26 8\n"), step);
    for (tick, columns) in [(27, 200), (28, 80), (29, 20), (30, 65_535)] {
        resize(run.output.get_ref(), columns);
        let line = run.redrawn(&format!("{tick} -7\n"));
        assert_eq!(line.chars().count(), usize::from(columns) - 3);
        let samples = tick - 22;
        let label = match columns {
            20 => format!("4/{samples} "),
            _ => format!("4 of {samples} kept, -7 to 8, last -7 "),
        };
        let plot = line.strip_prefix(&label).unwrap();
        assert!(plot.chars().all(|mark| ('▁'..='█').contains(&mark)));
        assert!(plot.contains('█') && plot.ends_with('▁'), "{line}");
    }
    for columns in [1, 2, 3] {
        resize(run.output.get_ref(), columns);
        assert_eq!(run.redrawn(&format!("{} 0\n", 30 + columns)), "");
    }
    // A prompt has a line of its own.
    let (rest, status) = run.end();
    assert_eq!((&rest[..], status.code()), ("\r\n", Some(0)));
}

/// A terminal that does not know how wide it is, and a locale without UTF-8.
#[test]
fn on_a_plain_terminal() {
    for (before, columns, highest) in [
        (":", 80, '█'),
        ("export COLUMNS=60", 60, '█'),
        ("export COLUMNS=wide", 80, '█'),
        (
            "export COLUMNS=0 LC_ALL= LC_CTYPE=de_DE.utf8 LANG=C",
            80,
            '█',
        ),
        ("export LC_ALL=C LC_CTYPE=C.UTF-8", 80, '@'),
        ("unset LC_ALL LC_CTYPE LANG", 80, '@'),
    ] {
        let Some(mut run) = Live::on_a_terminal(0, before, &[]) else {
            return;
        };
        run.redrawn("0 0\n");
        let line = run.redrawn("1 8\n");
        assert_eq!(line.chars().count(), columns - 3, "{before}");
        let label = "2 of 2 kept, 0 to 8, last 8 ";
        assert!(line.starts_with(label) && line.ends_with(highest), "{line}");
    }
}

/// A signal ends the line that is redrawn, and then the tool; one that is ignored does nothing.
#[test]
fn signals_on_a_terminal() {
    for (signal, number) in [("HUP", 1), ("INT", 2), ("QUIT", 3), ("TERM", 15)] {
        if is_ignored(number) {
            continue;
        }
        let Some(mut run) = Live::on_a_terminal(80, "ulimit -c 0", &[]) else {
            return;
        };
        run.redrawn("0 5\n");
        run.redrawn("1 5\n");
        send(&run.child, signal);
        assert_eq!(run.next(b'\n'), "\r\n", "{signal}");
        assert_eq!(run.next(b'\n'), "", "{signal}");
        let status = run.child.wait().unwrap();
        assert_eq!(status.signal(), Some(number as i32), "{status}");
    }
    let Some(mut run) = Live::on_a_terminal(80, "trap '' HUP INT", &[]) else {
        return;
    };
    run.redrawn("0 5\n");
    send(&run.child, "HUP");
    send(&run.child, "INT");
    let line = run.redrawn("1 7\n");
    assert!(line.starts_with("2 of 2 kept, 5 to 7, last 7 "), "{line}");
}

/// What was drawn stays, and the message has a line of its own.
#[test]
fn refused_on_a_terminal() {
    for (drawn, bad, rest) in [
        (
            "0 5\n",
            "0 6\n",
            "\r\nkovrelna: <stdin>:2: the tick is not above the one before\r\n",
        ),
        (
            "",
            "x 6\n",
            "kovrelna: <stdin>:1: the tick `x` is not a number\r\n",
        ),
    ] {
        let Some(mut run) = Live::on_a_terminal(80, ":", &[]) else {
            return;
        };
        if !drawn.is_empty() {
            run.redrawn(drawn);
        }
        run.give(bad);
        let (told, status) = run.end();
        assert_eq!((&told[..], status.code()), (rest, Some(2)));
    }
}

/// Samples that are typed, up to Ctrl-D.
#[test]
fn from_a_terminal() {
    // In a line that is begun the first Ctrl-D passes on what there is of it.
    for typed in ["0 5\n1 7\n\x04", "0 5\n1 7\x04\x04"] {
        let Some([mut screen, program]) = terminal(80) else {
            return;
        };
        let mut tool = Command::new(TOOL);
        tool.arg("watch").stdin(program).stdout(Stdio::piped());
        let tool = tool.spawn().unwrap();
        screen.write_all(typed.as_bytes()).unwrap();
        let (status, printed, _) = told(&tool.wait_with_output().unwrap());
        assert_eq!((status, &printed[..]), (0, "1 0\n2 0,1\n"), "{typed:?}");
    }
}
