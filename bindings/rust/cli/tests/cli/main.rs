//! The tool as its users run it: pipes, files, exit statuses and messages.
//!
//! - `budget`: what an error budget may say.
//! - `check`: whether a record may stand for a trace.
//! - `counts`: tables of counts.
//! - `draw`: pictures.
//! - `gap`: gap limits.
//! - `greedy`: whether the size bound of the greedy reductions holds of a list.
//! - `measure`: how far a link strays, and where.
//! - `names`: names of files that are not UTF-8.
//! - `near`: how near lists are to the shortest.
//! - `parts`: tolerances with a part above and a part below.
//! - `pedestals`: two runs of a crate.
//! - `probes`: gallop's probes.
//! - `report`: the sheet of a crate.
//! - `same`: whether two records are the same.
//! - `scan`: scans at several tolerances.
//! - `signals`: runs that are ended while they write a file.
//! - `sum`: two traces added.
//! - `watch`: views of traces that grow.

mod budget;
mod check;
mod counts;
mod draw;
mod gap;
mod greedy;
mod measure;
mod names;
mod near;
mod parts;
mod pedestals;
mod probes;
mod report;
mod same;
mod scan;
mod signals;
mod sum;
mod watch;

use kovrelna_reference::generate::Trace;
use std::ffi::OsStr;
use std::fs::{self, File};
use std::io::Write;
use std::os::unix::ffi::OsStrExt;
use std::os::unix::fs::PermissionsExt;
use std::path::{Path, PathBuf};
use std::process::{Command, Output, Stdio};

const TOOL: &str = env!("CARGO_BIN_EXE_kovrelna");
const WAVE: &str = "0,0\n1,2\n2,0\n3,-2\n4,0\n";

/// A file of the repository.
fn shipped(name: &str) -> PathBuf {
    Path::new(env!("CARGO_MANIFEST_DIR"))
        .join("../../..")
        .join(name)
}

/// An empty folder for this test.
fn folder(name: &str) -> PathBuf {
    let folder = Path::new(env!("CARGO_TARGET_TMPDIR")).join(name);
    let _ = fs::remove_dir_all(&folder);
    fs::create_dir_all(&folder).unwrap();
    folder
}

/// Files with these contents in a folder for this test.
fn files(name: &str, contents: &[(&str, &str)]) -> PathBuf {
    let folder = folder(name);
    for (file, content) in contents {
        fs::write(folder.join(file), content).unwrap();
    }
    folder
}

fn run_with(mut command: Command, input: &[u8]) -> Output {
    command.stdin(Stdio::piped()).stderr(Stdio::piped());
    let mut child = command.spawn().unwrap();
    // The tool need not read all of its input.
    let _ = child.stdin.take().unwrap().write_all(input);
    child.wait_with_output().unwrap()
}

/// Runs the tool with this standard input.
fn run(arguments: &[&str], input: impl AsRef<[u8]>) -> Output {
    let mut command = Command::new(TOOL);
    command.args(arguments).stdout(Stdio::piped());
    run_with(command, input.as_ref())
}

/// Runs the tool in this folder.
fn run_in(folder: &Path, arguments: &[&str]) -> Output {
    let mut command = Command::new(TOOL);
    command.current_dir(folder).args(arguments);
    command.stdout(Stdio::piped());
    run_with(command, b"")
}

/// The status, the output and what standard error was told.
fn told(output: &Output) -> (i32, String, String) {
    let text = |bytes: &[u8]| String::from_utf8_lossy(bytes).into_owned();
    (
        output.status.code().expect("no signal"),
        text(&output.stdout),
        text(&output.stderr),
    )
}

fn done(arguments: &[&str], input: impl AsRef<[u8]>) -> Vec<u8> {
    let output = run(arguments, input);
    assert_eq!(told(&output).0, 0, "{arguments:?} {:?}", told(&output));
    assert_eq!(output.stderr, b"", "{arguments:?}");
    output.stdout
}

/// The tool fails with status 2, prints nothing and says this first.
fn fails(arguments: &[&str], input: impl AsRef<[u8]>, message: &str) {
    let (status, printed, error) = told(&run(arguments, input));
    assert_eq!((status, &printed[..]), (2, ""), "{arguments:?} {error}");
    let expected = format!("kovrelna: {message}");
    assert!(error.starts_with(&expected), "{arguments:?}: {error}");
}

fn path(path: &Path) -> &str {
    path.to_str().unwrap()
}

/// The trace as text.
fn written(trace: &Trace) -> String {
    let samples = trace.ticks.iter().zip(&trace.values);
    samples
        .map(|(tick, value)| format!("{tick},{value}\n"))
        .collect()
}

#[test]
fn records() {
    let record = done(&["record", "--tolerance", "4/6"], "0,0\n1,1\n3,1\n");
    let expected = [
        0x54, 0, 0, 0, 0, 2, 0, 0, 3, 0x41, 0, 0, 0, 0, 0, 0, 0x53, 3, 1, 0x45, 0, 2,
    ];
    assert_eq!(record, expected);
    for (method, kept) in [
        ("walk", "0,0\n2,0\n4,0\n"),
        ("gallop", "0,0\n4,0\n"),
        ("minimum", "0,0\n4,0\n"),
    ] {
        let record = done(&["record", "-m", method, "-t2"], WAVE);
        let shown = done(&["show"], record);
        let expected = format!("# tolerance 2/1\n{kept}");
        assert_eq!(String::from_utf8(shown).unwrap(), expected, "{method}");
    }
    let walked = done(&["record", "-t2"], WAVE);
    assert_eq!(walked, done(&["record", "-t2", "--method=walk", "-"], WAVE));
}

#[test]
fn round_trip() {
    let folder = folder("round_trip");
    let (one, two) = (folder.join("one"), folder.join("two"));
    let trace = shipped("examples/pulse.csv");
    done(
        &["record", "-t", "2.5x2", "-o", path(&one), path(&trace)],
        "",
    );
    let shown = done(&["show", path(&one)], "");
    done(&["record", "-o", path(&two)], &shown);
    assert_eq!(fs::read(&one).unwrap(), fs::read(&two).unwrap());
    // All five samples of the shipped record, and the same again.
    let wave = fs::read(shipped("examples/wave.record")).unwrap();
    let shown = done(&["show"], &wave);
    let text = format!("# tolerance 2/1\n{WAVE}");
    assert_eq!(String::from_utf8(shown).unwrap(), text);
    assert_eq!(done(&["record"], text), wave);
}

#[test]
fn show_several() {
    let wave = shipped("examples/wave.record");
    let name = path(&wave);
    fails(&["show", "-", "-"], "", "standard input is wanted twice");
    let (status, printed, error) = told(&run(&["show", name, "missing", name], ""));
    let one = format!("# {name}\n# tolerance 2/1\n{WAVE}");
    assert_eq!(printed, one.repeat(2));
    assert_eq!(status, 2);
    assert_eq!(error, "kovrelna: missing: No such file or directory\n");
}

#[test]
fn judges() {
    let zigzag = "0 0\n1 3\n2 0\n3 3\n4 0\n";
    let judge = |list: &str| told(&run(&["judge", "-t", "2", "--list", list], zigzag));
    assert_eq!(judge("0,3,4"), (0, "yes\n".into(), "".into()));
    let no = "no at link 2, from sample 2 to 4: sample 3 at tick 3 lies 3/1 above the line\n";
    assert_eq!(judge("0 1 2 4"), (1, no.into(), "".into()));
    let (status, printed, error) = judge("0,3");
    assert_eq!((status, &printed[..]), (2, ""));
    assert_eq!(
        error,
        "kovrelna: --list: no kept list: it does not end with the last sample\n"
    );
    let folder = folder("judges");
    let list = folder.join("list");
    fs::write(&list, "0\n# c\n3 3\n4\n").unwrap();
    let message = format!("{}:3: no kept list: entry 2 is bad\n", path(&list));
    fails(&["judge", "-t2", "-f", path(&list)], zigzag, &message);
    fs::write(&list, "0 # the first\n3\n4\n").unwrap();
    let answer = done(&["judge", "-t2", "-f", path(&list)], zigzag);
    assert_eq!(answer, b"yes\n");
    fs::write(&list, "0\n3x\n").unwrap();
    let message = format!("{}:2: the sample number `3x` is not a number", path(&list));
    fails(&["judge", "-t2", "-f", path(&list)], zigzag, &message);
    fails(
        &["judge", "-t2", "-l0,4", "-f", path(&list)],
        zigzag,
        "one of --list",
    );
    fails(
        &["judge", "-t2", "-f-"],
        zigzag,
        "standard input is wanted twice",
    );
    // What is kept already is no original trace.
    let kept = format!("# tolerance 2/1\n{zigzag}");
    let message = "<stdin>:1: samples are reduced already at 2/1";
    fails(&["judge", "-t2", "-l0,4"], &kept, message);
    fails(&["least", "-a2"], &kept, message);
    fails(&["measure", "0", "4"], &kept, message);
}

#[test]
fn least_errors() {
    let zigzag = "0 0\n1 3\n2 0\n3 3\n4 0\n";
    for (allowance, printed) in [
        ("2", "error 3/1\nlist 0,4\n"),
        ("4", "error 2/1\nlist 0,3,4\n"),
        ("4096", "error 0/1\nlist 0,1,2,3,4\n"),
    ] {
        let answer = done(&["least", "--allowance", allowance], zigzag);
        assert_eq!(String::from_utf8(answer).unwrap(), printed);
    }
    for (allowance, cause) in [
        ("1", "--allowance: the allowance is below 2 or above 4,096"),
        (
            "18446744073709551615",
            "--allowance: the allowance is below",
        ),
        (
            "-2",
            "--allowance: the allowance `-2` is not from 2 to 4096",
        ),
        ("two", "--allowance: the allowance `two` is not a number"),
    ] {
        fails(&["least", "-a", allowance], zigzag, cause);
    }
    fails(&["least"], zigzag, "--allowance is missing");
    fails(&["least", "-a2"], "", "<stdin>: no samples");
    fails(
        &["least", "-a2"],
        "5 0\n5 0\n",
        "<stdin>:2: the tick is not above",
    );
    let long: String = (0..257).map(|k| format!("{k},0\n")).collect();
    let cause = "<stdin>:257: too many samples: at most 256 are allowed\n";
    fails(&["least", "-a2"], long, cause);
}

#[test]
fn summaries() {
    let folder = folder("summaries");
    let trace = shipped("examples/pulse.csv");
    let wave = shipped("examples/wave.record");
    let (good, bad) = (folder.join("good"), folder.join("bad"));
    done(
        &[
            "record",
            "-t",
            "8",
            "-m",
            "minimum",
            "-o",
            path(&good),
            path(&trace),
        ],
        "",
    );
    fs::write(&bad, &fs::read(&wave).unwrap()[..20]).unwrap();
    let names = [path(&good), path(&bad), path(&wave), "missing"];
    let output = run(&[&["summary"], &names[..]].concat(), "");
    let (status, printed, error) = told(&output);
    assert_eq!(status, 2);
    let lines = [
        "samples\tspan\ttolerance\tleast\tgreatest\tbytes\tfile".to_string(),
        format!("12\t508\t8/1\t409\t569\t52\t{}", names[0]),
        format!("5\t4\t2/1\t-2\t2\t31\t{}", names[2]),
        "17\t512\t-\t-2\t569\t83\ttotal\n".to_string(),
    ];
    assert_eq!(printed, lines.join("\n"));
    let faults = [
        format!("kovrelna: {}: the record is faulty at byte 19\n", names[1]),
        "kovrelna: missing: No such file or directory\n".to_string(),
    ];
    assert_eq!(error, faults.concat());
    // The total has the tolerance that all have.
    for (others, total) in [
        (&[][..], "5\t4\t2/1\t-2\t2\t31\ttotal\n"),
        (&[names[2]], "10\t8\t2/1\t-2\t2\t62\ttotal\n"),
        (&[names[2], names[0]], "22\t516\t-\t-2\t569\t114\ttotal\n"),
    ] {
        let printed = done(&[&["summary", names[2]], others].concat(), "");
        let printed = String::from_utf8(printed).unwrap();
        assert!(printed.ends_with(total), "{printed}");
    }
    let (status, printed, _) = told(&run(&["summary", "missing"], ""));
    assert_eq!(status, 2);
    assert!(printed.ends_with("0\t0\t-\t-\t-\t0\ttotal\n"), "{printed}");
}

#[test]
fn places_of_errors() {
    let folder = folder("places_of_errors");
    let file = folder.join("trace.csv");
    let long: String = (0..5_000).map(|k| format!("{k},0\n")).collect();
    for (text, cause) in [
        (&b""[..], ": no samples"),
        (b"# only\n\n", ": no samples"),
        (b"tick,value\n", ": no samples"),
        (
            b"tick,value\n0,1\n2,x\n",
            ":3: the value `x` is not a number",
        ),
        (
            b"0,1\n2,40000\n",
            ":2: the value `40000` is not from -32768 to 32767",
        ),
        (b"0,1\n2,1.5\n", ":2: the value `1.5` is no whole number"),
        (
            b"0,1\r\n\r\n1\r\n",
            ":3: a tick and a value are wanted, and there is 1 column",
        ),
        (
            b"0,1\n5,1\n# c\n5,2\n",
            ":4: the tick is not above the one before",
        ),
        (
            b"7,1\n8,1\n1048583,2\n",
            ":3: the tick is over 1,048,575 above",
        ),
        (
            b"0,1\n\xff\xff,1\n",
            ":2: the tick `\u{fffd}\u{fffd}` is not a number",
        ),
        (long.as_bytes(), ":4097: too many samples"),
    ] {
        fs::write(&file, text).unwrap();
        for command in ["record", "draw", "judge", "measure", "scan", "sum"] {
            let arguments = match command {
                "judge" => vec![command, "-t1", "-l0", path(&file)],
                "measure" => vec![command, path(&file), "0", "1"],
                "sum" => vec![command, "-t1", path(&file), path(&file)],
                _ => vec![command, "-t1", path(&file)],
            };
            fails(&arguments, "", &format!("{}{cause}", path(&file)));
        }
        fails(&["record", "-t1"], text, &format!("<stdin>{cause}"));
    }
    fails(
        &["record", "-t1", "missing"],
        "",
        "missing: No such file or directory\n",
    );
    let message = format!("{}: Is a directory\n", path(&folder));
    fails(&["record", "-t1", path(&folder)], "", &message);
    fails(&["show", path(&folder)], "", &message);
    fails(
        &["record"],
        "# c\n# tolerance 1/0\n0,0\n",
        "<stdin>:2: tolerance: the tolerance is not allowed",
    );
}

/// No tolerance is stated that the samples were not reduced at.
#[test]
fn false_tolerances() {
    let wave = shipped("examples/wave.record");
    let wave = path(&wave);
    let two = done(&["show", wave, wave], "");
    fails(&["record"], &two, "<stdin>:9: a second record begins here");
    let one = done(&["show", wave], "");
    for arguments in [&["record", "-t8"][..], &["record", "-t8", "-mminimum"]] {
        let cause = "<stdin>:1: samples are reduced already at 2/1: tolerances would add";
        fails(arguments, &one, cause);
    }
}

/// A record in the place of text, and text in the place of a record.
#[test]
fn the_other_kind() {
    let wave = fs::read(shipped("examples/wave.record")).unwrap();
    for arguments in [
        &["record", "-t1"][..],
        &["judge", "-t1", "-l0"],
        &["measure", "0", "1"],
        &["least", "-a2"],
        &["scan", "-t1"],
        &["watch"],
        &["sum", "-t1", "-", "missing"],
    ] {
        fails(
            arguments,
            &wave,
            "<stdin>: a record, where a trace is wanted\n",
        );
    }
    fails(
        &["show"],
        WAVE,
        "<stdin>: no record: it is faulty at byte 0\n",
    );
}

/// Noise of every sort is refused with status 2; nothing panics.
#[test]
fn noise() {
    let (pulse, wave) = (
        shipped("examples/pulse.csv"),
        shipped("examples/wave.record"),
    );
    let mut bytes = Vec::new();
    let mut state = 1u32;
    for length in 0..200 {
        for _ in 0..length {
            state = state.wrapping_mul(1_664_525).wrapping_add(1_013_904_223);
            bytes.push((state >> 24) as u8);
        }
        for arguments in [
            &["record", "-t1"][..],
            &["show"],
            &["draw", "-t1", "--from", "1", "--to", "2"],
            &["near", "-t1"],
            &["probes", "-t1"],
            &["check", "-", path(&pulse)],
            &["check", path(&wave), "-"],
            &["same", "-", path(&wave)],
            &["same", path(&wave), "-"],
            &["measure", "0", "1"],
            &["pedestals", "-t1", "-k1", "-", path(&pulse)],
            &["pedestals", "-t1", "-k1", path(&pulse), "-"],
            &["scan", "-t1", "-t2"],
            &["watch"],
            &["sum", "-t1", "-", path(&pulse)],
            &["sum", "-t1", path(&pulse), "-"],
        ] {
            let (status, _, error) = told(&run(arguments, &bytes));
            assert_eq!(status, 2, "{bytes:?} {error}");
            assert!(error.starts_with("kovrelna: <stdin>"), "{error}");
        }
        if length > 20 {
            bytes.clear();
        }
    }
    let endless = File::open("/dev/zero").unwrap();
    for command in ["record", "draw", "show"] {
        let mut tool = Command::new(TOOL);
        tool.arg(command).stdin(endless.try_clone().unwrap());
        if command != "show" {
            tool.arg("-t1");
        }
        assert_eq!(told(&tool.output().unwrap()).0, 2, "{command}");
    }
}

#[test]
fn command_lines() {
    for (arguments, cause) in [
        (&[][..], "a command is missing"),
        (&["reduce"], "there is no command reduce"),
        (
            &["record", "--tolerance"],
            "--tolerance: a value is missing",
        ),
        (&["record", "-t1", "-t2"], "-t2: the option is given twice"),
        (
            &["record", "--tolerence", "1"],
            "--tolerence: there is no such option",
        ),
        (&["record", "-t", "x"], "--tolerance: `` is not a number"),
        (
            &["record", "-t", "0.1"],
            "--tolerance: `0.1` is not a multiple of 1/64; write the ratio 1/10",
        ),
        (
            &["record", "-t1", "-m", "best"],
            "--method: `best` is not walk",
        ),
        (&["record", "-m", "walk"], "--method needs --tolerance"),
        (&["record", "-t1", "a", "b"], "b: only one input is read"),
        (&["judge", "-l0"], "--tolerance is missing"),
        (&["--version", "extra"], "extra: nothing may follow"),
        (&["--help", "record"], "record: nothing may follow"),
        (&["judge", "-t1"], "one of --list and --list-file is wanted"),
        (
            &["judge", "-t1", "-l", "0,70000"],
            "--list: the sample number `70000` is not",
        ),
    ] {
        fails(arguments, "", cause);
        let (_, _, error) = told(&run(arguments, ""));
        assert!(error.contains("--help`."), "{error}");
    }
    fails(&["record"], WAVE, "<stdin>: --tolerance is missing");
    let mut tool = Command::new(TOOL);
    tool.arg("record")
        .arg("-t")
        .arg(OsStr::from_bytes(b"\xff1"));
    let (status, _, error) = told(&run_with(tool, b""));
    assert_eq!(status, 2);
    assert!(
        error.starts_with("kovrelna: --tolerance: \u{fffd}1 is no text"),
        "{error}"
    );
}

#[test]
fn help() {
    let tool = String::from_utf8(done(&["--help"], "")).unwrap();
    let names = tool.lines().filter_map(|line| line.strip_prefix("  "));
    let names = names.filter_map(|line| line.split(' ').next());
    let commands: Vec<&str> = names.filter(|name| !name.is_empty()).collect();
    let expected = [
        "record",
        "show",
        "judge",
        "check",
        "same",
        "measure",
        "least",
        "near",
        "probes",
        "scan",
        "watch",
        "sum",
        "summary",
        "report",
        "pedestals",
        "draw",
    ];
    assert_eq!(commands, expected);
    for command in commands {
        let text = String::from_utf8(done(&[command, "--help"], "")).unwrap();
        assert!(
            text.contains(&format!("Usage: kovrelna {command}")),
            "{command}"
        );
        assert!(text.contains("Exit status: 0"), "{command}");
        assert!(text.lines().all(|line| line.len() < 80), "{command}");
    }
    let version = concat!("kovrelna ", env!("CARGO_PKG_VERSION"), "\n");
    assert_eq!(done(&["--version"], ""), version.as_bytes());
}

/// Standard output that cannot be written.
#[test]
fn full_output() {
    let (pulse, wave) = (
        shipped("examples/pulse.csv"),
        shipped("examples/wave.record"),
    );
    let (pulse, wave) = (path(&pulse), path(&wave));
    for arguments in [
        &["record", "-t1"][..],
        &["show", wave],
        &["summary", wave],
        &["draw", "-t1"],
        &["judge", "-t1", "-l0,4"],
        &["judge", "-t2", "-l0,4", "--greedy"],
        &["judge", "-t2", "-l0,1,4", "--greedy"],
        &["check", wave, "-"],
        &["same", wave, wave],
        &["measure", "0", "1"],
        &["near", "-t1"],
        &["probes", "-t1"],
        &["pedestals", "-t1", "-k1", pulse, pulse],
        &["pedestals", "-t1", "-k1", "--csv", pulse, pulse],
        &["pedestals", "-t1", "-k1", "--draw", pulse, pulse],
        &["scan", "-t1"],
        &["scan", "-t1", "--csv"],
        &["scan", "-t1", "--draw"],
        &["watch"],
        &["sum", "-t1", pulse, pulse],
        &["--help"],
        &["record", "-t1", "-o", "/dev/full"],
    ] {
        let mut command = Command::new(TOOL);
        let full = File::options().write(true).open("/dev/full").unwrap();
        command.args(arguments).stdout(full);
        let (status, _, error) = told(&run_with(command, WAVE.as_bytes()));
        assert_eq!(status, 2, "{arguments:?}");
        let place = if arguments.contains(&"-o") {
            "/dev/full"
        } else {
            "<stdout>"
        };
        let expected = format!("kovrelna: {place}: No space left on device\n");
        assert_eq!(error, expected, "{arguments:?}");
    }
}

/// A record is not written to a terminal, an answer is.
#[test]
fn terminal() {
    let Ok(terminal) = File::options().read(true).write(true).open("/dev/ptmx") else {
        return;
    };
    for (arguments, status) in [
        (&["record", "-t1"][..], 2),
        (&["record", "-t1", "-o-"], 2),
        (&["judge", "-t2", "-l0,4"], 0),
    ] {
        let mut command = Command::new(TOOL);
        command
            .args(arguments)
            .stdout(terminal.try_clone().unwrap());
        let (ended, _, error) = told(&run_with(command, WAVE.as_bytes()));
        assert_eq!(ended, status, "{arguments:?} {error}");
        assert_eq!(error.contains("is not written to a terminal"), status == 2);
    }
}

/// A reader that goes away: a silent failure.
#[test]
fn broken_pipe() {
    let folder = folder("broken_pipe");
    fs::copy(shipped("examples/wave.record"), folder.join("w")).unwrap();
    let script = "{ \"$0\" show $(yes w | head -n 9999); echo $? >&2; } | head -n 1";
    let mut shell = Command::new("sh");
    shell.current_dir(&folder).args(["-c", script, TOOL]);
    shell.stdout(Stdio::piped());
    let (_, printed, error) = told(&run_with(shell, b""));
    assert_eq!((&printed[..], &error[..]), ("# w\n", "2\n"));
}

/// After any error the file is as it was, and no other file is left.
#[test]
fn files_survive_errors() {
    let folder = folder("files_survive_errors");
    let file = folder.join("out");
    let trace = shipped("examples/pulse.csv");
    let files = || -> Vec<String> {
        let names = fs::read_dir(&folder).unwrap();
        names
            .map(|entry| entry.unwrap().file_name().into_string().unwrap())
            .collect()
    };
    fs::write(&file, "before").unwrap();
    // The input is wrong.
    fails(
        &["record", "-t1", "-o", path(&file)],
        "0,0\n0,0\n",
        "<stdin>:2:",
    );
    // No more than a block or two can be written to a file.
    let script = "trap '' XFSZ; ulimit -f 1; exec \"$0\" \"$@\"";
    let limited = |output: &Path| {
        let mut shell = Command::new("sh");
        shell.args([
            "-c",
            script,
            TOOL,
            "draw",
            "-t1",
            path(&trace),
            "-o",
            path(output),
        ]);
        told(&run_with(shell, b""))
    };
    let (status, _, error) = limited(&file);
    assert_eq!(status, 2);
    assert_eq!(
        error,
        format!("kovrelna: {}: File too large\n", path(&file))
    );
    assert_eq!(limited(&folder.join("new")).0, 2);
    assert_eq!(fs::read(&file).unwrap(), b"before");
    assert_eq!(files(), ["out"]);
    // The folder cannot be written, or is not there.
    let mut unwritable = folder.join("locked");
    fs::create_dir(&unwritable).unwrap();
    fs::set_permissions(&unwritable, fs::Permissions::from_mode(0o555)).unwrap();
    if File::create(unwritable.join("probe")).is_ok() {
        // This user may write everywhere, except where no files can be made.
        unwritable = PathBuf::from("/proc/self");
    }
    for folder in [unwritable, folder.join("missing")] {
        let output = folder.join("out");
        fails(&["record", "-t1", "-o", path(&output)], WAVE, path(&output));
        if folder.is_dir() {
            let (_, _, error) = told(&run(&["record", "-t1", "-o", path(&output)], WAVE));
            assert!(error.contains("no file can be made in /"), "{error}");
        }
    }
    let message = format!("{}: Is a directory\n", path(&folder));
    fails(&["record", "-t1", "-o", path(&folder)], WAVE, &message);
    let new = format!("{}/new/", path(&folder));
    let message = format!("{new}: No such file or directory\n");
    fails(&["record", "-t1", "-o", &new], WAVE, &message);
    assert!(!folder.join("new").exists());
    fails(
        &["record", "-t1", "-o", ""],
        WAVE,
        "--output: the name is empty\n",
    );
}

/// A file that is replaced keeps its permissions; a link is followed; a file may be its own input.
#[test]
fn files_are_replaced() {
    let folder = folder("files_are_replaced");
    let (file, link) = (folder.join("out"), folder.join("link"));
    fs::write(&file, WAVE).unwrap();
    fs::set_permissions(&file, fs::Permissions::from_mode(0o640)).unwrap();
    std::os::unix::fs::symlink("out", &link).unwrap();
    done(&["record", "-t2", "-o", path(&link), path(&file)], "");
    assert_eq!(fs::read(&file).unwrap(), done(&["record", "-t2"], WAVE));
    assert_eq!(
        fs::metadata(&file).unwrap().permissions().mode() & 0o777,
        0o640
    );
    assert!(fs::symlink_metadata(&link).unwrap().is_symlink());
    assert_eq!(fs::read_dir(&folder).unwrap().count(), 2);
    // A link to no file yet makes the file, and a name may be as long as a name may.
    let (next, long) = (folder.join("next"), folder.join("n".repeat(255)));
    std::os::unix::fs::symlink(&long, &next).unwrap();
    done(&["record", "-t2", "-o", path(&next)], WAVE);
    assert!(fs::symlink_metadata(&next).unwrap().is_symlink());
    assert_eq!(fs::read(&long).unwrap(), fs::read(&file).unwrap());
    std::os::unix::fs::symlink("round", folder.join("round")).unwrap();
    let round = folder.join("round");
    let message = format!("{}: too many links\n", path(&round));
    fails(&["record", "-t2", "-o", path(&round)], WAVE, &message);
    // A name alone is in the folder where the tool runs.
    let mut tool = Command::new(TOOL);
    tool.current_dir(&folder)
        .args(["record", "-t2", "-o", "new"]);
    assert_eq!(told(&run_with(tool, WAVE.as_bytes())).0, 0);
    assert_eq!(
        fs::read(folder.join("new")).unwrap(),
        fs::read(&file).unwrap()
    );
}

/// Standard output by its names: what is in the file behind it stays.
#[test]
fn standard_output_by_name() {
    let folder = folder("standard_output_by_name");
    let record = done(&["record", "-t2"], WAVE);
    assert_eq!(done(&["record", "-t2", "-o", "-"], WAVE), record);
    let file = folder.join("all");
    for name in ["-", "/dev/stdout", "/dev/fd/1", "/proc/self/fd/1"] {
        assert_eq!(done(&["record", "-t2", "-o", name], WAVE), record, "{name}");
        fs::write(&file, "before").unwrap();
        let mut tool = Command::new(TOOL);
        let all = File::options().append(true).open(&file).unwrap();
        tool.current_dir(&folder)
            .args(["record", "-t2", "-o", name])
            .stdout(all);
        assert_eq!(told(&run_with(tool, WAVE.as_bytes())).0, 0, "{name}");
        let expected = [&b"before"[..], &record].concat();
        assert_eq!(fs::read(&file).unwrap(), expected, "{name}");
    }
    assert_eq!(fs::read_dir(&folder).unwrap().count(), 1);
}
