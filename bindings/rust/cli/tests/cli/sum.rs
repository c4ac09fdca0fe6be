//! Two traces added, with what is kept of them joined, beside the slow reference.

use super::{done, fails, files, folder, path, run, run_in, shipped, told, written, TOOL, WAVE};
use kovrelna_reference::generate::{overflow, summands, Random, Trace};
use kovrelna_reference::record::decode;
use kovrelna_reference::sums::{bound, sum, Sum};
use kovrelna_reference::{
    held, list_error, list_obeys, reduce, Form, Fraction, Limits, METHODS, SPAN,
};
use std::fs::{self, File};
use std::path::Path;
use std::process::Command;

/// The trace with these values and ticks from 0 on.
pub fn even(values: &[i16]) -> String {
    let samples = values.iter().enumerate();
    samples
        .map(|(tick, value)| format!("{tick},{value}\n"))
        .collect()
}

/// What the tool prints of traces `a` and `b` in this folder. It says nothing else.
pub fn summed(folder: &Path, options: &[&str]) -> String {
    let output = run_in(folder, &[&["sum"], options, &["a", "b"]].concat());
    let (status, printed, error) = told(&output);
    assert_eq!((status, &error[..]), (0, ""), "{options:?}");
    printed
}

/// The tool fails on traces `a` and `b` in this folder with status 2, prints nothing and says this first.
fn fails_in(folder: &Path, options: &[&str], message: &str) {
    let output = run_in(folder, &[&["sum"], options, &["a", "b"]].concat());
    let (status, printed, error) = told(&output);
    assert_eq!((status, &printed[..]), (2, ""), "{options:?} {error}");
    let expected = format!("kovrelna: {message}");
    assert!(error.starts_with(&expected), "{options:?}: {error}");
}

/// What it prints.
pub fn lines(samples: usize, kept: [usize; 3], tolerance: &str, error: &str) -> String {
    let [kept, one, other] = kept;
    format!(
        "samples {samples}\nkept {kept}, joined from {one} and {other}\n\
         tolerance {tolerance}\nerror {error}\n"
    )
}

/// What a record's text is.
pub fn shown(folder: &Path, record: &str) -> String {
    let output = run_in(folder, &["show", record]);
    assert_eq!(told(&output).0, 0);
    told(&output).1
}

/// Errors above T1 + T2, and one that is 2 (T1 + T2).
#[test]
fn figures() {
    let above = (&[0, 0, 1, 1][..], &[0, -1, 0, 1][..]);
    let reached = (&[-6, -6, 0, 6, -6][..], &[3, 4, 2, 4, 3][..]);
    let any_method = (&[0, 0, -1, -1, -1][..], &[0, -2, -2, -2, -2][..]);
    for ((a, b), options, expected) in [
        (
            above,
            &["-t1/3", "--tolerance2", "0", "-mminimum"][..],
            lines(4, [3, 2, 3], "2/3", "1/2"),
        ),
        (
            above,
            &["-t", "1/3", "--tolerance2=0"],
            lines(4, [4, 4, 3], "2/3", "0/1"),
        ),
        (
            reached,
            &["-t0", "--tolerance2", "1", "--method", "minimum"],
            lines(5, [4, 4, 2], "2/1", "2/1"),
        ),
        (
            any_method,
            &["-t1/2", "--tolerance2=0"],
            lines(5, [3, 2, 3], "1/1", "2/3"),
        ),
        (
            any_method,
            &["-t1/2", "--tolerance2=0", "-m", "gallop"],
            lines(5, [3, 2, 3], "1/1", "2/3"),
        ),
        (
            any_method,
            &["-t1/2", "--tolerance2=0", "-m", "minimum"],
            lines(5, [3, 2, 3], "1/1", "2/3"),
        ),
        // Both at the same tolerance.
        (any_method, &["-t1/2"], lines(5, [3, 2, 3], "2/1", "2/3")),
        // A sample each.
        (
            (&[9], &[-9]),
            &["-t3.25x4"],
            lines(1, [1, 1, 1], "52/1", "0/1"),
        ),
        // Sums at the ends of the range.
        (
            (&[-16_384, 32_767, 0], &[-16_384, 0, 32_767]),
            &["-t0"],
            lines(3, [3, 3, 3], "0/1", "0/1"),
        ),
    ] {
        let folder = files("sum_figures", &[("a", &even(a)), ("b", &even(b))]);
        assert_eq!(summed(&folder, options), expected, "{options:?}");
        let both = ["-o", "record", "--trace", "trace"];
        assert_eq!(summed(&folder, &[options, &both].concat()), expected);
        let values: Vec<i16> = a.iter().zip(b).map(|(a, b)| a + b).collect();
        let trace = fs::read_to_string(folder.join("trace")).unwrap();
        assert_eq!(trace, even(&values));
        let check = told(&run_in(&folder, &["check", "record", "trace"]));
        assert_eq!(check, (0, "yes\n".into(), "".into()));
    }
}

/// The shipped pair: its error is above T1 + T2, which is 8.
#[test]
fn example() {
    let folder = folder("sum_example");
    let (record, trace) = (folder.join("record"), folder.join("trace"));
    let pair = [1, 2].map(|k| shipped(&format!("examples/photomultiplier-{k}.csv")));
    let pair = [path(&pair[0]), path(&pair[1])];
    let options = ["--tolerance", "4", "--method", "minimum"];
    let written = ["-o", path(&record), "--trace", path(&trace)];
    let expected = lines(64, [22, 18, 17], "16/1", "28/3");
    let printed = done(&[&["sum"], &options[..], &written, &pair].concat(), "");
    assert_eq!(printed, expected.as_bytes());
    let check = done(&["check", path(&record), path(&trace)], "");
    assert_eq!(check, b"yes\n");
    // Options may follow the traces.
    let printed = done(&[&["sum"], &pair[..], &options, &written].concat(), "");
    assert_eq!(printed, expected.as_bytes());
}

/// The record has the joined samples of the summed trace, and every command takes the trace.
#[test]
fn written_files() {
    let folder = files(
        "sum_written_files",
        &[
            ("a", &even(&[0, 0, -1, -1, -1])),
            ("b", &even(&[0, -2, -2, -2, -2])),
        ],
    );
    let printed = lines(5, [3, 2, 3], "1/1", "2/3");
    let options = ["-t1/2", "--tolerance2=0"];
    // Nothing is written but what is asked for.
    assert_eq!(summed(&folder, &options), printed);
    assert_eq!(fs::read_dir(&folder).unwrap().count(), 2);
    for (option, file) in [("-o", "record"), ("--trace", "trace")] {
        let options = [&options[..], &[option, file]].concat();
        assert_eq!(summed(&folder, &options), printed);
        fs::remove_file(folder.join(file)).unwrap();
        assert_eq!(fs::read_dir(&folder).unwrap().count(), 2, "{option}");
    }
    // Files that are there are replaced.
    for file in ["record", "trace"] {
        fs::write(folder.join(file), "before").unwrap();
    }
    let both = ["--output=record", "--trace=trace"];
    let options = [&options[..], &both].concat();
    assert_eq!(summed(&folder, &options), printed);
    assert_eq!(fs::read_dir(&folder).unwrap().count(), 4);
    let kept = "# tolerance 1/1\n0,0\n1,-2\n4,-3\n";
    assert_eq!(shown(&folder, "record"), kept);
    let trace = fs::read_to_string(folder.join("trace")).unwrap();
    assert_eq!(trace, even(&[0, -2, -3, -3, -3]));
    for (arguments, printed) in [
        (&["check", "record", "trace"][..], "yes\n"),
        (&["judge", "-t2/3", "-l0,1,4", "trace"], "yes\n"),
        (
            &["measure", "trace", "1", "4"],
            "error 2/3\nsample 2\ntick 2\nvalue -3\nside below\n",
        ),
    ] {
        let answer = told(&run_in(&folder, arguments));
        assert_eq!(answer, (0, printed.into(), "".into()), "{arguments:?}");
    }
    let (status, svg, _) = told(&run_in(&folder, &["draw", "-t1", "trace"]));
    assert_eq!(status, 0);
    assert!(svg.contains("<title>5 samples, 3 kept by walk, tolerance 1: trace</title>"));
    // An input may be replaced, and the sum be added again.
    let again = ["sum", "-t1", "--trace", "trace", "trace", "b"];
    assert_eq!(told(&run_in(&folder, &again)).0, 0);
    let trace = fs::read_to_string(folder.join("trace")).unwrap();
    assert_eq!(trace, even(&[0, -4, -5, -5, -5]));
}

/// The sum and the joined list are the same whichever trace comes first.
#[test]
fn in_either_order() {
    let folder = files(
        "sum_in_either_order",
        &[
            ("a", &even(&[-6, -6, 0, 6, -6])),
            ("b", &even(&[3, 4, 2, 4, 3])),
        ],
    );
    let options = ["-t0", "--tolerance2=1", "-mminimum"];
    let written = ["-o", "record", "--trace", "trace"];
    let printed = summed(&folder, &[&options[..], &written].concat());
    assert_eq!(printed, lines(5, [4, 4, 2], "2/1", "2/1"));
    let arguments = ["sum", "-t1", "--tolerance2=0", "-mminimum", "b", "a"];
    let written = ["-o", "other record", "--trace", "other trace"];
    let printed = told(&run_in(&folder, &[&arguments[..], &written].concat())).1;
    assert_eq!(printed, lines(5, [4, 2, 4], "2/1", "2/1"));
    for file in ["record", "trace"] {
        let other = folder.join(format!("other {file}"));
        assert_eq!(
            fs::read(folder.join(file)).unwrap(),
            fs::read(other).unwrap()
        );
    }
}

/// Zeros add nothing.
#[test]
fn zeros() {
    let folder = folder("sum_zeros");
    let (pulse, record, trace) = (
        shipped("examples/pulse.csv"),
        folder.join("record"),
        folder.join("trace"),
    );
    let text = fs::read_to_string(&pulse).unwrap();
    let samples: Vec<&str> = text.lines().skip(2).collect();
    let zero = |line: &&str| format!("{},0\n", line.split_once(',').unwrap().0);
    let zeros: String = samples.iter().map(zero).collect();
    for method in ["walk", "gallop", "minimum"] {
        let own = done(&["record", "-t8", "-m", method, path(&pulse)], "");
        let own = String::from_utf8(done(&["show"], own)).unwrap();
        let (_, own) = own.split_once('\n').unwrap();
        let kept = own.lines().count();
        for (inputs, tolerances, counts) in [
            ([path(&pulse), "-"], ["-t8", "--tolerance2=0"], [kept, 2]),
            (["-", path(&pulse)], ["-t0", "--tolerance2=8"], [2, kept]),
        ] {
            let options = ["-m", method, "-o", path(&record), "--trace", path(&trace)];
            let arguments = [&["sum"], &tolerances[..], &options, &inputs].concat();
            let printed = String::from_utf8(done(&arguments, &zeros)).unwrap();
            let [one, other] = counts;
            let start = format!("samples 128\nkept {kept}, joined from {one} and {other}\n");
            assert!(printed.starts_with(&start), "{printed}");
            assert!(printed.contains("\ntolerance 16/1\n"), "{printed}");
            let sum = fs::read_to_string(&trace).unwrap();
            assert_eq!(sum, samples.join("\n") + "\n");
            let expected = format!("# tolerance 16/1\n{own}");
            assert_eq!(done(&["show", path(&record)], ""), expected.as_bytes());
        }
    }
}

/// The joined list obeys the gap limit.
#[test]
fn gap_limits() {
    let folder = files(
        "sum_gap_limits",
        &[
            ("a", "0,0\n1,0\n2,0\n10,0\n11,0\n12,0\n"),
            ("b", "0,0\n1,5\n2,0\n10,0\n11,0\n12,0\n"),
        ],
    );
    let options = ["-t0", "-o", "record", "--trace", "trace"];
    let with = |gap| [&options[..], &["--gap", gap]].concat();
    let printed = lines(6, [5, 4, 5], "0/1", "0/1");
    assert_eq!(summed(&folder, &with("7")), printed);
    let kept = "# tolerance 0/1\n0,0\n1,5\n2,0\n10,0\n12,0\n";
    assert_eq!(shown(&folder, "record"), kept);
    let check = |gap| {
        let arguments = ["check", "--gap", gap, "record", "trace"];
        told(&run_in(&folder, &arguments))
    };
    assert_eq!(check("7"), (0, "yes\n".into(), "".into()));
    let printed = lines(6, [4, 2, 4], "0/1", "0/1");
    assert_eq!(summed(&folder, &with("8")), printed);
    assert_eq!(summed(&folder, &options), printed);
    assert_eq!(check("8"), (0, "yes\n".into(), "".into()));
    let (status, answer, _) = check("7");
    assert_eq!(status, 1, "{answer}");
}

/// Where 2 (T1 + T2) is not allowed, the record has the least allowed tolerance that is not below it, or
/// the greatest.
#[test]
fn tolerances() {
    let ends = even(&[32_767, -32_768, 32_767]);
    let folder = files("sum_tolerances", &[("a", &ends), ("b", &even(&[0; 3]))]);
    for (t1, t2, tolerance, in_place_of) in [
        ("0", "0", "0/1", ""),
        ("1/6", "1/10", "8/15", ""),
        ("1.5", "2x2", "11/1", ""),
        ("1/1048575", "1/1048575", "4/1048575", ""),
        ("32767.5", "0", "65535/1", ""),
        (
            "1/1048575",
            "1/1048574",
            "2/524287",
            " in place of 2097149/549754241025, whose denominator is above 1,048,575",
        ),
        (
            "32767.5",
            "1/64",
            "65535/1",
            " in place of 2097121/32, which is above 65,535",
        ),
        (
            "65535",
            "65535",
            "65535/1",
            " in place of 262140/1, which is above 65,535",
        ),
    ] {
        let options = ["-t", t1, "--tolerance2", t2, "-o", "record"];
        let printed = summed(&folder, &options);
        let line = format!("\ntolerance {tolerance}{in_place_of}\nerror ");
        assert!(printed.contains(&line), "{printed}");
        let shown = shown(&folder, "record");
        let first = format!("# tolerance {tolerance}\n");
        assert!(shown.starts_with(&first), "{shown}");
    }
    // The greatest error of all.
    let printed = summed(&folder, &["-t65535"]);
    assert!(printed.ends_with("\nerror 65535/1\n"), "{printed}");
}

#[test]
fn mismatches() {
    let a = "# of a\n5,1\n7,2\n9,3\n";
    for (b, message) in [
        (
            "5,1\n8,2\n9,3\n",
            "a:3: the ticks differ: sample 1 is at tick 7, and at tick 8 in b:2\n",
        ),
        (
            "4,1\n",
            "a:2: the ticks differ: sample 0 is at tick 5, and at tick 4 in b:1\n",
        ),
        (
            "5,1\n7,2\n",
            "b: there is no sample 2, which a:4 has at tick 9\n",
        ),
        (
            "5,1\n7,2\n\n9,3\n\n1000000,4\n1000001,4\n",
            "a: there is no sample 3, which b:6 has at tick 1000000\n",
        ),
        // Before any sum that is beyond the range.
        (
            "5,32767\n7,32767\n",
            "b: there is no sample 2, which a:4 has at tick 9\n",
        ),
    ] {
        let folder = files("sum_mismatches", &[("a", a), ("b", b)]);
        let options = ["-t1", "-o", "record", "--trace", "trace"];
        fails_in(&folder, &options, message);
        assert_eq!(fs::read_dir(&folder).unwrap().count(), 2);
    }
    // From standard input, beside a file with two lines before its samples.
    let pulse = shipped("examples/pulse.csv");
    let (pulse, other) = (path(&pulse), "184320,0\n184321,0\n");
    let message = format!(
        "<stdin>:2: the ticks differ: sample 1 is at tick 184321, and at tick 184324 in {pulse}:4\n"
    );
    fails(&["sum", "-t1", "-", pulse], other, &message);
    let message = format!(
        "{pulse}:4: the ticks differ: sample 1 is at tick 184324, and at tick 184321 in <stdin>:2\n"
    );
    fails(&["sum", "-t1", pulse, "-"], other, &message);
}

#[test]
fn overflows() {
    let a = "# of a\n5,1\n7,32767\n9,-32768\n";
    for (b, message) in [
        (
            "5,32766\n7,1\n9,0\n",
            "a:3: sample 1 at tick 7 has value 32767, and b:2 has 1: their sum 32768 is not from \
             -32768 to 32767\n",
        ),
        (
            "\n5,32766\n7,0\n9,-1\n",
            "a:4: sample 2 at tick 9 has value -32768, and b:4 has -1: their sum -32769 is not from \
             -32768 to 32767\n",
        ),
        (
            "5,32767\n7,32767\n9,-32768\n",
            "a:2: sample 0 at tick 5 has value 1, and b:1 has 32767: their sum 32768 is not from \
             -32768 to 32767\n",
        ),
    ] {
        let folder = files("sum_overflows", &[("a", a), ("b", b)]);
        let options = ["-t1", "-o", "record", "--trace", "trace"];
        fails_in(&folder, &options, message);
        assert_eq!(fs::read_dir(&folder).unwrap().count(), 2);
    }
}

/// What is no original trace is told with its file, and A's faults come first.
#[test]
fn no_traces() {
    let wave = fs::read(shipped("examples/wave.record")).unwrap();
    let long: String = (0..4_097).map(|tick| format!("{tick},0\n")).collect();
    let folder = folder("sum_no_traces");
    for (bad, cause) in [
        (&b""[..], ": no samples\n"),
        (b"0,x\n", ":1: the value `x` is not a number\n"),
        (b"5,0\n5,0\n", ":2: the tick is not above the one before\n"),
        (b"0,0\n1048576,0\n", ":2: the tick is over 1,048,575 above"),
        (
            long.as_bytes(),
            ":4097: too many samples: at most 4096 are allowed\n",
        ),
        (
            b"# tolerance 2/1\n0,0\n",
            ":1: samples are reduced already at 2/1: the answer would not be about the original \
             trace\n",
        ),
        (&wave, ": a record, where a trace is wanted\n"),
    ] {
        fs::write(folder.join("a"), bad).unwrap();
        for other in [&b"5,0\n5,0\n"[..], WAVE.as_bytes()] {
            fs::write(folder.join("b"), other).unwrap();
            fails_in(&folder, &["-t1"], &format!("a{cause}"));
        }
        fs::write(folder.join("a"), WAVE).unwrap();
        fs::write(folder.join("b"), bad).unwrap();
        fails_in(
            &folder,
            &["-t1", "-o", "record", "--trace", "trace"],
            &format!("b{cause}"),
        );
        assert_eq!(fs::read_dir(&folder).unwrap().count(), 2);
    }
    let one = folder.join("a");
    fails(
        &["sum", "-t1", "missing", path(&one)],
        "",
        "missing: No such file or directory\n",
    );
    fails(
        &["sum", "-t1", path(&one), "missing"],
        "",
        "missing: No such file or directory\n",
    );
}

#[test]
fn command_lines() {
    let pulse = shipped("examples/pulse.csv");
    let pulse = path(&pulse);
    for (arguments, cause) in [
        (&["a", "b"][..], "--tolerance is missing"),
        (&["--tolerance2=1", "a", "b"], "--tolerance is missing"),
        (&["-mwalk", "a", "b"], "--method needs --tolerance"),
        (&["-tx", "a", "b"], "--tolerance: `` is not a number"),
        (
            &["-t1", "--tolerance2", "0.1", "a", "b"],
            "--tolerance2: `0.1` is not a multiple of 1/64; write the ratio 1/10",
        ),
        (
            &["-t1", "--tolerance2=65536", "a", "b"],
            "--tolerance2: the tolerance is not allowed: counts are from 0 to 65,535",
        ),
        (&["-t1", "-mbest", "a", "b"], "--method: `best` is not walk"),
        (&["-t1"], "two traces are wanted"),
        (&["-t1", pulse], "two traces are wanted"),
        (&["-t1", pulse, pulse, pulse], "two traces are wanted"),
        (&["-t1", "-", "-"], "standard input is wanted twice"),
        (
            &["-t1", "-o-", "a", "b"],
            "--output: a file is wanted: standard output has the answer",
        ),
        (
            &["-t1", "--trace=-", "a", "b"],
            "--trace: a file is wanted: standard output has the answer",
        ),
        (&["-t1", "-o", "", "a", "b"], "--output: the name is empty"),
        (&["-t1", "--trace=", "a", "b"], "--trace: the name is empty"),
        (
            &["-t1", "-o", "x", "--trace", "x", "a", "b"],
            "--output and --trace name the same file",
        ),
    ] {
        let arguments = [&["sum"], arguments].concat();
        fails(&arguments, WAVE, cause);
        let (_, _, error) = told(&run(&arguments, WAVE));
        assert!(error.ends_with("\nTry `kovrelna sum --help`.\n"), "{error}");
    }
}

/// The record and the trace are two files, whatever they are called.
#[test]
fn the_same_file() {
    let folder = files(
        "sum_the_same_file",
        &[("a", WAVE), ("b", WAVE), ("x", "before")],
    );
    std::os::unix::fs::symlink("x", folder.join("link")).unwrap();
    std::os::unix::fs::symlink("new", folder.join("next")).unwrap();
    fs::create_dir(folder.join("in")).unwrap();
    let whole = folder.join("x");
    for [record, trace] in [
        ["x", "./x"],
        ["in/../x", "x"],
        ["x", path(&whole)],
        ["link", "x"],
        ["next", "new"],
        ["/dev/null", "/dev/null"],
    ] {
        let options = ["-t1", "-o", record, "--trace", trace];
        let message = "--output and --trace name the same file\nTry";
        fails_in(&folder, &options, message);
        assert_eq!(fs::read(&whole).unwrap(), b"before");
    }
    // The same name in another folder, and another name of the same file: only names are replaced.
    fs::hard_link(&whole, folder.join("hard")).unwrap();
    for trace in ["in/x", "hard"] {
        summed(&folder, &["-t1", "-o", "x", "--trace", trace]);
        let check = told(&run_in(&folder, &["check", "x", trace]));
        assert_eq!(check, (0, "yes\n".into(), "".into()), "{trace}");
    }
}

/// The trace is written before the record, and the answer comes last.
#[test]
fn failing_files() {
    let folder = files(
        "sum_failing_files",
        &[("a", WAVE), ("b", WAVE), ("out", "before")],
    );
    let missing = "missing/out: No such file or directory\n";
    fails_in(
        &folder,
        &["-t1", "-o", "out", "--trace", "missing/out"],
        missing,
    );
    let full = "/dev/full: No space left on device\n";
    fails_in(&folder, &["-t1", "-o", "out", "--trace", "/dev/full"], full);
    assert_eq!(fs::read(folder.join("out")).unwrap(), b"before");
    fails_in(
        &folder,
        &["-t1", "-o", "missing/out", "--trace", "trace"],
        missing,
    );
    fails_in(&folder, &["-t1", "-o", "/dev/full"], full);
    let trace = fs::read_to_string(folder.join("trace")).unwrap();
    assert_eq!(trace, even(&[0, 4, 0, -4, 0]));
    assert_eq!(fs::read_dir(&folder).unwrap().count(), 4);
    let mut tool = Command::new(TOOL);
    tool.current_dir(&folder)
        .args(["sum", "-t1", "-o", "out", "a", "b"]);
    tool.stdout(File::options().write(true).open("/dev/full").unwrap());
    let (status, _, error) = told(&tool.output().unwrap());
    let expected = "kovrelna: <stdout>: No space left on device\n";
    assert_eq!((status, &error[..]), (2, expected));
    assert!(shown(&folder, "out").starts_with("# tolerance 4/1\n"));
}

/// The message of a refusal of traces `a` and `b`, whose samples are in lines counted from 1.
fn message([a, b]: [&Trace; 2], (number, sample): (u32, u64)) -> String {
    let k = sample as usize;
    let line = k + 1;
    match (number, a.ticks.get(k), b.ticks.get(k)) {
        (17, Some(tick), Some(other)) => {
            let ticks = format!("sample {k} is at tick {tick}, and at tick {other} in b:{line}");
            format!("a:{line}: the ticks differ: {ticks}")
        }
        (17, Some(tick), None) => {
            format!("b: there is no sample {k}, which a:{line} has at tick {tick}")
        }
        (17, None, Some(tick)) => {
            format!("a: there is no sample {k}, which b:{line} has at tick {tick}")
        }
        (18, Some(tick), _) => {
            let (value, other) = (a.values[k], b.values[k]);
            let sum = i32::from(value) + i32::from(other);
            format!(
                "a:{line}: sample {k} at tick {tick} has value {value}, and b:{line} has {other}: \
                 their sum {sum} is not from -32768 to 32767"
            )
        }
        refusal => panic!("{refusal:?}"),
    }
}

/// Sums of any sort, and traces that have none.
#[test]
fn as_the_reference() {
    let folder = folder("sum_as_the_reference");
    let random = &mut Random::new(23);
    // Errors up to T1 + T2, and above; ticks that differ, a sample fewer, sums beyond the range.
    let (mut errors, mut refused) = ([0; 2], [0; 3]);
    for samples in (1..=40).flat_map(|samples| [samples; 8]) {
        let mut pair = summands(samples, random);
        let any = [(0, 1), (1, 2), (7, 3), (500, 1), (8_000, 1)];
        let mut ratios = [random.choose(&any), random.choose(&any)];
        let one = random.below(2) as usize;
        match random.below(8) {
            0 => overflow(&mut pair, random),
            1 => {
                let ticks = &mut pair[one].trace.ticks;
                let (from, last) = (random.below(samples as u64) as usize, ticks[samples - 1]);
                if last < u32::MAX && last - ticks[0] < SPAN {
                    ticks[from..].iter_mut().for_each(|tick| *tick += 1);
                }
            }
            2 if samples > 1 => {
                pair[one].trace.ticks.pop();
                pair[one].trace.values.pop();
            }
            // Samples on both sides of the line between the ends, beside a list of other samples.
            3..=5 => {
                let (beside, level) = (random.choose(&[1, 500]), random.within(1, 5) as usize);
                let [first, second] = &mut pair;
                for k in 0..samples {
                    let is_end = k == 0 || k == samples - 1;
                    let side = random.choose(&[beside, -beside]);
                    first.trace.values[k] = if is_end { 0 } else { side };
                    second.trace.values[k] = random.choose(&[0, 9]) * (k / level % 2) as i16;
                }
                ratios = [(beside as u64, 1), (0, 1)];
            }
            _ => (),
        }
        let (place, method) = random.choose(&[(0, "walk"), (1, "gallop"), (2, "minimum")]);
        let gap = random.choose(&[None, Some(1), Some(4), Some(100)]);
        for (summand, (p, q)) in pair.iter_mut().zip(ratios) {
            let Trace { ticks, values } = &summand.trace;
            let limits = Limits {
                tolerance: Form::Ratio(p, q),
                gap,
            };
            let reduced = reduce(METHODS[place], ticks, values, limits, ticks.len());
            summand.list = reduced.unwrap().list;
        }
        let [first, second] = &pair;
        fs::write(folder.join("a"), written(&first.trace)).unwrap();
        fs::write(folder.join("b"), written(&second.trace)).unwrap();
        let [t1, t2] = ratios.map(|(p, q)| format!("{p}/{q}"));
        let mut options = vec!["-t", &t1, "--tolerance2", &t2, "-m", method];
        let written_gap = gap.map(|gap| format!("--gap={gap}"));
        options.extend(written_gap.as_deref());
        options.extend(["-o", "record", "--trace", "trace"]);
        let Sum { values, list } = match sum(first, second, (samples, samples)) {
            Ok(sum) => sum,
            Err((number, sample)) => {
                let traces = [&first.trace, &second.trace];
                let message = message(traces, (number, sample));
                fails_in(&folder, &options, &format!("{message}\n"));
                let [a, b] = traces.map(|trace| trace.ticks.len());
                refused[usize::from(a != b) + 2 * usize::from(number == 18)] += 1;
                continue;
            }
        };
        let ticks = &first.trace.ticks;
        let fraction = |(p, q)| held(Form::Ratio(p, q)).unwrap();
        let bound = bound(fraction(ratios[0]), fraction(ratios[1])).lowest();
        let error = list_error(ticks, &values, &list);
        assert!(error.at_most(bound) && list_obeys(ticks, &list, gap));
        errors[usize::from(!error.at_most(bound.half()))] += 1;
        let printed = |fraction: Fraction| format!("{}/{}", fraction.p, fraction.q);
        let kept = [list.len(), first.list.len(), second.list.len()];
        let expected = lines(samples, kept, &printed(bound), &printed(error));
        assert_eq!(summed(&folder, &options), expected, "{options:?}");
        let record = decode(&fs::read(folder.join("record")).unwrap()).unwrap();
        assert_eq!(record.tolerance, bound.into());
        let sample = |&k: &u16| (ticks[usize::from(k)], values[usize::from(k)]);
        assert_eq!(record.samples, list.iter().map(sample).collect::<Vec<_>>());
        let ticks = ticks.clone();
        let trace = fs::read_to_string(folder.join("trace")).unwrap();
        assert_eq!(trace, written(&Trace { ticks, values }));
    }
    let seen = errors.iter().chain(&refused);
    assert!(seen.min() > Some(&9), "{errors:?} {refused:?}");
}
