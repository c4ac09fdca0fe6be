//! Gap limits.

use super::draw::points;
use super::{done, fails, files, folder, path, run, run_in, shipped, told, WAVE};
use std::fs;

/// Between ticks 2 and 10 is a hole under the gap limit 7, and none under 8.
const HOLE: &str = "0,0\n1,0\n2,0\n10,0\n11,0\n12,0\n";

/// The commands with a gap limit, each with what else it needs to be asked about standard input.
const LIMITED: [&[&str]; 10] = [
    &["record", "-t0"],
    &["judge", "-t0", "-l0,5"],
    &["check", "missing", "-"],
    &["least", "-a2"],
    &["near", "-t0"],
    &["probes", "-t0"],
    &["scan", "-t0"],
    &["sum", "-t0", "-", "missing"],
    &["report", "-t0"],
    &["draw", "-t0"],
];

/// What the tool prints.
fn printed(arguments: &[&str], input: &str) -> String {
    String::from_utf8(done(arguments, input)).unwrap()
}

#[test]
fn records() {
    for method in ["walk", "gallop", "minimum"] {
        for (gap, kept) in [
            ("7", "0,0\n2,0\n10,0\n12,0\n"),
            ("8", "0,0\n12,0\n"),
            ("1048575", "0,0\n12,0\n"),
            ("1", "0,0\n2,0\n10,0\n12,0\n"),
        ] {
            let record = done(&["record", "-t0", "-m", method, "--gap", gap], HOLE);
            let text = format!("# tolerance 0/1\n{kept}");
            assert_eq!(done(&["show"], &record), text.as_bytes(), "{method} {gap}");
            // No gap limit is in the record.
            assert_eq!(done(&["record"], text), record);
        }
    }
}

#[test]
fn judges() {
    let judge = |gap: &str, list: &str| {
        let arguments = ["judge", "-t0", "--gap", gap, "--list", list];
        let (status, printed, error) = told(&run(&arguments, HOLE));
        assert_eq!(error, "");
        (status, printed)
    };
    let yes = (0, "yes\n".to_string());
    let no = |link| {
        let cause = "it crosses the hole from tick 2 to tick 10, and its error is 0/1";
        (1, format!("no at link {link}: {cause}\n"))
    };
    assert_eq!(judge("7", "0,2,3,5"), yes);
    assert_eq!(judge("7", "0,1,2,3,4,5"), yes);
    for (list, link) in [
        ("0,5", "0, from sample 0 to 5"),
        ("0,2,5", "1, from sample 2 to 5"),
        ("0,1,3,5", "1, from sample 1 to 3"),
        ("0,1,2,4,5", "2, from sample 2 to 4"),
    ] {
        assert_eq!(judge("7", list), no(link), "{list}");
        assert_eq!(judge("8", list), yes, "{list}");
    }
    // The first of two holes.
    let answer = run(&["judge", "-t0", "--gap=4", "-l0,2"], "0,0\n5,0\n10,0\n");
    let hole = "it crosses the hole from tick 0 to tick 5, and its error is 0/1";
    let expected = format!("no at link 0, from sample 0 to 2: {hole}\n");
    assert_eq!(String::from_utf8(answer.stdout).unwrap(), expected);
}

/// A hole is named only if every sample is within the tolerance.
#[test]
fn other_causes() {
    let trace = HOLE.replace("11,0", "11,-4");
    let far = "sample 4 at tick 11 lies 4/1 below the line";
    let hole = "it crosses the hole from tick 2 to tick 10, and its error is 4/1";
    for (arguments, link, cause) in [
        (
            &["-t3", "-l0,2,3,5", "--gap=7"][..],
            "2, from sample 3 to 5",
            far,
        ),
        (&["-t3", "-l0,5", "--gap=8"], "0, from sample 0 to 5", far),
        (&["-t3", "-l0,5"], "0, from sample 0 to 5", far),
        (&["-t3", "-l0,5", "--gap=7"], "0, from sample 0 to 5", far),
        (&["-t4", "-l0,5", "--gap=7"], "0, from sample 0 to 5", hole),
    ] {
        let arguments = [&["judge"], arguments].concat();
        let expected = (1, format!("no at link {link}: {cause}\n"), String::new());
        assert_eq!(told(&run(&arguments, &trace)), expected, "{arguments:?}");
    }
}

#[test]
fn checks() {
    let folder = files("gap_checks", &[("trace", HOLE)]);
    let check = |arguments: &[&str]| {
        let arguments = [&["check"], arguments, &["record", "trace"]].concat();
        let (status, printed, error) = told(&run_in(&folder, &arguments));
        assert_eq!(error, "");
        (status, printed)
    };
    let yes = (0, "yes\n".to_string());
    let record = |gap| {
        let arguments = ["record", "-t0", "--gap", gap, "-o", "record", "trace"];
        assert_eq!(told(&run_in(&folder, &arguments)).0, 0);
    };
    record("8");
    assert_eq!(check(&[]), yes);
    assert_eq!(check(&["--gap=8"]), yes);
    let link = "no: record: link 0, from sample 0 at tick 0 to sample 5 at tick 12 of trace";
    let cause = "crosses the hole from tick 2 to tick 10, and its error is 0/1";
    assert_eq!(check(&["--gap=7"]), (1, format!("{link}, {cause}\n")));
    // A value that the record is too far from comes with the tolerance.
    fs::write(folder.join("trace"), HOLE.replace("1,0", "1,1")).unwrap();
    let cause = "is not within 0/1: sample 1 at tick 1 lies 1/1 above the line";
    for gap in ["7", "8"] {
        let answer = check(&["--gap", gap]);
        assert_eq!(answer, (1, format!("{link}, {cause}\n")), "{gap}");
    }
    fs::write(folder.join("trace"), HOLE).unwrap();
    record("7");
    assert_eq!(check(&["--gap=7"]), yes);
    assert_eq!(check(&["--gap", "1"]), yes);
}

#[test]
fn least_errors() {
    let least = |options: &[&str]| printed(&[&["least"], options].concat(), HOLE);
    assert_eq!(least(&["-a4", "--gap=7"]), "error 0/1\nlist 0,2,3,5\n");
    assert_eq!(least(&["-a2", "--gap=8"]), "error 0/1\nlist 0,5\n");
    let cause = "every list that obeys the gap limit has more samples than the allowance";
    // Values at both ends of their range, and holes that share a sample.
    for (trace, gap, shortest) in [
        (HOLE, "7", 4),
        (
            "0,32767\n1,-32768\n2,32767\n10,32767\n11,-32768\n12,32767\n",
            "7",
            4,
        ),
        ("0,0\n9,0\n18,0\n19,0\n20,0\n", "8", 4),
        ("0,0\n1,0\n2,0\n11,0\n", "8", 3),
    ] {
        let allowance = (shortest - 1).to_string();
        let arguments = ["least", "--gap", gap, "-a", &allowance];
        let message = format!("<stdin>: {cause}: the shortest has {shortest}\n");
        fails(&arguments, trace, &message);
        let arguments = ["least", "--gap", gap, "-a", &shortest.to_string()];
        done(&arguments, trace);
    }
    // One sample has no holes.
    assert_eq!(
        printed(&["least", "-a2", "--gap=1"], "7,9\n"),
        "error 0/1\nlist 0\n"
    );
    // The gap limit is looked at before the allowance.
    fails(&["least", "-a1", "--gap=0"], HOLE, "--gap: the gap limit");
    fails(
        &["least", "-a1", "--gap=1"],
        HOLE,
        "--allowance: the allowance",
    );
}

#[test]
fn tables() {
    for (gap, near, probes) in [
        (
            "7",
            "      6       4       4       4       4",
            "      6       3       7",
        ),
        (
            "8",
            "      6       2       2       2       2",
            "      6       1       5",
        ),
    ] {
        let expected = format!(
            "\
# samples kept at 3/1, gap limit {gap}; half: by minimum at 3/2
samples    walk  gallop minimum    half  file
{near}  <stdin>
"
        );
        assert_eq!(printed(&["near", "-t3", "--gap", gap], HOLE), expected);
        let expected = format!(
            "# gallop at 3/1, gap limit {gap}\nsamples   stops  probes  file\n{probes}  <stdin>\n"
        );
        assert_eq!(printed(&["probes", "-t3", "--gap", gap], HOLE), expected);
    }
}

#[test]
fn reports() {
    let folder = files(
        "gap_reports",
        &[("hole", HOLE), ("wave", WAVE), ("none", "")],
    );
    let report = |options: &[&str]| {
        let names = ["hole", "wave", "none"];
        let arguments = [&["report", "-t2"], options, &names].concat();
        let (status, printed, error) = told(&run_in(&folder, &arguments));
        assert_eq!((status, &error[..]), (0, ""));
        printed
    };
    let sheet = "\
# kept by walk at 2/1, gap limit 7
channel  samples  kept  error  worst at  refusal  file
      0        6     4    0/1         -        0  hole
      1        5     3    2/1         1        0  wave
      2        0     0    0/1         -        1  none: no samples
  total       11     7    2/1         -        -  1 of 3 refused
";
    assert_eq!(report(&["--gap", "7"]), sheet);
    let sheet = "\
channel,samples,kept,error p,error q,sample,tolerance p,tolerance q,refusal,file,cause,gap limit
0,6,4,0,1,0,2,1,0,\"hole\",\"\",7
1,5,3,2,1,1,2,1,0,\"wave\",\"\",7
2,0,0,0,1,0,2,1,1,\"none\",\"none: no samples\",7
total,11,7,2,1,,2,1,,\"\",\"1 of 3 refused\",7
";
    assert_eq!(report(&["--csv", "--gap", "7"]), sheet);
    let without = report(&[]);
    let (heading, rows) = without.split_once('\n').unwrap();
    let expected = format!("{heading}, gap limit 8\n{rows}");
    assert_eq!(report(&["--gap", "8"]), expected);
    assert!(rows.contains("\n      0        6     2 "), "{rows}");
}

/// What goes from sample to sample in a picture.
const CURVES: [&str; 3] = ["band", "trace", "line"];

/// How many points each curve has, by its class.
fn lengths(svg: &str) -> [Vec<usize>; 3] {
    CURVES.map(|class| points(svg, class).iter().map(Vec::len).collect())
}

/// How many curves of each class go across the hole, which is after sample 2.
fn crossing(svg: &str) -> [usize; 3] {
    let samples = &points(svg, "sample")[0];
    let (before, after) = (samples[2].0, samples[3].0);
    let crosses = |curve: &&Vec<(f64, f64)>| {
        curve.iter().any(|&(x, _)| x <= before) && curve.iter().any(|&(x, _)| x >= after)
    };
    CURVES.map(|class| points(svg, class).iter().filter(crosses).count())
}

#[test]
fn draws() {
    let drawn = |options: &[&str]| printed(&[&["draw", "-t2"], options].concat(), HOLE);
    let svg = drawn(&["--gap", "7"]);
    let title = "<title>6 samples, 4 kept by walk, tolerance 2, gap limit 7</title>";
    assert!(svg.contains(title), "{svg}");
    // Two parts in each of two panels, and the line that is kept.
    assert_eq!(lengths(&svg), [vec![4; 4], vec![3; 4], vec![4, 2, 2]]);
    assert_eq!(crossing(&svg), [0, 0, 1]);
    let dots = ["sample", "kept"].map(|class| points(&svg, class)[0].len());
    assert_eq!(dots, [6, 4]);
    let svg = drawn(&["--gap", "8"]);
    assert_eq!(lengths(&svg), [vec![4; 2], vec![6; 2], vec![2; 2]]);
    assert_eq!(crossing(&svg), [2; 3]);
    assert!(svg.replace(", gap limit 8", "") == drawn(&[]));
}

/// Parts of a trace with a hole, and samples alone.
#[test]
fn draws_parts() {
    let drawn = |options: &[&str]| printed(&[&["draw", "-t2", "--gap=7"], options].concat(), HOLE);
    let svg = drawn(&["--from=1", "--to=10"]);
    assert!(
        svg.contains("tolerance 2, gap limit 7, ticks 1 to 10</title>"),
        "{svg}"
    );
    // Of the sample at tick 10 the band is a thin stroke.
    assert_eq!(lengths(&svg), [vec![4, 2, 4, 2], vec![2, 2], vec![3, 2, 1]]);
    assert_eq!(svg.matches("stroke-width=\"3\"").count(), 2);
    // From within the hole on, and all within it: the kept line alone.
    let svg = drawn(&["--from=5"]);
    assert_eq!(lengths(&svg), [vec![4, 4], vec![3, 3], vec![3, 2]]);
    let svg = drawn(&["--from=5", "--to=8"]);
    assert_eq!(lengths(&svg), [vec![], vec![], vec![2]]);
    assert!(points(&svg, "sample").is_empty() && points(&svg, "kept").is_empty());
    // Up to so many samples are joined in all parts together.
    for (samples, joined) in [(600, vec![300; 4]), (601, vec![])] {
        let tick = |k| if k < 300 { k } else { k + 7 };
        let trace: String = (0..samples).map(|k| format!("{},0\n", tick(k))).collect();
        let svg = printed(&["draw", "-t2", "--gap=7"], &trace);
        assert_eq!(lengths(&svg)[1], joined);
    }
    // Nothing but holes: no samples are joined, and all are kept.
    let svg = printed(&["draw", "-t2", "--gap=4"], "0,0\n5,3\n10,0\n");
    assert_eq!(lengths(&svg), [vec![2; 6], vec![], vec![3, 1, 1, 1]]);
}

/// The holes of a record's trace are not known.
#[test]
fn draws_no_record() {
    let record = shipped("examples/wave.record");
    let cause =
        "a record, with its own tolerance: --tolerance, --gap and --method do not apply\nTry";
    let message = format!("{}: {cause}", path(&record));
    fails(&["draw", "--gap", "7", path(&record)], "", &message);
    fails(&["draw", "-t2", path(&record)], "", &message);
    let shown = printed(&["show", path(&record)], "");
    for command in ["draw", "record"] {
        fails(
            &[command, "--gap=7"],
            &shown,
            "--gap needs --tolerance\nTry",
        );
        let cause = "<stdin>:1: samples are reduced already at 2/1";
        fails(&[command, "--gap=7", "-t2"], &shown, cause);
    }
}

#[test]
fn refusals() {
    for command in LIMITED {
        for (gap, cause) in [
            ("0", "is below 1 or above 1,048,575\nTry"),
            ("1048576", "is below 1 or above 1,048,575\nTry"),
            ("4294967295", "is below 1 or above 1,048,575\nTry"),
            ("4294967296", "`4294967296` is not from 1 to 1048575\nTry"),
            ("1e99", "`1e99` is not from 1 to 1048575\nTry"),
            ("-1", "`-1` is not from 1 to 1048575\nTry"),
            ("7.5", "`7.5` is no whole number\nTry"),
            ("seven", "`seven` is not a number\nTry"),
            ("", "`` is not a number\nTry"),
        ] {
            let arguments = [command, &["--gap", gap]].concat();
            fails(&arguments, HOLE, &format!("--gap: the gap limit {cause}"));
        }
        let arguments = [command, &["--gap"]].concat();
        fails(&arguments, HOLE, "--gap: a value is missing");
        let arguments = [command, &["--gap=7", "--gap=7"]].concat();
        fails(&arguments, HOLE, "--gap=7: the option is given twice");
        let help = printed(&[command[0], "--help"], "");
        assert!(
            help.contains("      --gap G ") && help.contains("[--gap G]"),
            "{help}"
        );
    }
    for command in ["judge", "near", "probes", "sum", "report"] {
        fails(&[command, "--gap=7"], HOLE, "--gap needs --tolerance\nTry");
    }
    for command in ["show", "measure", "summary", "pedestals"] {
        fails(
            &[command, "--gap=7"],
            "",
            "--gap=7: there is no such option\nTry",
        );
        assert!(
            !printed(&[command, "--help"], "").contains("gap"),
            "{command}"
        );
    }
}

/// The greatest gap limit is none, and so is a long one for a trace without such steps.
#[test]
fn no_limit() {
    let folder = folder("gap_no_limit");
    let (pulse, file) = (shipped("examples/pulse.csv"), folder.join("record"));
    let (pulse, file) = (path(&pulse), path(&file));
    done(&["record", "-t8", "-mminimum", "-o", file, pulse], "");
    for arguments in [
        &["record", "-t8", pulse][..],
        &["record", "-t8", "-mgallop", pulse],
        &["judge", "-t8", "-l0,127", pulse],
        &["check", file, pulse],
        &["near", "-t8", pulse],
        &["probes", "-t8", pulse],
        &["least", "-a12", pulse],
        &["scan", "-t8", "-t2", pulse],
        &["scan", "-t8", "-t2", "--draw", pulse],
        &["sum", "-t8", pulse, pulse],
        &["report", "-t8", pulse],
        &["draw", "-t8", pulse],
    ] {
        let without = run(arguments, "");
        for gap in ["1048575", "4"] {
            let with = run(&[arguments, &["--gap", gap]].concat(), "");
            assert_eq!(with.status, without.status, "{arguments:?}");
            let named = format!(", gap limit {gap}").into_bytes();
            let mut printed = with.stdout;
            while let Some(at) = printed.windows(named.len()).position(|part| part == named) {
                printed.drain(at..at + named.len());
            }
            assert!(printed == without.stdout, "{arguments:?} {gap}");
        }
    }
}
