//! Tolerances with a part above the line and a part below it, in place of one for both.

use super::budget::EIGHT;
use super::counts::row;
use super::draw::{drawn, points};
use super::measure::{lies, word};
use super::scan::fields;
use super::sum::{even, lines, shown, summed};
use super::{done, fails, files, folder, path, run, run_in, run_with, shipped, told, written};
use super::{TOOL, WAVE};
use kovrelna_reference::generate::{any_limited, any_list, exceptional, summands, Random, Trace};
use kovrelna_reference::record::{decode, encode, Content};
use kovrelna_reference::sums::{bound, sum, Sum};
use kovrelna_reference::{fewest, held, judge, list_error, reduce, worst_sample, METHODS};
use kovrelna_reference::{Form, Fraction, Invalid, Limits, Parts, Side};
use std::ffi::OsStr;
use std::fs;
use std::os::unix::ffi::OsStrExt;
use std::process::Command;

/// The commands that take two parts, each with what else it needs to be asked about standard input.
const PARTED: [&[&str]; 8] = [
    &["record"],
    &["judge", "-l0,4"],
    &["near"],
    &["probes"],
    &["scan"],
    &["sum", "-", "missing"],
    &["report"],
    &["draw"],
];

/// Sample 2 lies 4/3 above the line from end to end, and sample 1 lies 1/3 below it.
const STRAY: &str = "0,1\n1,0\n2,1\n3,-1\n";

/// These parts as a form of the reference.
pub fn form(Parts { above, below }: Parts) -> Form {
    let ratio = |Fraction { p, q }: Fraction| (p as u64, q as u64);
    Form::Parts(ratio(above), ratio(below))
}

/// What the tool prints.
fn printed(arguments: &[&str], input: impl AsRef<[u8]>) -> String {
    String::from_utf8(done(arguments, input)).unwrap()
}

/// The options of two parts.
fn options<'a>(above: &'a str, below: &'a str) -> [&'a str; 4] {
    ["--above", above, "--below", below]
}

/// The command with them.
fn at<'a>(command: &[&'a str], above: &'a str, below: &'a str) -> Vec<&'a str> {
    [command, &options(above, below)].concat()
}

/// The fraction as it is printed.
fn ratio(Fraction { p, q }: Fraction) -> String {
    format!("{p}/{q}")
}

#[test]
fn records() {
    let record = done(&at(&["record"], "4/6", "1"), "0,0\n1,1\n3,1\n");
    let expected = [
        0x42, 0, 0, 0, 0, 2, 0, 0, 3, 0, 0, 0, 0, 1, 0, 0, 1, 0x41, 0, 0, 0, 0, 0, 0, 0x53, 3, 1,
        0x45, 0, 2,
    ];
    assert_eq!(record, expected);
    for method in ["walk", "gallop", "minimum"] {
        for (above, below, kept) in [
            ("2", "1", "# tolerance 2/1 1/1\n0,0\n2,0\n3,-2\n4,0\n"),
            ("1", "2", "# tolerance 1/1 2/1\n0,0\n1,2\n3,-2\n4,0\n"),
            ("0", "2", "# tolerance 0/1 2/1\n0,0\n1,2\n3,-2\n4,0\n"),
            ("65535", "0", "# tolerance 65535/1 0/1\n0,0\n3,-2\n4,0\n"),
        ] {
            let arguments = at(&["record", "-m", method], above, below);
            let record = done(&arguments, WAVE);
            assert_eq!(printed(&["show"], &record), kept, "{method}");
            assert_eq!(done(&["record"], kept), record, "{method}");
        }
    }
    // Each part in any form and in any place, and the part above comes first.
    for (arguments, tolerance) in [
        (&["--above", "3.25x4", "--below", "1.5"][..], "13/1 3/2"),
        (&["--below=10/4", "--above=8"], "8/1 5/2"),
        (
            &["--below", "2*0.5", "--gap", "7", "--above", "0"],
            "0/1 1/1",
        ),
        (
            &["--above=1/1048575", "--below=1/1048574"],
            "1/1048575 1/1048574",
        ),
    ] {
        let record = done(&[&["record"], arguments].concat(), WAVE);
        let shown = printed(&["show"], record);
        let first = format!("# tolerance {tolerance}\n");
        assert!(shown.starts_with(&first), "{shown}");
    }
}

/// The shipped pulse where a peak may be 2 too low and a trough 16 too high.
#[test]
fn example() {
    let file = folder("parts_example").join("pulse.record");
    let (file, pulse) = (path(&file), shipped("examples/pulse.csv"));
    let pulse = path(&pulse);
    let record = ["record", "--method", "minimum", "-o", file, pulse];
    assert_eq!(printed(&at(&record, "2", "16"), ""), "");
    let shown = printed(&["show", file], "");
    let first = "# tolerance 2/1 16/1\n184320,415\n184392,414\n";
    assert!(
        shown.starts_with(first) && shown.lines().count() == 17,
        "{shown}"
    );
    assert_eq!(printed(&["check", file, pulse], ""), "yes\n");
    let scan = at(&["scan", pulse, "-t2"], "2", "16");
    let expected = "\
# kept by walk of 128 samples
tolerance  kept  bytes
      2/1    65    211
 2/1 16/1    34    126
     16/1     8     40
";
    assert_eq!(printed(&[&scan[..], &["-t16"]].concat(), ""), expected);
}

/// Parts that are equal are one tolerance, however they are written: every command prints and writes the same
/// bytes.
#[test]
fn equal_parts() {
    let folder = folder("parts_equal");
    let (pulse, file) = (shipped("examples/pulse.csv"), folder.join("record"));
    let (pulse, file) = (path(&pulse), path(&file));
    let pair = [1, 2].map(|k| shipped(&format!("examples/photomultiplier-{k}.csv")));
    let [one, other] = pair.each_ref().map(|file| path(file));
    for (tolerance, above, below) in [
        ("8", "8", "16/2"),
        ("13/1", "3.25x4", "13"),
        ("0", "0", "0/7"),
    ] {
        for command in [
            &["record", pulse][..],
            &["record", "-mgallop", "--gap=4", pulse],
            &["record", "-b", "-o", file, pulse],
            &["judge", "-l0,127", pulse],
            &["near", pulse, one],
            &["probes", pulse, one],
            &["scan", pulse],
            &["scan", "--csv", pulse],
            &["scan", "--draw", pulse],
            &["sum", "-o", file, one, other],
            &["report", pulse, one],
            &["report", "--csv", pulse, one],
            &["draw", pulse],
        ] {
            let both = [command, &["-t", tolerance]].concat();
            let both = (run(&both, ""), fs::read(file).ok());
            let parts = at(command, above, below);
            let parts = (run(&parts, ""), fs::read(file).ok());
            assert!(both == parts, "{command:?} {:?}", told(&parts.0));
            assert!(parts.0.stderr.is_empty(), "{:?}", told(&parts.0));
        }
    }
    let sum = printed(&["sum", "-t8", "--tolerance2=3/2", one, other], "");
    let parts = ["--above=8", "--below=8", "--below2=1.5", "--above2=6/4"];
    assert_eq!(
        printed(&[&["sum"], &parts[..], &[one, other]].concat(), ""),
        sum
    );
}

/// The text of a record with two ratios, as `show` prints it and as it may be written.
#[test]
fn texts() {
    let samples = "0,0\n3,1\n";
    let recorded = |line: &str| done(&["record"], format!("{line}\n{samples}"));
    let parts = recorded("# tolerance 2/3 1/1");
    assert_eq!(parts[0], 0x42);
    assert_eq!(
        printed(&["show"], &parts),
        format!("# tolerance 2/3 1/1\n{samples}")
    );
    assert_eq!(recorded("#tolerance  4/6\t2/2 "), parts);
    assert!(recorded("# tolerance 1/1 2/3") != parts);
    // Two equal ratios are one.
    let one = recorded("# tolerance 2/3");
    assert_eq!(one[0], 0x54);
    assert_eq!(recorded("# tolerance 2/3 2/3"), one);
    assert_eq!(recorded("# tolerance 2/3 4/6"), one);
    for (line, cause) in [
        (
            "1/0 2/1",
            "the part above: the tolerance is not allowed: p/q has",
        ),
        (
            "2/1 65536/1",
            "the part below: the tolerance is not allowed: p/q has",
        ),
    ] {
        let text = format!("# c\n# tolerance {line}\n{samples}");
        fails(
            &["record"],
            &text,
            &format!("<stdin>:2: tolerance: {cause}"),
        );
        fails(&["draw"], &text, &format!("<stdin>:2: tolerance: {cause}"));
    }
    // What is kept already is not reduced again, and is no original trace.
    let text = format!("# tolerance 2/1 1/1\n{samples}");
    for arguments in [&["record", "-t8"][..], &["draw", "--above=8", "--below=1"]] {
        let cause = "<stdin>:1: samples are reduced already at 2/1 1/1: tolerances would add\n";
        fails(arguments, &text, cause);
    }
    for arguments in [
        &["judge", "-t8", "-l0,1"][..],
        &["near", "-t8"],
        &["measure", "0", "1"],
    ] {
        let (status, _, error) = told(&run(arguments, &text));
        let cause = "kovrelna: <stdin>:1: samples are reduced already at 2/1 1/1: the answer would";
        assert!(status == 2 && error.starts_with(cause), "{error}");
    }
    // Other lines are skipped.
    for line in [
        "# tolerance 2/1 1/1 3/1",
        "# tolerance 2/1, 1/1",
        "# tolerance 2/1 or 1/1",
    ] {
        let text = format!("{line}\n{samples}");
        fails(&["record"], &text, "<stdin>: --tolerance is missing");
    }
}

/// A record with parts where a trace is wanted, and where it is read.
#[test]
fn record_files() {
    let record = done(&at(&["record"], "2", "1"), WAVE);
    fails(
        &["record", "-t1"],
        &record,
        "<stdin>: a record, where a trace is wanted\n",
    );
    for length in 0..17 {
        let cause = "<stdin>: no record: it is faulty at byte 0\n";
        fails(&["show"], &record[..length], cause);
    }
    let cause = "<stdin>: the record is faulty at byte 17\n";
    fails(&["show"], &record[..20], cause);
    // No record has two parts that are equal.
    let mut equal = record.clone();
    equal.copy_within(1..9, 9);
    fails(
        &["show"],
        equal,
        "<stdin>: no record: it is faulty at byte 0\n",
    );
    // As many bytes as a record may have, and one more.
    let long: String = (0..4_096)
        .map(|k| format!("{k},{}\n", k % 2 * 999))
        .collect();
    let mut record = done(&["record"], format!("# tolerance 0/1 1/1\n{long}"));
    assert_eq!(record.len(), 24_597);
    assert_eq!(
        printed(&["show"], &record),
        format!("# tolerance 0/1 1/1\n{long}")
    );
    record.push(0);
    fails(
        &["show"],
        &record,
        "<stdin>: the record is faulty at byte 24597\n",
    );
}

/// The sample that is named may lie within its own part: then the line says that another does not.
#[test]
fn judges() {
    let turned = "0,-1\n1,0\n2,-1\n3,1\n";
    let level = "0,0\n1,1\n2,-1\n3,0\n";
    let above = "sample 2 at tick 2 lies 4/3 above the line";
    let below = "sample 2 at tick 2 lies 4/3 below the line";
    for (trace, parts, cause) in [
        (STRAY, ("4/3", "1/3"), String::new()),
        (STRAY, ("5", "1"), String::new()),
        (
            STRAY,
            ("5", "0"),
            format!("{above}, within 5/1; another lies more than 0/1 below it"),
        ),
        (
            STRAY,
            ("4/3", "33333/100000"),
            format!("{above}, within 4/3; another lies more than 33333/100000 below it"),
        ),
        (STRAY, ("133333/100000", "1/3"), above.to_string()),
        (STRAY, ("0", "5"), above.to_string()),
        (STRAY, ("0", "0"), above.to_string()),
        (turned, ("1/3", "4/3"), String::new()),
        (
            turned,
            ("0", "5"),
            format!("{below}, within 5/1; another lies more than 0/1 above it"),
        ),
        (turned, ("5", "0"), below.to_string()),
        // Two that are equally far off: the first is named.
        (
            level,
            ("1", "1/2"),
            "sample 1 at tick 1 lies 1/1 above the line, within 1/1; \
             another lies more than 1/2 below it"
                .to_string(),
        ),
        (
            level,
            ("1/2", "1"),
            "sample 1 at tick 1 lies 1/1 above the line".to_string(),
        ),
    ] {
        let arguments = at(&["judge", "--list=0,3"], parts.0, parts.1);
        let expected = match &cause[..] {
            "" => (0, "yes\n".to_string()),
            cause => (1, format!("no at link 0, from sample 0 to 3: {cause}\n")),
        };
        let (status, printed, error) = told(&run(&arguments, trace));
        assert_eq!(error, "");
        assert_eq!((status, printed), expected, "{parts:?}");
    }
    // A hole is named only if every sample is within its part.
    let trace = "0,0\n1,0\n2,0\n10,0\n11,-4\n12,0\n";
    let far = "sample 4 at tick 11 lies 4/1 below the line";
    let hole = "it crosses the hole from tick 2 to tick 10, and its error is 4/1";
    for (above, below, cause) in [
        ("0", "4", hole),
        ("9", "4", hole),
        ("4", "3", far),
        ("9", "0", far),
    ] {
        let arguments = at(&["judge", "-l0,5", "--gap=7"], above, below);
        let expected = format!("no at link 0, from sample 0 to 5: {cause}\n");
        assert_eq!(told(&run(&arguments, trace)), (1, expected, String::new()));
    }
    let help = printed(&["judge", "--help"], "");
    assert!(
        help.contains("lies p/q above the line, within U; another lies more\n  than D below it")
    );
    assert!(help.contains("may lie within its own part."), "{help}");
}

/// Against the record's own parts, each on its own side.
#[test]
fn checks() {
    let folder = files("parts_checks", &[("trace", STRAY)]);
    let check = |trace: &str| {
        fs::write(folder.join("trace"), trace).unwrap();
        let (status, printed, error) = told(&run_in(&folder, &["check", "record", "trace"]));
        assert_eq!(error, "");
        (status, printed)
    };
    let recorded = |line: &str| {
        let record = done(&["record"], format!("{line}\n0,1\n3,-1\n"));
        fs::write(folder.join("record"), record).unwrap();
    };
    let no = |tolerance: &str, cause: &str| {
        let link = "link 0, from sample 0 at tick 0 to sample 3 at tick 3 of trace";
        (
            1,
            format!("no: record: {link}, is not within {tolerance}: {cause}\n"),
        )
    };
    let yes = (0, "yes\n".to_string());
    recorded("# tolerance 4/3 1/3");
    assert_eq!(check(STRAY), yes);
    recorded("# tolerance 1/3 4/3");
    let cause = "sample 2 at tick 2 lies 4/3 above the line";
    assert_eq!(check(STRAY), no("1/3 4/3", cause));
    recorded("# tolerance 5/1 1/3");
    assert_eq!(check(STRAY), yes);
    // Sample 1 lies 4/3 below the line, and sample 2 above it, as far or farther.
    let cause = "sample 1 at tick 1 lies 4/3 below the line";
    assert_eq!(check("0,1\n1,-1\n2,1\n3,-1\n"), no("5/1 1/3", cause));
    let cause = "sample 2 at tick 2 lies 7/3 above the line, within 5/1; \
                 another lies more than 1/3 below it";
    assert_eq!(check("0,1\n1,-1\n2,2\n3,-1\n"), no("5/1 1/3", cause));
}

#[test]
fn same_records() {
    let folder = folder("parts_same");
    for (file, above, below) in [
        ("a", "2", "1"),
        ("b", "1", "2"),
        ("c", "2", "2"),
        ("d", "4/2", "3/3"),
    ] {
        let file = folder.join(file);
        let arguments = at(&["record", "-o", path(&file)], above, below);
        done(&arguments, "0,0\n1,0\n2,0\n");
    }
    let answer = |one: &str, other: &str| {
        let (status, printed, error) = told(&run_in(&folder, &["same", one, other]));
        assert_eq!(error, "");
        (status, printed)
    };
    assert_eq!(answer("a", "d"), (0, "yes\n".to_string()));
    for (one, other, tolerances) in [
        ("a", "b", "2/1 1/1 in a, and 1/1 2/1 in b"),
        ("a", "c", "2/1 1/1 in a, and 2/1 in c"),
        ("c", "b", "2/1 in c, and 1/1 2/1 in b"),
    ] {
        let no = format!("no: the tolerances differ\nthe tolerance is {tolerances}\n");
        assert_eq!(answer(one, other), (1, no));
    }
}

/// The bound is minimum's number at half of the smaller part.
#[test]
fn tables() {
    for (trace, above, below, parts, half, counts) in [
        (
            WAVE,
            "2",
            "1",
            "2/1 1/1",
            "1/2",
            "      5       4       4       4       4",
        ),
        // More than within half of each part, and than within the smaller part each: 2 samples.
        (
            "0,1\n1,1\n2,0\n3,1\n",
            "0",
            "3",
            "0/1 3/1",
            "0/1",
            "      4       3       3       2       4",
        ),
        (
            "0,0\n1,2\n2,1\n3,3\n",
            "1",
            "3",
            "1/1 3/1",
            "1/2",
            "      4       3       3       2       4",
        ),
        // The larger part has no half that is allowed.
        (
            WAVE,
            "524289/524288",
            "1",
            "524289/524288 1/1",
            "1/2",
            "      5       4       4       4       4",
        ),
    ] {
        let heading = format!(
            "# samples kept at {parts}; half: by minimum at {half}, half of the smaller part\n\
             samples    walk  gallop minimum    half  file\n"
        );
        let near = at(&["near"], above, below);
        assert_eq!(
            printed(&near, trace),
            format!("{heading}{counts}  <stdin>\n")
        );
    }
    let near = at(&["near"], "2", "524289/524288");
    let heading = "# samples kept at 2/1 524289/524288; half: by minimum at 524289/1048576, \
                   half of the smaller part\n";
    let note = "  <stdin>\n# 524289/1048576 is no tolerance: its denominator is above 1,048,575\n";
    let table = printed(&near, WAVE);
    assert!(
        table.starts_with(heading) && table.ends_with(note),
        "{table}"
    );
    assert_eq!(row(table.lines().nth(2).unwrap()).0, [5, 4, 4, 4, -1]);
    let probes = at(&["probes", "--gap=9"], "2", "1");
    let expected = "# gallop at 2/1 1/1, gap limit 9\nsamples   stops  probes  file\n      5       3       5  <stdin>\n";
    assert_eq!(printed(&probes, WAVE), expected);
}

/// A pair of options is one tolerance of a scan.
#[test]
fn scans() {
    let pairs = [
        "--above=2",
        "--below=1",
        "-t2",
        "--below",
        "2",
        "--above",
        "1",
        "--above=4/2",
        "--below=2",
    ];
    let expected = "\
# kept by walk of 5 samples
tolerance  kept  bytes
  2/1 1/1     4     36
      2/1     3     25
  1/1 2/1     4     36
      2/1     3     25
";
    assert_eq!(printed(&[&["scan"], &pairs[..]].concat(), WAVE), expected);
    // Other options and the input may stand between.
    let folder = files("parts_scans", &[("wave", WAVE)]);
    let mixed = ["scan", "--above=2", "--gap=9", "wave", "--below=1", "-t2"];
    let expected = "\
# kept by walk of 5 samples, gap limit 9
tolerance  kept  bytes
  2/1 1/1     4     36
      2/1     3     25
";
    assert_eq!(
        told(&run_in(&folder, &mixed)),
        (0, expected.into(), "".into())
    );
    // In CSV the part below has the last columns, and the others their places.
    let csv = "\
above p,above q,samples,kept,bytes,bound,file,below p,below q
2,1,5,4,36,4,\"<stdin>\",1,1
2,1,5,3,25,4,\"<stdin>\",2,1
1,1,5,4,36,4,\"<stdin>\",2,1
2,1,5,3,25,4,\"<stdin>\",2,1
";
    assert_eq!(
        printed(&[&["scan", "--csv"], &pairs[..]].concat(), WAVE),
        csv
    );
    let csv = "\
above p,above q,samples,kept,bytes,bound,file,gap limit,below p,below q
0,1,5,4,36,4,\"<stdin>\",9,2,3
";
    let arguments = at(&["scan", "--csv", "--gap=9"], "0", "4/6");
    assert_eq!(printed(&arguments, WAVE), csv);
    // No bound, as half of the smaller part is none.
    let arguments = at(&["scan", "--csv"], "524289/524288", "3");
    assert_eq!(fields(&printed(&arguments, WAVE))[0][5], "");
    // As many pairs as tolerances.
    let sixteen = options("2", "1").repeat(16);
    let table = printed(&[&["scan"], &sixteen[..]].concat(), WAVE);
    assert_eq!(table.lines().count(), 18);
    let more = [&["scan", "-t1"], &sixteen[..]].concat();
    fails(
        &more,
        WAVE,
        "--tolerance: no tolerances, or more than 16: 17 are given\nTry",
    );
}

#[test]
fn refused_scans() {
    for (arguments, cause) in [
        (
            &["--above=2"][..],
            "--above 2, at position 0: --below must follow it",
        ),
        (
            &["--below=2"],
            "--below 2, at position 0: --above must follow it",
        ),
        (
            &["-t1", "--above=2", "-t3", "--below=1"],
            "--above 2, at position 1: --below must follow it",
        ),
        (
            &["--above=2", "--above=3", "--below=1", "--below=1"],
            "--above 2, at position 0: --below must follow it",
        ),
        (
            &["--above=2", "--below=1", "--below=3"],
            "--below 3, at position 1: --above must follow it",
        ),
        (
            &["-t1", "--above=1/0", "--below=1"],
            "--above 1/0, at position 1: the tolerance is not allowed: p/q has",
        ),
        (
            &["-t1", "--below=1", "--above=1/0", "-tx"],
            "--above 1/0, at position 1: the tolerance is not allowed: p/q has",
        ),
        (
            &["--above=2", "--below=65536", "--above=2"],
            "--below 65536, at position 0: the tolerance is not allowed: counts are",
        ),
        (
            &["--above=two", "-t1"],
            "--above two, at position 0: `two` is not a number",
        ),
        // A place on the axis is one number.
        (
            &["--draw", "-t1", "--above=2", "--below=1", "missing"],
            "--draw: 2/1 1/1, at position 1, has two parts, and the axis one number \
             for a tolerance",
        ),
    ] {
        let arguments = [&["scan"], arguments].concat();
        fails(&arguments, WAVE, cause);
        let (_, _, error) = told(&run(&arguments, WAVE));
        assert!(
            error.ends_with("\nTry `kovrelna scan --help`.\n"),
            "{error}"
        );
    }
}

#[test]
fn reports() {
    let folder = files("parts_reports", &[("wave", WAVE), ("none", "")]);
    let report = |options: &[&str]| {
        let arguments = [
            &["report", "--above=2", "--below=1"],
            options,
            &["wave", "none"],
        ]
        .concat();
        let (status, printed, error) = told(&run_in(&folder, &arguments));
        assert_eq!((status, &error[..]), (0, ""));
        printed
    };
    let sheet = "\
# kept by walk at 2/1 1/1, gap limit 7
channel  samples  kept  error  worst at  refusal  file
      0        5     4    2/1         1        0  wave
      1        0     0    0/1         -        1  none: no samples
  total        5     4    2/1         -        -  1 of 2 refused
";
    assert_eq!(report(&["--gap=7"]), sheet);
    assert_eq!(report(&[]), sheet.replace(", gap limit 7", ""));
    let sheet = "\
channel,samples,kept,error p,error q,sample,above p,above q,refusal,file,cause,below p,below q
0,5,4,2,1,1,2,1,0,\"wave\",\"\",1,1
1,0,0,0,1,0,2,1,1,\"none\",\"none: no samples\",1,1
total,5,4,2,1,,2,1,,\"\",\"1 of 2 refused\",1,1
";
    assert_eq!(report(&["--csv"]), sheet);
    let heading =
        "refusal,file,cause,gap limit,below p,below q\n0,5,4,2,1,1,2,1,0,\"wave\",\"\",7,1,1\n";
    assert!(report(&["--csv", "--gap=7"]).contains(heading));
}

/// All four parts are added: the joined list is within their sum on either side.
#[test]
fn sums() {
    let folder = files(
        "parts_sums",
        &[
            ("a", &even(&[-6, -6, 0, 6, -6])),
            ("b", &even(&[3, 5, 2, 5, 3])),
        ],
    );
    for (options, expected) in [
        // The error is U2 + D2, and above each of the two.
        (
            &["-t0", "--above2=2", "--below2=1", "-mminimum"][..],
            lines(5, [4, 4, 2], "3/1", "3/1"),
        ),
        (
            &["-t0", "--above2=1", "--below2=2", "-mminimum"],
            lines(5, [5, 4, 5], "3/1", "0/1"),
        ),
        (
            &[
                "--above=0",
                "--below=0",
                "--below2",
                "1",
                "--above2",
                "4/2",
                "-mminimum",
            ],
            lines(5, [4, 4, 2], "3/1", "3/1"),
        ),
        // B at the parts of A.
        (
            &["--above=2", "--below=1", "-mminimum"],
            lines(5, [4, 4, 2], "6/1", "3/1"),
        ),
        (
            &["--above=2", "--below=1", "--tolerance2=1/3", "-mminimum"],
            lines(5, [5, 4, 5], "11/3", "0/1"),
        ),
    ] {
        let both = ["-o", "record", "--trace", "trace"];
        let printed = summed(&folder, &[options, &both].concat());
        assert_eq!(printed, expected, "{options:?}");
        let check = told(&run_in(&folder, &["check", "record", "trace"]));
        assert_eq!(check, (0, "yes\n".into(), "".into()));
        let tolerance = printed.lines().nth(2).unwrap();
        let first = format!("# {tolerance}\n");
        assert!(shown(&folder, "record").starts_with(&first), "{first}");
    }
    // Sums that are no allowed tolerances.
    for (parts, tolerance) in [
        (
            ["1/1048575", "1/1048574", "1/1048573", "1/1048571"],
            "4/1048573 in place of 4611649734629654467/1208913137523158412165150, \
             whose denominator is above 1,048,575",
        ),
        (
            ["65535", "0", "0", "1/64"],
            "65535/1 in place of 4194241/64, which is above 65,535",
        ),
        (["1/6", "1/10", "2/15", "3/5"], "1/1"),
    ] {
        let [above, below, above2, below2] = parts;
        let second = ["--above2", above2, "--below2", below2];
        let printed = summed(&folder, &[options(above, below), second].concat());
        let line = format!("\ntolerance {tolerance}\n");
        assert!(printed.contains(&line), "{printed}");
    }
    for (arguments, cause) in [
        (&["-t1", "--above2=1"][..], "--above2 needs --below2"),
        (&["-t1", "--below2=1"], "--below2 needs --above2"),
        (
            &["-t1", "--tolerance2=1", "--below2=1"],
            "--tolerance2 has both parts: --above2 and --below2 do not go with it",
        ),
        (&["--above2=1", "--below2=1"], "--tolerance is missing"),
        (&["--above=1", "--below2=1"], "--above needs --below"),
        (
            &["-t1", "--above2=1", "--below2=1/0"],
            "--below2: the tolerance is not allowed: p/q has",
        ),
        (
            &["-t1", "--above2=0.1", "--below2=1"],
            "--above2: `0.1` is not a multiple of 1/64; write the ratio 1/10",
        ),
        (
            &["-t1", "--above2=1", "--above2=1"],
            "--above2=1: the option is given twice",
        ),
    ] {
        fails(&[&["sum"], arguments, &["a", "b"]].concat(), "", cause);
    }
}

/// The words at the marks of the lower panel, which stand 4.5 below them.
fn marks(svg: &str) -> Vec<(f64, &str)> {
    let (_, lower) = svg.rsplit_once("class=\"edge\"").unwrap();
    let mut marks = Vec::new();
    for line in lower.lines() {
        if let Some(mark) = line.strip_prefix("<text x=\"76\" y=\"") {
            let (y, words) = mark.split_once("\" text-anchor=\"end\">").unwrap();
            marks.push((y.parse().unwrap(), words.trim_end_matches("</text>")));
        }
    }
    marks
}

/// The band reaches as far above the lines as a sample may lie above them, and as far below as one may lie
/// below.
#[test]
fn bands() {
    let arguments = at(&["draw", "-mminimum"], "2", "4");
    let svg = drawn(&arguments, WAVE);
    let title = "<title>5 samples, 2 kept by minimum, tolerance 2 above and 4 below</title>";
    assert!(svg.contains(title), "{svg}");
    let [trace, distances] = &points(&svg, "band")[..] else {
        panic!("{svg}");
    };
    // The lines are 0 everywhere. The upper panel is 360 high, from -4.5 to 2.5, and the lower one 120, from
    // -5 to 3.
    let heights = |points: &[(f64, f64)]| points.iter().map(|&(_, y)| y).collect::<Vec<f64>>();
    assert_eq!(heights(trace), [85.7, 85.7, 394.3, 394.3]);
    assert_eq!(heights(distances), [455.0, 455.0, 545.0, 545.0]);
    let samples = points(&svg, "sample");
    assert_eq!(heights(&samples[0]), [188.6, 85.7, 188.6, 291.4, 188.6]);
    assert_eq!(heights(&samples[1]), [485.0, 455.0, 485.0, 515.0, 485.0]);
    assert_eq!(marks(&svg), [(489.5, "0"), (459.5, "+2"), (549.5, "-4")]);
    // Turned over, with the parts exchanged.
    let turned = WAVE.replace("1,2", "1,-2").replace("3,-2", "3,2");
    let arguments = at(&["draw", "-mminimum"], "4", "2");
    let svg = drawn(&arguments, turned);
    assert!(
        svg.contains("tolerance 4 above and 2 below</title>"),
        "{svg}"
    );
    let bands = points(&svg, "band");
    assert_eq!(heights(&bands[0]), [85.7, 85.7, 394.3, 394.3]);
    assert_eq!(heights(&bands[1]), [455.0, 455.0, 545.0, 545.0]);
    assert_eq!(
        heights(&points(&svg, "sample")[1]),
        [515.0, 545.0, 515.0, 485.0, 515.0]
    );
    assert_eq!(marks(&svg), [(519.5, "0"), (459.5, "+4"), (549.5, "-2")]);
    // No sample may lie below the lines: they are the band's lower edge.
    let svg = drawn(&at(&["draw"], "2", "0"), WAVE);
    let band = heights(&points(&svg, "band")[1]);
    assert_eq!(
        band,
        [460.0, 460.0, 460.0, 460.0, 540.0, 540.0, 540.0, 540.0]
    );
    assert_eq!(marks(&svg), [(544.5, "0"), (464.5, "+2")]);
    let svg = drawn(&at(&["draw"], "0", "2"), WAVE);
    assert_eq!(marks(&svg), [(464.5, "0"), (544.5, "-2")]);
    // A part too small for words of its own, and parts too long for them.
    let svg = drawn(&at(&["draw"], "20", "1"), WAVE);
    assert_eq!(marks(&svg), [(541.3, "0"), (463.9, "+20")]);
    let svg = drawn(&at(&["draw"], "1000/999", "2000/999"), WAVE);
    assert!(
        svg.contains("tolerance 1000/999 above and 2000/999 below</title>"),
        "{svg}"
    );
    assert_eq!(marks(&svg), [(489.5, "0"), (459.5, "+U"), (549.5, "-D")]);
}

/// A record and its text are drawn with its own parts.
#[test]
fn drawn_records() {
    let folder = folder("parts_drawn_records");
    let file = folder.join("wave.record");
    let text = "# tolerance 2/1 4/1\n0,0\n4,0\n";
    done(&["record", "-o", path(&file)], text);
    let svg = drawn(&["draw", path(&file)], "");
    let title = "<title>2 samples kept, tolerance 2 above and 4 below: wave.record</title>";
    assert!(svg.contains(title), "{svg}");
    let band = points(&svg, "band").concat();
    assert_eq!(
        band.iter().map(|&(_, y)| y).collect::<Vec<_>>(),
        [85.7, 85.7, 394.3, 394.3]
    );
    let record = fs::read(&file).unwrap();
    assert_eq!(drawn(&["draw"], text), drawn(&["draw"], &record));
    for given in [
        &["--above=2", "--below=1"][..],
        &["--above=2"],
        &["--below=1", "--gap=7"],
    ] {
        let cause =
            "a record, with its own tolerance: --above, --below, --gap and --method do not apply";
        let message = format!("{}: {cause}\nTry", path(&file));
        fails(&[&["draw", path(&file)], given].concat(), "", &message);
    }
}

/// What an error budget may say at 2 above and 3/2 below.
const TWO: &str = "\
greatest tolerance 2 above and 3/2 (1.5) below
From the first kept sample to the last, at every tick, whole or fractional, \
the straight lines between all samples of the original trace are at most 2 ADC counts above \
and at most 1.5 ADC counts below the straight lines between the samples kept \
at tolerance 2 above and 3/2 (1.5) below. \
So the lines between the kept samples are at most 2 too low and at most 1.5 too high. \
Their maximum is at most 2 too low and never too high, \
their minimum at most 1.5 too high and never too low, \
so a pulse height read off them as maximum minus minimum is at most 3.5 too small and never too large. \
Their mean over any window of ticks is at most 2 too low and at most 1.5 too high, \
and their area over any stretch of ticks at most 2 times its length in ticks too small \
and at most 1.5 times its length in ticks too large, \
so a pulse height read off them as maximum minus the mean of a baseline window \
is at most 3.5 too small and at most 2 too large. \
Reducing the kept samples again adds the two parts above and the two parts below.
";

#[test]
fn budgets() {
    let folder = folder("parts_budgets");
    let pulse = shipped("examples/pulse.csv");
    let record = |name: &str, parts: [&str; 4]| {
        let file = folder.join(name);
        let arguments = [
            &["record", "-b", "-o", path(&file), path(&pulse)],
            &parts[..],
        ]
        .concat();
        printed(&arguments, "")
    };
    assert_eq!(record("a", options("2", "1.5")), TWO);
    assert_eq!(record("both", options("8", "8")), EIGHT);
    record("b", options("1", "3/2"));
    record("c", options("2", "0"));
    record("d", options("8", "1"));
    record("e", options("3", "8"));
    let summary = |files: &[&str]| {
        let (status, printed, error) =
            told(&run_in(&folder, &[&["summary", "-b"], files].concat()));
        assert_eq!((status, &error[..]), (0, ""));
        let (table, budget) = printed.split_once("\n\n").unwrap();
        let tolerances = table
            .lines()
            .skip(1)
            .map(|line| line.split('\t').nth(2).unwrap());
        (
            tolerances.collect::<Vec<_>>().join(", "),
            budget.to_string(),
        )
    };
    // The greatest part of each side, and the common tolerance of all.
    for (files, tolerances, budget) in [
        (&["a"][..], "2/1 3/2, 2/1 3/2", TWO),
        (&["a", "a"], "2/1 3/2, 2/1 3/2, 2/1 3/2", TWO),
        (&["b", "c"], "1/1 3/2, 2/1 0/1, -", TWO),
        (&["c", "b", "a"], "2/1 0/1, 1/1 3/2, 2/1 3/2, -", TWO),
        (&["d", "e"], "8/1 1/1, 3/1 8/1, -", EIGHT),
        (&["d", "both"], "8/1 1/1, 8/1, -", EIGHT),
    ] {
        assert_eq!(summary(files), (tolerances.to_string(), budget.to_string()));
    }
}

/// The sentences are README's.
#[test]
fn as_documented() {
    let readme = fs::read_to_string(shipped("README.md")).unwrap();
    let begins = "> From the first";
    let mut paragraphs = readme.lines().filter(|line| line.starts_with(begins));
    let paragraph = paragraphs.nth(1).unwrap().trim_start_matches("> ");
    let (_, sentences) = TWO.split_once('\n').unwrap();
    let tolerance = "tolerance 2 above and 3/2 (1.5) below";
    let filled = paragraph
        .replace("tolerance U above and D below", tolerance)
        .replace("U + D", "3.5")
        .replace("at most U ", "at most 2 ")
        .replace("at most D ", "at most 1.5 ");
    assert_eq!(sentences.trim_end(), filled);
}

/// Heights read off the lines of any record: the greatest value is at most the part above too low, the least at
/// most the part below too high, and each bound is reached.
#[test]
fn heights() {
    for (trace, low, high) in [("0,0\n1,2\n2,0\n", 2, 0), ("0,0\n1,-3\n2,0\n", 0, 3)] {
        let arguments = at(&["record"], "2", "3");
        let shown = printed(&["show"], done(&arguments, trace));
        assert_eq!(shown, "# tolerance 2/1 3/1\n0,0\n2,0\n");
        let values = |text: &str| -> Vec<i64> {
            let lines = text
                .lines()
                .filter_map(|line| line.split_once(',')?.1.parse().ok());
            lines.collect()
        };
        let (all, kept) = (values(trace), values(&shown));
        assert_eq!(all.iter().max().unwrap() - kept.iter().max().unwrap(), low);
        assert_eq!(kept.iter().min().unwrap() - all.iter().min().unwrap(), high);
    }
}

/// One part without the other, both with --tolerance, and parts that are refused.
#[test]
fn refusals() {
    for command in PARTED {
        let fails = |arguments: &[&str], cause: &str| {
            let arguments = [command, arguments].concat();
            fails(&arguments, WAVE, cause);
            let (_, _, error) = told(&run(&arguments, WAVE));
            let help = format!("\nTry `kovrelna {} --help`.\n", command[0]);
            assert!(error.ends_with(&help), "{error}");
        };
        let is_scan = command[0] == "scan";
        if !is_scan {
            fails(&["--above=2"], "--above needs --below\n");
            fails(&["--below=2"], "--below needs --above\n");
            for parts in [
                &["--above=2", "--below=1"][..],
                &["--above=2"],
                &["--below=1"],
            ] {
                let cause = "--tolerance has both parts: --above and --below do not go with it\n";
                fails(&[&["-t2"], parts].concat(), cause);
                fails(&[parts, &["--tolerance=2"]].concat(), cause);
            }
            fails(
                &["--above=2", "--above=2"],
                "--above=2: the option is given twice\n",
            );
        }
        fails(&["--below=2", "--above"], "--above: a value is missing\n");
        for (value, cause) in [
            (
                "1/0",
                "the tolerance is not allowed: p/q has q from 1 to 1,048,575",
            ),
            (
                "65536/1",
                "the tolerance is not allowed: p/q has q from 1 to 1,048,575",
            ),
            (
                "1/1048576",
                "the tolerance is not allowed: p/q has q from 1 to 1,048,575",
            ),
            (
                "-1",
                "the tolerance is not allowed: counts are from 0 to 65,535",
            ),
            (
                "3x64",
                "the tolerance is not allowed: the noise is from 0 to 1,023",
            ),
            (
                "0.1",
                "`0.1` is not a multiple of 1/64; write the ratio 1/10",
            ),
            (
                "0x10",
                "`0x10` could be meant as a hexadecimal number; write 0 for the tolerance 0",
            ),
            ("two", "`two` is not a number"),
            ("", "`` is not a number"),
        ] {
            let named = |part: &str| match is_scan {
                true => format!("{part} {value}, at position 0: {cause}"),
                false => format!("{part}: {cause}"),
            };
            fails(&options(value, "1"), &named("--above"));
            fails(&options("1", value), &named("--below"));
            // Of two the part above comes first.
            fails(&options(value, value), &named("--above"));
        }
        let mut tool = Command::new(TOOL);
        tool.args(command).args(["--above", "1", "--below"]);
        tool.arg(OsStr::from_bytes(b"\xff1"));
        let (status, _, error) = told(&run_with(tool, WAVE.as_bytes()));
        let cause = "kovrelna: --below: \u{fffd}1 is no text\n";
        assert!(status == 2 && error.starts_with(cause), "{error}");
        let help = printed(&[command[0], "--help"], "");
        for words in ["      --above U", "      --below D", "--above U"] {
            assert!(help.contains(words), "{words} {help}");
        }
    }
    // Neither, where one is needed.
    for command in ["judge", "near", "probes", "report"] {
        super::fails(&[command, "--gap=7"], WAVE, "--gap needs --tolerance\n");
    }
}

/// Commands without two parts.
#[test]
fn one_tolerance() {
    let pulse = shipped("examples/pulse.csv");
    let pulse = path(&pulse);
    for parts in [
        &["--above=2", "--below=1"][..],
        &["--above=2"],
        &["--below=2", "-t1"],
    ] {
        let arguments = [&["pedestals", "-k2"], parts, &[pulse, pulse]].concat();
        let cause = "pedestals are compared at one tolerance: --above and --below do not apply\n\
                     Try `kovrelna pedestals --help`.\n";
        fails(&arguments, "", cause);
    }
    let help = printed(&["pedestals", "--help"], "");
    assert!(help.contains("there is no --above and no\n"), "{help}");
    for command in [
        "show", "check", "same", "measure", "least", "watch", "summary",
    ] {
        let cause = "--above=2: there is no such option\n";
        fails(&[command, "--above=2", "--below=1"], "", cause);
        assert!(
            !printed(&[command, "--help"], "").contains("--above"),
            "{command}"
        );
    }
}

/// Parts as options.
fn given(parts: Parts) -> [String; 2] {
    let Parts { above, below } = parts;
    [
        format!("--above={}", ratio(above)),
        format!("--below={}", ratio(below)),
    ]
}

/// Parts as they are printed.
fn both(Parts { above, below }: Parts) -> String {
    match above == below {
        true => ratio(above),
        false => format!("{} {}", ratio(above), ratio(below)),
    }
}

/// Random traces under parts, with a gap limit: every command prints what the reference has.
#[test]
fn as_the_reference() {
    let folder = folder("parts_as_the_reference");
    let file = folder.join("record");
    let file = path(&file);
    let random = &mut Random::new(51);
    let any = [(0, 1), (1, 2), (1, 1), (7, 3), (20, 1), (100, 7), (500, 1)];
    // Lists that would differ with the parts exchanged; samples that are named within their own part, and not.
    let mut seen = [0; 3];
    for case in 0..60 {
        let (trace, parts, gap) = match case % 3 {
            0 => {
                let (trace, parts) = exceptional(random);
                (trace, parts, 1_048_575)
            }
            _ => {
                let samples = random.within(1, 40) as usize;
                let (trace, gap) = any_limited(samples, random);
                let (above, below) = (random.choose(&any), random.choose(&any));
                let parts = held(Form::Parts(above, below)).unwrap();
                (trace, parts, gap)
            }
        };
        let Trace { ticks, values } = &trace;
        let (samples, text) = (ticks.len(), written(&trace));
        let limits = Limits {
            tolerance: form(parts),
            gap: Some(gap),
        };
        let [above, below] = given(parts);
        let gap = format!("--gap={gap}");
        let options = [&above[..], &below, &gap];
        let reduced = METHODS.map(|method| reduce(method, ticks, values, limits, samples).unwrap());
        let exchanged = Limits {
            tolerance: form(parts.exchanged()),
            ..limits
        };
        let other = reduce(METHODS[0], ticks, values, exchanged, samples).unwrap();
        seen[0] += usize::from(other.list != reduced[0].list);
        for (name, reduced) in ["walk", "gallop", "minimum"].into_iter().zip(&reduced) {
            let record = done(&[&["record", "-m", name], &options[..]].concat(), &text);
            let sample = |&k: &u16| (ticks[usize::from(k)], values[usize::from(k)]);
            let content = Content {
                tolerance: parts,
                samples: reduced.list.iter().map(sample).collect(),
            };
            assert_eq!(
                decode(&record),
                Ok(content.clone()),
                "{name} {options:?} {trace:?}"
            );
            assert_eq!(record, encode(&content));
            let shown = printed(&["show"], &record);
            let first = format!("# tolerance {}\n", both(parts));
            assert!(shown.starts_with(&first), "{shown}");
            assert_eq!(done(&["record"], shown), record);
            fs::write(file, &record).unwrap();
            assert_eq!(printed(&["check", &gap, file, "-"], &text), "yes\n");
        }
        let [walk, gallop, minimum] = reduced.each_ref().map(|reduced| reduced.list.len());
        let half = fewest(ticks, values, limits.held().unwrap().shared(1, 2));
        let near = printed(&[&["near"], &options[..]].concat(), &text);
        let counts = [samples, walk, gallop, minimum, half].map(|count| count as i64);
        assert_eq!(
            row(near.lines().last().unwrap()).0,
            counts,
            "{options:?} {trace:?}"
        );
        let probes = printed(&[&["probes"], &options[..]].concat(), &text);
        let counts = [samples, gallop - 1, reduced[1].probes].map(|count| count as i64);
        assert_eq!(
            row(probes.lines().last().unwrap()).0,
            counts,
            "{options:?} {trace:?}"
        );
        // Beside another tolerance, and with the parts exchanged.
        let [turned_above, turned_below] = given(parts.exchanged());
        let pairs = [&turned_below[..], &turned_above, "-t1/3", "--csv"];
        let rows = fields(&printed(&[&["scan"], &options[..], &pairs].concat(), &text));
        let kept = [walk, other.list.len()].map(|kept| kept.to_string());
        assert_eq!(
            [&rows[0][3], &rows[1][3]],
            kept.each_ref(),
            "{options:?} {trace:?}"
        );
        assert_eq!(rows[0][5], half.to_string());
        let sheet = printed(&[&["report", "--csv"], &options[..]].concat(), &text);
        let Fraction { p, q } = list_error(ticks, values, &reduced[0].list);
        let sample = worst_sample(ticks, values, &reduced[0].list);
        let expected = format!("0,{samples},{walk},{p},{q},{sample},{},", pair(parts.above));
        assert!(
            sheet.lines().nth(1).unwrap().starts_with(&expected),
            "{sheet}"
        );
        // Any list, and the one of both ends.
        let ends: Vec<u16> = (0..samples as u16).step_by((samples - 1).max(1)).collect();
        for list in [any_list(ticks, limits.gap.unwrap(), random), ends] {
            let entries: Vec<String> = list.iter().map(u16::to_string).collect();
            let judged = run(
                &[&["judge", "-l", &entries.join(",")], &options[..]].concat(),
                &text,
            );
            let expected = match judge(ticks, values, &list, limits).unwrap() {
                None => (0, "yes\n".to_string(), String::new()),
                Some(invalid) => {
                    let (cause, is_within) = cause(ticks, &invalid, parts);
                    if invalid.measure.side != Side::Gap {
                        seen[1 + usize::from(is_within)] += 1;
                    }
                    let link = invalid.link;
                    let (from, to) = (list[link], list[link + 1]);
                    let no = format!("no at link {link}, from sample {from} to {to}: {cause}\n");
                    (1, no, String::new())
                }
            };
            assert_eq!(told(&judged), expected, "{options:?} {trace:?}");
        }
    }
    assert!(seen.iter().min() > Some(&4), "{seen:?}");
}

/// Both numbers of a ratio in CSV.
fn pair(Fraction { p, q }: Fraction) -> String {
    format!("{p},{q}")
}

/// Why the link is invalid, and whether the sample that is named lies within its own part.
fn cause(ticks: &[u32], Invalid { measure, .. }: &Invalid, parts: Parts) -> (String, bool) {
    let (error, sample) = (measure.error, measure.sample);
    let (own, other, side) = match measure.side {
        Side::Gap => {
            let (before, after) = (ticks[sample], ticks[sample + 1]);
            let hole = format!("it crosses the hole from tick {before} to tick {after}");
            return (format!("{hole}, and its error is {}", ratio(error)), false);
        }
        Side::Below => (parts.below, parts.above, Side::Above),
        _ => (parts.above, parts.below, Side::Below),
    };
    let lies = lies(ticks, *measure);
    match error.at_most(own) {
        false => (lies, false),
        true => {
            let (own, other, side) = (ratio(own), ratio(other), word(side));
            let another = format!("another lies more than {other} {side} it");
            (format!("{lies}, within {own}; {another}"), true)
        }
    }
}

/// Sums of traces reduced under parts.
#[test]
fn sums_as_the_reference() {
    let folder = folder("parts_sums_as_the_reference");
    let random = &mut Random::new(52);
    let any = [(0, 1), (1, 2), (7, 3), (500, 1), (8_000, 1)];
    let mut seen = 0;
    for samples in (1..=30).flat_map(|samples| [samples; 2]) {
        let mut pair = summands(samples, random);
        let parts = [0; 2].map(|_| {
            let (above, below) = (random.choose(&any), random.choose(&any));
            held(Form::Parts(above, below)).unwrap()
        });
        let (place, method) = random.choose(&[(0, "walk"), (1, "gallop"), (2, "minimum")]);
        for (summand, parts) in pair.iter_mut().zip(parts) {
            let Trace { ticks, values } = &summand.trace;
            let reduced = reduce(METHODS[place], ticks, values, form(parts), samples);
            summand.list = reduced.unwrap().list;
        }
        let [first, second] = &pair;
        fs::write(folder.join("a"), written(&first.trace)).unwrap();
        fs::write(folder.join("b"), written(&second.trace)).unwrap();
        // A sum may be beyond the range.
        let Ok(Sum { values, list }) = sum(first, second, (samples, samples)) else {
            continue;
        };
        seen += 1;
        let ticks = &first.trace.ticks;
        let bound = bound(parts[0], parts[1]).lowest();
        let error = list_error(ticks, &values, &list);
        assert!(error.at_most(bound));
        let [above, below] = given(parts[0]);
        let [above2, below2] = given(parts[1]).map(|option| option.replace('=', "2="));
        let options = [
            &above[..],
            &below,
            &above2,
            &below2,
            "-m",
            method,
            "-o",
            "record",
        ];
        let kept = [list.len(), first.list.len(), second.list.len()];
        let expected = lines(samples, kept, &ratio(bound), &ratio(error));
        assert_eq!(summed(&folder, &options), expected, "{options:?}");
        let record = decode(&fs::read(folder.join("record")).unwrap()).unwrap();
        assert_eq!(record.tolerance, bound.into());
    }
    assert!(seen > 30, "{seen}");
}
