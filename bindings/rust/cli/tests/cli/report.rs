//! The sheet of a crate, beside the slow reference.

use super::{done, fails, files, folder, path, run, run_in, told, written, TOOL, WAVE};
use kovrelna_reference::generate::{channels, Channels, Random};
use kovrelna_reference::report::{report, Report};
use kovrelna_reference::{Form, Limits};
use std::fs;
use std::path::Path;
use std::process::Command;

/// What the command prints in this folder.
fn printed(folder: &Path, arguments: &[&str]) -> String {
    let output = run_in(folder, &[&["report"], arguments].concat());
    let (status, printed, error) = told(&output);
    assert_eq!((status, &error[..]), (0, ""), "{arguments:?}");
    printed
}

/// A wave, no samples, two equal ticks, one sample, and a span that is too long.
const CHANNELS: [(&str, &str); 5] = [
    ("wave", WAVE),
    ("none", "# nothing\n"),
    ("equal", "tick,value\n5,1\n5,1\n"),
    ("a \"one\", quoted", "7,9\n"),
    ("span", "0,0\n1048576,0\n"),
];

#[test]
fn columns() {
    let folder = files("report_columns", &CHANNELS);
    let names = CHANNELS.map(|(name, _)| name);
    let sheet = "\
# kept by walk at 5/2
channel  samples  kept  error  worst at  refusal  file
      0        5     3    2/1         1        0  wave
      1        0     0    0/1         -        1  none: no samples
      2        0     0    0/1         -        2  equal:3: the tick is not above the one before
      3        1     1    0/1         -        0  a \"one\", quoted
      4        0     0    0/1         -        3  span:2: the tick is over 1,048,575 above that of the first sample
  total        6     4    2/1         -        -  3 of 5 refused
";
    let arguments = [&["--tolerance", "10/4"], &names[..]].concat();
    assert_eq!(printed(&folder, &arguments), sheet);
    let sheet = "\
channel,samples,kept,error p,error q,sample,tolerance p,tolerance q,refusal,file,cause
0,5,3,2,1,1,5,2,0,\"wave\",\"\"
1,0,0,0,1,0,5,2,1,\"none\",\"none: no samples\"
2,0,0,0,1,0,5,2,2,\"equal\",\"equal:3: the tick is not above the one before\"
3,1,1,0,1,0,5,2,0,\"a \"\"one\"\", quoted\",\"\"
4,0,0,0,1,0,5,2,3,\"span\",\"span:2: the tick is over 1,048,575 above that of the first sample\"
total,6,4,2,1,,5,2,,\"\",\"3 of 5 refused\"
";
    let arguments = [&["--csv", "-t", "2.5"], &names[..]].concat();
    assert_eq!(printed(&folder, &arguments), sheet);
}

/// The numbers of each line of a report as CSV: channel, samples, kept, error, sample, refusal. That of
/// the total has the channel -1, the sample 0 and the refusal 0.
fn numbers(sheet: &str) -> Vec<[i128; 7]> {
    let row = |line: &str| {
        let fields: Vec<&str> = line.split(',').collect();
        let number = |field: &str| match field {
            "total" => -1,
            "" => 0,
            number => number.parse().unwrap(),
        };
        [0, 1, 2, 3, 4, 5, 8].map(|column: usize| number(fields[column]))
    };
    sheet.lines().skip(1).map(row).collect()
}

/// The same of a report by the reference on channels with these numbers.
fn expected(report: &Report, channels: &[i128]) -> Vec<[i128; 7]> {
    let mut rows = Vec::new();
    for (&channel, row) in channels.iter().zip(&report.channels) {
        let (samples, kept) = (row.samples as i128, row.kept as i128);
        rows.push([
            channel,
            samples,
            kept,
            row.error.p,
            row.error.q,
            row.sample as i128,
            row.number.into(),
        ]);
    }
    let (samples, kept) = (report.samples as i128, report.kept as i128);
    rows.push([-1, samples, kept, report.error.p, report.error.q, 0, 0]);
    rows
}

/// A file for each channel.
#[test]
fn files_as_the_reference() {
    let folder = folder("report_files");
    let random = &mut Random::new(8);
    for (count, gap) in [(2, None), (3, None), (17, None), (64, None), (64, Some(3))] {
        let made = channels(count, 60, random);
        let mut arguments = vec![
            "report".to_string(),
            "-t7/2".to_string(),
            "--csv".to_string(),
        ];
        arguments.extend(gap.map(|gap| format!("--gap={gap}")));
        for (channel, trace) in made.traces().iter().enumerate() {
            let file = folder.join(format!("channel {channel}"));
            fs::write(&file, written(trace)).unwrap();
            arguments.push(path(&file).to_string());
        }
        let arguments: Vec<&str> = arguments.iter().map(String::as_str).collect();
        let sheet = String::from_utf8(done(&arguments, "")).unwrap();
        let Channels {
            ticks,
            values,
            lengths,
        } = &made;
        let limits = Limits {
            tolerance: Form::Ratio(7, 2),
            gap,
        };
        let report = report(ticks, values, lengths, limits, count).unwrap();
        let numbered: Vec<i128> = (0..count as i128).collect();
        assert_eq!(numbers(&sheet), expected(&report, &numbered), "{count}");
    }
}

/// All channels in one file: numbers rise by several, and lines of channels are mixed.
#[test]
fn one_file_as_the_reference() {
    let random = &mut Random::new(9);
    for count in [1, 2, 17, 64] {
        let mut made = channels(count, 60, random);
        while made.lengths.contains(&0) {
            made = channels(count, 60, random);
        }
        let numbered: Vec<i128> = (0..count as i128)
            .map(|channel| 5 * channel * channel)
            .collect();
        let traces = made.traces();
        let mut next = vec![0; count];
        let mut text = "tick;value;channel\n".to_string();
        while text.lines().count() <= made.ticks.len() {
            let channel = random.below(count as u64) as usize;
            for _ in 0..random.below(500) {
                let (k, trace) = (next[channel], &traces[channel]);
                if k < trace.ticks.len() {
                    let number = numbered[channel];
                    text += &format!("{};{};{number}\n", trace.ticks[k], trace.values[k]);
                    next[channel] += 1;
                }
            }
        }
        let sheet = String::from_utf8(done(&["report", "-t7/2", "--csv"], text)).unwrap();
        let Channels {
            ticks,
            values,
            lengths,
        } = &made;
        let report = report(ticks, values, lengths, Form::Ratio(7, 2), count).unwrap();
        assert_eq!(numbers(&sheet), expected(&report, &numbered), "{count}");
    }
}

/// Where a line of a refused channel is.
#[test]
fn lines_of_one_file() {
    let text = "9 9 4294967295\n0 0 1\n5 9 4294967295\n# c\n1 0 1\n\n7 9 4294967295\n";
    let sheet = String::from_utf8(done(&["report", "-t1"], text)).unwrap();
    let lines: Vec<&str> = sheet.lines().skip(2).collect();
    let expected = [
        "         1        2     2    0/1         -        0  <stdin>",
        "4294967295        0     0    0/1         -        2  <stdin>:3: the tick is not above the one before",
        "     total        2     2    0/1         -        -  1 of 2 refused",
    ];
    assert_eq!(lines, expected);
    // Too many samples of one channel, and others after them.
    let mut text: String = (0..5_000).map(|tick| format!("{tick},0,0\n")).collect();
    text += "0,0,1\n1,0,1\n";
    let sheet = String::from_utf8(done(&["report", "-t1", "--csv"], &text)).unwrap();
    let rows = [
        [0, 0, 0, 0, 1, 0, 1],
        [1, 2, 2, 0, 1, 0, 0],
        [-1, 2, 2, 0, 1, 0, 0],
    ];
    assert_eq!(numbers(&sheet), rows);
    let cause = "\"<stdin>:4097: too many samples: at most 4096 are allowed\"";
    assert!(sheet.contains(cause), "{sheet}");
}

/// One trace, also none, and an endless one.
#[test]
fn one_channel() {
    let sheet = |text: &str| {
        let printed = done(&["report", "-t2", "--csv", "-"], text);
        numbers(&String::from_utf8(printed).unwrap())
    };
    assert_eq!(sheet(WAVE), [[0, 5, 3, 2, 1, 1, 0], [-1, 5, 3, 2, 1, 0, 0]]);
    let none = [[0, 0, 0, 0, 1, 0, 1], [-1, 0, 0, 0, 1, 0, 0]];
    assert_eq!(sheet(""), none);
    assert_eq!(sheet("tick,value,channel\n"), none);
    let mut command = Command::new("sh");
    command.args(["-c", "yes 1,2 | \"$0\" report -t2 --csv", TOOL]);
    let (status, printed, error) = told(&command.output().unwrap());
    assert_eq!((status, &error[..]), (0, ""));
    assert_eq!(numbers(&printed), none);
}

#[test]
fn sixty_four_channels() {
    let lines = |count| {
        (0..count)
            .map(|n| format!("{n},{n},{n}\n"))
            .collect::<String>()
    };
    let sheet = String::from_utf8(done(&["report", "-t2"], lines(64))).unwrap();
    assert_eq!(sheet.lines().count(), 67);
    assert!(sheet.ends_with("  0 of 64 refused\n"), "{sheet}");
    let message = "<stdin>: more than 64 channels in the third column\n";
    fails(&["report", "-t2"], lines(65), message);
    fails(&["report", "-t2"], lines(1_000), message);
    let folder = files("report_sixty_four", &CHANNELS);
    let file = folder.join("wave");
    let of = |count| [&["report", "-t2"], &vec![path(&file); count][..]].concat();
    let sheet = String::from_utf8(done(&of(64), "")).unwrap();
    let total = sheet.lines().last().unwrap();
    let expected = "  total      320   192    2/1         -        -  0 of 64 refused";
    assert_eq!(total, expected);
    fails(
        &of(65),
        "",
        "more than 64 files\nTry `kovrelna report --help`.",
    );
    fails(&of(1_000), "", "more than 64 files");
}

/// What is no text of a trace or a crate ends the report, and nothing is printed.
#[test]
fn faults() {
    let folder = files("report_faults", &CHANNELS);
    let wave = folder.join("wave");
    let wave = path(&wave);
    for (text, cause) in [
        ("0,0\n0,x\n", "2: the value `x` is not a number"),
        (
            "0,0,1\n0,0\n",
            "2: a tick, a value and a channel are wanted, and there are 2 columns",
        ),
        (
            "0,0\n0,0,1\n",
            "2: a tick and a value are wanted, and there are 3 columns",
        ),
        (
            "0,0,0,0\n",
            "1: a tick and a value are wanted, and there are 4 columns",
        ),
        (
            "0\n",
            "1: a tick and a value are wanted, and there is 1 column",
        ),
        (
            "0,0,-1\n",
            "1: the channel `-1` is not from 0 to 4294967295",
        ),
        ("0,0,1.5\n", "1: the channel `1.5` is no whole number"),
        ("0,0,a\n", "1: the channel `a` is not a number"),
        (
            "# c\n# tolerance 2/1\n0,0,3\n",
            "2: samples are reduced already at 2/1",
        ),
        ("# tolerance 2/1\n", "1: samples are reduced already at 2/1"),
    ] {
        fails(&["report", "-t2"], text, &format!("<stdin>:{cause}"));
    }
    for (text, cause) in [
        (
            "0,0,1\n",
            ":1: a tick and a value are wanted, and there are 3 columns",
        ),
        (
            "# tolerance 2/1\n0,0\n",
            ":1: samples are reduced already at 2/1",
        ),
        (
            "T\0\0\0\0\u{2}\0\0\u{1}A\0\0\0\0\0\0E\0\u{1}",
            ": a record, where a trace is wanted",
        ),
    ] {
        fails(
            &["report", "-t2", wave, "-"],
            text,
            &format!("<stdin>{cause}"),
        );
    }
    let missing = "missing: No such file or directory";
    fails(&["report", "-t2", wave, "missing", wave], "", missing);
    fails(&["report", "-t2", "missing"], "", missing);
    fails(&["report", wave], "", "--tolerance is missing");
    fails(&["report", "-t", "1/0", wave], "", "--tolerance: ");
    fails(
        &["report", "-t2", "--csv=1", wave],
        "",
        "--csv=1: the option takes no value",
    );
    fails(
        &["report", "-t2", "-", "-"],
        "",
        "standard input is wanted twice",
    );
    let (status, help, _) = told(&run(&["report", "--help"], ""));
    assert!(status == 0 && help.starts_with("Prints the sheet of a crate"));
}
