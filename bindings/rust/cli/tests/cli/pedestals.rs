//! Two runs of a crate, beside the slow reference.

use super::draw::points;
use super::{fails, files, folder, path, run, run_in, shipped, told, TOOL, WAVE};
use kovrelna_reference::generate::{crate_of, runs, Random, Trace};
use kovrelna_reference::pedestals::{pedestals, shift_over, spread_over, Sums};
use kovrelna_reference::{Form, Fraction};
use std::fs;
use std::path::{Path, PathBuf};
use std::process::Command;

const HEADING: &str =
    "# means, widths and limits are rounded to 1/1000 in print, and compared exactly";

/// What the command prints in this folder, and its status. It says nothing else.
fn compared(folder: &Path, arguments: &[&str]) -> (i32, String) {
    let output = run_in(folder, &[&["pedestals"], arguments].concat());
    let (status, printed, error) = told(&output);
    assert_eq!(error, "", "{arguments:?}");
    (status, printed)
}

/// The lines that it prints of listed channels, without its headings and the summary.
fn listed(folder: &Path, arguments: &[&str]) -> Vec<String> {
    let (status, printed) = compared(folder, arguments);
    assert_eq!(status, 1, "{printed}");
    let lines: Vec<&str> = printed.lines().skip(3).collect();
    let [lines @ .., _] = &lines[..] else {
        panic!("{printed}");
    };
    lines.iter().map(|line| line.to_string()).collect()
}

/// The fields of a line.
fn fields(line: &str) -> Vec<&str> {
    line.split_whitespace().collect()
}

const EXAMPLE: [&str; 2] = [
    "examples/pedestals-today.csv",
    "examples/pedestals-yesterday.csv",
];

const EXAMPLE_LINES: &str = "\
# moved: the means differ by more than 3/2; noisy: the width is over 2 times yesterday's
# means, widths and limits are rounded to 1/1000 in print, and compared exactly
channel       change     mean  yesterday  difference  limit  width  yesterday  limit
      1        moved  395.469    398.094      -2.625  1.500  1.879      1.877  3.754
      3        noisy  431.859    431.125       0.734  1.500  5.833      1.892  3.783
      5  moved noisy  443.328    440.375       2.953  1.500  4.573      1.824  3.649
3 of 8 channels: 2 moved, 2 noisy
";

#[test]
fn example() {
    let root = shipped("");
    let compared = |options: &[&str]| compared(&root, &[options, &EXAMPLE].concat());
    let expected = (1, EXAMPLE_LINES.to_string());
    assert_eq!(compared(&["--tolerance", "3/2", "--noise", "2"]), expected);
    assert_eq!(compared(&["-t1.5", "-k2"]), expected);
    let csv = "\
channel,moved,noisy,samples,sum today,squares today,sum yesterday,squares yesterday,\
tolerance p,tolerance q,noise,today,yesterday,summary
1,1,0,64,25310,10009540,25478,10142858,3,2,2,FILES,\"\"
3,0,1,64,27639,11938339,27592,11895830,3,2,2,FILES,\"\"
5,1,1,64,28373,12579887,28184,12411742,3,2,2,FILES,\"\"
total,2,2,,,,,,3,2,2,\"\",\"\",\"3 of 8 channels: 2 moved, 2 noisy\"
";
    let names = EXAMPLE.map(|name| format!("\"{name}\"")).join(",");
    let expected = (1, csv.replace("FILES", &names));
    assert_eq!(compared(&["-t3/2", "-k2", "--csv"]), expected);
    // Nothing is listed.
    let none = (0, "0 of 8 channels: 0 moved, 0 noisy\n".to_string());
    assert_eq!(compared(&["-t3", "-k4"]), none);
    let (status, csv) = compared(&["-t3", "-k4", "--csv"]);
    let total = "total,0,0,,,,,,3,1,4,\"\",\"\",\"0 of 8 channels: 0 moved, 0 noisy\"";
    assert_eq!(status, 0);
    assert_eq!(csv.lines().skip(1).collect::<Vec<_>>(), [total]);
    // One of the runs from standard input.
    let names = EXAMPLE.map(shipped);
    for (input, runs) in [(0, ["-", path(&names[1])]), (1, [path(&names[0]), "-"])] {
        let arguments = [&["pedestals", "-t3/2", "-k2"], &runs[..]].concat();
        let output = run(&arguments, fs::read(&names[input]).unwrap());
        assert_eq!(told(&output), (1, EXAMPLE_LINES.into(), "".into()));
    }
}

/// Channel 4 of the example is at both limits, and is listed just beyond either. Its difference may then
/// have the digits of the limit.
#[test]
fn limits_of_the_example() {
    let root = shipped("");
    let of_channel = |name| {
        let text = fs::read_to_string(root.join(name)).unwrap();
        let of = |line: &str| line.strip_suffix(",4")?.split_once(',')?.1.parse().ok();
        Sums::of(&text.lines().filter_map(of).collect::<Vec<i16>>())
    };
    let [today, yesterday] = EXAMPLE.map(of_channel);
    assert_eq!(shift_over(today, yesterday, Fraction { p: 3, q: 2 }), 0);
    assert_eq!(spread_over(today, yesterday, 2), 0);
    let line = |options: &[&str]| listed(&root, &[options, &EXAMPLE].concat())[2].clone();
    let limits = "422.000    420.500       1.500  1.500  3.221      1.611  3.221";
    let below = ["-t", "1048574/699050", "-k2"];
    assert_eq!(line(&below), format!("      4        moved  {limits}"));
    // A sample farther from the mean, and another one on its other side.
    let folder = folder("pedestals_limits");
    let text = fs::read_to_string(root.join(EXAMPLE[0])).unwrap();
    let lines: Vec<&str> = text.lines().filter(|line| line.ends_with(",4")).collect();
    let value = |line: &str| line.split(',').nth(1).unwrap().parse::<i16>().unwrap();
    let (low, high) = (
        lines.iter().min_by_key(|line| value(line)).unwrap(),
        lines.iter().max_by_key(|line| value(line)).unwrap(),
    );
    let moved = |line: &str, by: i16| {
        let value = value(line);
        line.replace(&format!(",{value},"), &format!(",{},", value + by))
    };
    let wider = text.replace(low, &moved(low, -1));
    let wider = wider.replace(high, &moved(high, 1));
    fs::write(folder.join("today"), wider).unwrap();
    fs::copy(root.join(EXAMPLE[1]), folder.join("yesterday")).unwrap();
    let lines = listed(&folder, &["-t3/2", "-k2", "today", "yesterday"]);
    assert_eq!(fields(&lines[2])[..2], ["4", "noisy"]);
}

/// Lines of channels are mixed, and channels come by rising number; digits are rounded in print.
#[test]
fn columns() {
    let folder = files(
        "pedestals_columns",
        &[
            (
                "today",
                "tick,value,channel\n5,32767,4000000000\n5,0,7\n5,1,2\n6,32767,4000000000\n6,1,7\n\
                 7,1,7\n9,-2,30\n10,0,30\n11,2,30\n12,0,30\n6,1,2\n",
            ),
            (
                "yesterday",
                "0;-2;30\n1;0;30\n0;-32768;4000000000\n1;32767;4000000000\n0;0;7\n1;0;7\n2;0;7\n\
                 2;2;30\n3;1;30\n0;1;2\n1;1;2\n",
            ),
        ],
    );
    let sheet = format!(
        "\
# moved: the means differ by more than 0/1; noisy: the width is over 16 times yesterday's
{HEADING}
   channel       change       mean  yesterday  difference  limit  width  yesterday       limit
         7  moved noisy      0.667      0.000       0.667  0.000  0.471      0.000       0.000
        30        moved      0.000      0.250      -0.250  0.000  1.414      1.479      23.664
4000000000        moved  32767.000     -0.500   32767.500  0.000  0.000  32767.500  524280.000
3 of 4 channels: 3 moved, 1 noisy
"
    );
    let arguments = ["--noise=16", "--tolerance=0", "today", "yesterday"];
    assert_eq!(compared(&folder, &arguments), (1, sheet));
    // A difference that is 0 in print is listed, without a sign.
    let many: String = (0..4_096).map(|tick| format!("{tick},0\n")).collect();
    fs::write(folder.join("zeros"), &many).unwrap();
    fs::write(folder.join("one"), many.replacen(",0", ",-1", 1)).unwrap();
    let lines = listed(&folder, &["-t0", "-k1", "one", "zeros"]);
    let line = "      0  moved noisy  0.000      0.000       0.000  0.000  0.016      0.000  0.000";
    assert_eq!(lines, [line]);
}

/// Two folders with these files in each.
fn folders(name: &str, today: &[(&str, &str)], yesterday: &[(&str, &str)]) -> PathBuf {
    let folder = folder(name);
    for (run, contents) in [("today", today), ("yesterday", yesterday)] {
        fs::create_dir(folder.join(run)).unwrap();
        for (file, content) in contents {
            fs::write(folder.join(run).join(file), content).unwrap();
        }
    }
    folder
}

/// Files in the order of their names, numbers by value. Hidden files and folders are passed over.
#[test]
fn folders_of_files() {
    let today = [
        ("ch10.csv", "0,9\n1,9\n"),
        ("ch2.csv", "0,5\n1,5\n"),
        ("ch1.csv", "0,0\n1,0\n"),
        ("a \"name\", quoted", "0,1\n1,3\n"),
        (".ch3.csv.swp", "no trace"),
    ];
    let yesterday = today.map(|(name, _)| (name, "7,0\n8,0\n"));
    let folder = folders("pedestals_folders", &today, &yesterday[..4]);
    fs::create_dir(folder.join("today/old")).unwrap();
    std::os::unix::fs::symlink("old", folder.join("today/older")).unwrap();
    let sheet = format!(
        "\
# moved: the means differ by more than 3/1; noisy: the width is over 1 times yesterday's
{HEADING}
channel  change   mean  yesterday  difference  limit  width  yesterday  limit  file
      0   noisy  2.000      0.000       2.000  3.000  1.000      0.000  0.000  a \"name\", quoted
      2   moved  5.000      0.000       5.000  3.000  0.000      0.000  0.000  ch2.csv
      3   moved  9.000      0.000       9.000  3.000  0.000      0.000  0.000  ch10.csv
3 of 4 channels: 2 moved, 1 noisy
"
    );
    for runs in [["today", "yesterday"], ["today/", "./yesterday"]] {
        let arguments = [&["-t3", "-k1"], &runs[..]].concat();
        assert_eq!(compared(&folder, &arguments), (1, sheet.clone()));
    }
    let (_, csv) = compared(&folder, &["-t3", "-k1", "--csv", "today", "yesterday"]);
    let lines: Vec<&str> = csv.lines().collect();
    let line = "0,0,1,2,4,10,0,0,3,1,1,\"today/a \"\"name\"\", quoted\",\
                \"yesterday/a \"\"name\"\", quoted\",\"\"";
    assert_eq!(lines[1], line);
    let line = "3,1,0,2,18,162,0,0,3,1,1,\"today/ch10.csv\",\"yesterday/ch10.csv\",\"\"";
    assert_eq!(lines[3], line);
    // A folder named - is no standard input.
    fs::rename(folder.join("yesterday"), folder.join("-")).unwrap();
    let (status, _) = compared(&folder, &["-t3", "-k1", "today", "./-"]);
    assert_eq!(status, 1);
    let output = run_in(&folder, &["pedestals", "-t3", "-k1", "today", "-"]);
    let message = "kovrelna: <stdin>: no samples\n";
    assert_eq!(told(&output), (2, "".into(), message.into()));
    // The same with itself.
    let none = (0, "0 of 4 channels: 0 moved, 0 noisy\n".to_string());
    assert_eq!(compared(&folder, &["-t0", "-k1", "today", "today"]), none);
}

/// The channels listed in CSV: number, moved, noisy, samples and sums.
fn numbers(csv: &str) -> Vec<[i128; 8]> {
    let rows = csv
        .lines()
        .skip(1)
        .filter(|line| !line.starts_with("total"));
    let row = |line: &str| {
        let mut fields = line.split(',').map(|field| field.parse().unwrap());
        [(); 8].map(|_| fields.next().unwrap())
    };
    rows.map(row).collect()
}

/// The runs as one file each: numbers of channels rise by several, and samples are mixed.
fn in_one_file(traces: &[Trace], random: &mut Random) -> String {
    let mut next = vec![0; traces.len()];
    let mut text = "tick value channel\n".to_string();
    while let Some(last) = (0..traces.len()).rfind(|&c| next[c] < traces[c].ticks.len()) {
        let channel = random.below(last as u64 + 1) as usize;
        let Trace { ticks, values } = &traces[channel];
        if next[channel] < ticks.len() {
            let (tick, value) = (ticks[next[channel]], values[next[channel]]);
            text += &format!("{tick} {value} {}\n", 5 * channel * channel);
            next[channel] += 1;
        }
    }
    text
}

/// Runs at both limits and beside them, in two files and in two folders.
#[test]
fn as_the_reference() {
    let folder = folder("pedestals_reference");
    let random = &mut Random::new(10);
    let mut seen = [0; 4];
    for count in [1, 2, 3, 17, 64].repeat(8) {
        let made = runs(count, 40, random);
        let Fraction { p, q } = made.tolerance;
        let form = Form::Ratio(p as u64, q as u64);
        let (today, before) = (crate_of(&made.today), crate_of(&made.before));
        let expected = pedestals(&today, &before, form, made.k, (count, count)).unwrap();
        let rows = |number: fn(i128) -> i128| {
            let row = |channel: usize| {
                let is_in = |list: &[u16]| i128::from(list.contains(&(channel as u16)));
                let (moved, noisy) = (is_in(&expected.moved), is_in(&expected.noisy));
                let one = Sums::of(&made.today[channel].values);
                let two = Sums::of(&made.before[channel].values);
                [
                    number(channel as i128),
                    moved,
                    noisy,
                    one.n,
                    one.s,
                    one.q,
                    two.s,
                    two.q,
                ]
            };
            let rows = (0..count).map(row);
            rows.filter(|row| row[1] + row[2] > 0).collect::<Vec<_>>()
        };
        let (tolerance, noise) = (format!("-t{p}/{q}"), format!("-k{}", made.k));
        let options = [&tolerance[..], &noise, "--csv", "today", "yesterday"];
        for (run, traces) in [("today", &made.today), ("yesterday", &made.before)] {
            fs::write(folder.join(run), in_one_file(traces, random)).unwrap();
        }
        let (status, csv) = compared(&folder, &options);
        let listed = rows(|channel| 5 * channel * channel);
        assert_eq!(numbers(&csv), listed);
        assert_eq!(status, i32::from(!listed.is_empty()));
        let (moved, noisy) = (expected.moved.len(), expected.noisy.len());
        let both = expected.moved.iter().filter(|c| expected.noisy.contains(c));
        let of = moved + noisy - both.count();
        let summary = format!("\"{of} of {count} channels: {moved} moved, {noisy} noisy\"\n");
        assert!(csv.ends_with(&summary), "{csv}");
        for (seen, count) in seen.iter_mut().zip([moved, noisy, of, count - of]) {
            *seen += count;
        }
        for (run, traces) in [("today", &made.today), ("yesterday", &made.before)] {
            fs::remove_file(folder.join(run)).unwrap();
            fs::create_dir(folder.join(run)).unwrap();
            for (channel, trace) in traces.iter().enumerate() {
                let file = folder.join(run).join(format!("channel {channel}"));
                fs::write(file, super::written(trace)).unwrap();
            }
        }
        assert_eq!(
            numbers(&compared(&folder, &options).1),
            rows(|channel| channel)
        );
        for run in ["today", "yesterday"] {
            fs::remove_dir_all(folder.join(run)).unwrap();
        }
    }
    assert!(seen.iter().all(|&count| count > 100), "{seen:?}");
}

/// A channel that one of the runs lacks, by number and by name.
#[test]
fn missing_channels() {
    let folder = files(
        "pedestals_missing",
        &[("two", "0 0 1\n0 0 9\n"), ("other", "0 0 1\n0 0 8\n")],
    );
    let [two, other] = ["two", "other"].map(|name| folder.join(name));
    let (two, other) = (path(&two), path(&other));
    let compare = ["pedestals", "-t1", "-k1"];
    let lacks = |runs: [&str; 2], input: &str, message: &str| {
        fails(&[&compare[..], &runs].concat(), input, message);
    };
    let message = format!("{other}: there is no channel 9, which {two} has\n");
    lacks([two, other], "", &message);
    let message = format!("{two}: there is no channel 8, which {other} has\n");
    lacks([other, two], "", &message);
    let one = "0,0,9\n";
    let message = format!("<stdin>: there is no channel 1, which {two} has\n");
    lacks([two, "-"], one, &message);
    lacks(["-", two], one, &message);
    // Without a third column it is channel 0.
    let message = format!("{two}: there is no channel 0, which <stdin> has\n");
    lacks(["-", two], "0,0\n", &message);
    let message = format!("{two}: there is no channel 2, which <stdin> has\n");
    lacks(["-", two], "0 0 1\n0 0 2\n0 0 9\n", &message);
    let folder = folders(
        "pedestals_missing_files",
        &[("a", "0,0\n"), ("b", "0,0\n"), ("c10", "0,0\n")],
        &[("a", "0,0\n"), ("c10", "0,0\n"), ("c9", "0,0\n")],
    );
    let [today, yesterday] = ["today", "yesterday"].map(|run| folder.join(run));
    let (today, yesterday) = (path(&today), path(&yesterday));
    let message = format!("{yesterday}: there is no b, which {today} has\n");
    lacks([today, yesterday], "", &message);
    fs::remove_file(folder.join("today/b")).unwrap();
    let message = format!("{today}: there is no c9, which {yesterday} has\n");
    lacks([today, yesterday], "", &message);
    lacks([yesterday, today], "", &message);
    // A file has no names of files.
    let cause = "a file and a folder, whose channels have no names in common\n";
    for runs in [[two, today], [today, two]] {
        lacks(runs, "", &format!("{} and {}: {cause}", runs[0], runs[1]));
    }
    lacks([today, "-"], WAVE, &format!("{today} and <stdin>: {cause}"));
}

/// Channels that are no traces, or are not as long in both runs.
#[test]
fn faulty_channels() {
    let folder = files(
        "pedestals_faulty",
        &[("good", "0 0 3\n0 0 5\n1 0 5\n"), ("wave", WAVE)],
    );
    let [good, wave] = ["good", "wave"].map(|name| folder.join(name));
    let (good, wave) = (path(&good), path(&wave));
    let compare = ["pedestals", "-t1", "-k1"];
    let long: String = (0..4_097).map(|tick| format!("{tick},0,5\n")).collect();
    for (text, cause) in [
        ("", ": no samples\n"),
        ("# only\n", ": no samples\n"),
        (
            "0 0 3\n5 0 5\n5 0 5\n",
            ":3: the tick is not above the one before\n",
        ),
        (
            "0 0 5\n0 0 3\n1048576 0 5\n",
            ":3: the tick is over 1,048,575 above that of the first sample\n",
        ),
        (&long, ":4097: too many samples: at most 4096 are allowed\n"),
        (
            "0 0 3\n0 0\n",
            ":2: a tick, a value and a channel are wanted, and there are 2 columns\n",
        ),
        ("0 0 3\n0 x 3\n", ":2: the value `x` is not a number\n"),
        (
            "0 0 -3\n",
            ":1: the channel `-3` is not from 0 to 4294967295\n",
        ),
        (
            "# tolerance 2/1\n0 0 3\n",
            ":1: samples are reduced already at 2/1",
        ),
        (
            "T\0\0\0\0\u{2}\0\0\u{1}A\0\0\0\0\0\0E\0\u{1}",
            ": a record, where a trace is wanted\n",
        ),
    ] {
        for runs in [["-", good], [good, "-"]] {
            let arguments = [&compare[..], &runs].concat();
            fails(&arguments, text, &format!("<stdin>{cause}"));
        }
    }
    let differs = |runs: [&str; 2], input: &str, message: &str| {
        fails(&[&compare[..], &runs].concat(), input, message);
    };
    let message = format!("{good}: channel 5 has 2 samples, and 3 in <stdin>\n");
    differs([good, "-"], "0 0 3\n0 0 5\n1 0 5\n2 0 5\n", &message);
    let message = format!("<stdin>: channel 3 has 2 samples, and 1 in {good}\n");
    differs(["-", good], "0 0 3\n1 0 3\n0 0 5\n", &message);
    let message = format!("{wave}: channel 0 has 5 samples, and 1 in <stdin>\n");
    differs([wave, "-"], "0,0\n", &message);
    // In folders.
    let folder = folders(
        "pedestals_faulty_files",
        &[("a", "0,0\n"), ("b", "0,0\n5,1\n")],
        &[("a", "0,0\n"), ("b", "0,0\n")],
    );
    let [today, yesterday] = ["today", "yesterday"].map(|run| folder.join(run));
    let (today, yesterday) = (path(&today), path(&yesterday));
    let message = format!("{today}: b has 2 samples, and 1 in {yesterday}\n");
    differs([today, yesterday], "", &message);
    for (text, cause) in [
        ("", ": no samples\n"),
        ("3,0\n3,0\n", ":2: the tick is not above the one before\n"),
        (
            "0,0,1\n",
            ":1: a tick and a value are wanted, and there are 3 columns\n",
        ),
        (
            "# tolerance 2/1\n0,0\n",
            ":1: samples are reduced already at 2/1",
        ),
    ] {
        fs::write(folder.join("yesterday/b"), text).unwrap();
        let message = format!("{yesterday}/b{cause}");
        differs([today, yesterday], "", &message);
    }
    fs::remove_file(folder.join("yesterday/b")).unwrap();
    std::os::unix::fs::symlink("nowhere", folder.join("yesterday/b")).unwrap();
    let message = format!("{yesterday}/b: No such file or directory\n");
    differs([today, yesterday], "", &message);
}

/// Up to 64 channels.
#[test]
fn sixty_four_channels() {
    let folder = folder("pedestals_sixty_four");
    let crates = |count| (0..count).map(|n| format!("0,0,{n}\n")).collect::<String>();
    let lines = [64, 65].map(|count| (folder.join(count.to_string()), crates(count)));
    lines
        .iter()
        .for_each(|(file, text)| fs::write(file, text).unwrap());
    let [most, more] = lines.each_ref().map(|(file, _)| path(file));
    let none = (0, "0 of 64 channels: 0 moved, 0 noisy\n".to_string());
    assert_eq!(compared(&folder, &["-t0", "-k1", most, most]), none);
    for runs in [[most, more], [more, most], [more, more]] {
        let message = format!("{more}: more than 64 channels in the third column\n");
        fails(
            &[&["pedestals", "-t0", "-k1"], &runs[..]].concat(),
            "",
            &message,
        );
    }
    let run = folder.join("run");
    fs::create_dir(&run).unwrap();
    let compare = ["pedestals", "-t0", "-k1", path(&run), path(&run)];
    fails(
        &compare,
        "",
        &format!("{}: no files in this folder\n", path(&run)),
    );
    for channel in 0..64 {
        fs::write(run.join(format!("{channel}")), "0,0\n").unwrap();
    }
    assert_eq!(compared(&folder, &["-t0", "-k1", "run", "run"]), none);
    fs::write(run.join("64"), "0,0\n").unwrap();
    let message = format!("{}: more than 64 files in this folder\n", path(&run));
    fails(&compare, "", &message);
}

#[test]
fn command_lines() {
    let [today, yesterday] = EXAMPLE.map(shipped);
    let runs = [path(&today), path(&yesterday)];
    for (options, cause) in [
        (&["-k2"][..], "--tolerance is missing"),
        (&["-t1"], "--noise is missing"),
        (
            &["-t1", "-k0"],
            "--noise: the noise factor is below 1 or above 16",
        ),
        (
            &["-t1", "-k17"],
            "--noise: the noise factor is below 1 or above 16",
        ),
        (
            &["-t1", "-k", "18446744073709551615"],
            "--noise: the noise factor is below 1 or above 16",
        ),
        (
            &["-t1", "-k", "18446744073709551616"],
            "--noise: the noise factor `18446744073709551616` is not from 1 to 16",
        ),
        (
            &["-t1", "-k-1"],
            "--noise: the noise factor `-1` is not from 1 to 16",
        ),
        (
            &["-t1", "-k2.5"],
            "--noise: the noise factor `2.5` is no whole number",
        ),
        (
            &["-t1", "-kx"],
            "--noise: the noise factor `x` is not a number",
        ),
        (
            &["-t1/0", "-k2"],
            "--tolerance: the tolerance is not allowed",
        ),
        (
            &["-t-1", "-k2"],
            "--tolerance: the tolerance is not allowed",
        ),
        (
            &["-t1", "-k2", "--draw", "--csv"],
            "one of --csv and --draw is wanted",
        ),
        (&["-t1", "-k2", "-o", "out"], "--output needs --draw"),
        (
            &["-t1", "-k2", "--draw=1"],
            "--draw=1: the option takes no value",
        ),
        (
            &["-t1", "-k2", "more"],
            "today's run and yesterday's are wanted",
        ),
    ] {
        let arguments = [&["pedestals"], options, &runs].concat();
        fails(&arguments, "", cause);
        let (_, _, error) = told(&run(&arguments, ""));
        assert!(
            error.ends_with("\nTry `kovrelna pedestals --help`.\n"),
            "{error}"
        );
    }
    for runs in [&[][..], &runs[..1]] {
        let arguments = [&["pedestals", "-t1", "-k2"], runs].concat();
        fails(
            &arguments,
            WAVE,
            "today's run and yesterday's are wanted\nTry",
        );
    }
    let compare = ["pedestals", "-t1", "-k2"];
    let with = |runs: [&'static str; 2]| [&compare[..], &runs].concat();
    fails(
        &with(["-", "-"]),
        WAVE,
        "standard input is wanted twice\nTry",
    );
    for runs in [["missing", "-"], ["-", "missing"]] {
        fails(&with(runs), WAVE, "missing: No such file or directory\n");
    }
    // The command line comes before what is read.
    let wrong = ["pedestals", "-t1", "-k0", "missing", "missing"];
    fails(&wrong, "", "--noise: ");
}

/// An endless input.
#[test]
fn endless() {
    let mut command = Command::new("sh");
    command.args(["-c", "yes 1,2 | \"$0\" pedestals -t1 -k1 - \"$1\"", TOOL]);
    command.arg(shipped(EXAMPLE[1]));
    let (status, printed, error) = told(&command.output().unwrap());
    assert_eq!((status, &printed[..]), (2, ""));
    let cause = "kovrelna: <stdin>:4097: too many samples: at most 4096 are allowed\n";
    assert_eq!(error, cause);
}

/// Dots at the means, the differences and the widths; the listed ones apart. The picture in the
/// documentation is what the tool draws.
#[test]
fn draws() {
    let folder = folder("pedestals_draws");
    let file = folder.join("out.svg");
    let root = shipped("");
    let draw = |options: &[&str]| compared(&root, &[&["--draw"], options, &EXAMPLE].concat());
    let (status, svg) = draw(&["-t3/2", "-k2"]);
    assert_eq!(status, 1);
    assert!(svg == fs::read_to_string(shipped("docs/pedestals.svg")).unwrap());
    let title = "<title>3 of 8 channels: 2 moved, 2 noisy, tolerance 3/2, noise 2: \
                 pedestals-today.csv, pedestals-yesterday.csv</title>";
    assert!(svg.contains(title), "{svg}");
    let counts = |class| points(&svg, class).iter().map(Vec::len).collect::<Vec<_>>();
    assert_eq!(counts("sample"), [6, 6, 6]);
    assert_eq!(counts("kept"), [2, 2, 2]);
    // To a file, with the same status.
    let written = draw(&["-t3/2", "-k2", "-o", path(&file)]);
    assert_eq!(written, (1, String::new()));
    assert!(fs::read_to_string(&file).unwrap() == svg);
    let (status, quiet) = draw(&["-t3", "-k4"]);
    assert!(status == 0 && points(&quiet, "kept").is_empty());
    let written = draw(&["-t3", "-k4", "--output", path(&file)]);
    assert_eq!(written, (0, String::new()));
    assert!(fs::read_to_string(&file).unwrap() == quiet);
    // An error leaves the file as it was.
    let wrong = [
        "pedestals",
        "--draw",
        "-t3",
        "-k4",
        "-o",
        path(&file),
        "-",
        path(&file),
    ];
    fails(&wrong, "", "<stdin>: no samples");
    assert!(fs::read_to_string(&file).unwrap() == quiet);
}

/// Channel 2 is 1 above yesterday's mean, at the limit; channel 9 is 3 below, beyond it. Of the widths
/// 0 and 1 the band of twice yesterday's reaches to 0 and 2, and today's are 1, beyond it, and 2.
#[test]
fn places_in_the_picture() {
    let folder = files(
        "pedestals_places",
        &[
            ("today", "0 10 2\n1 12 2\n0 5 9\n1 9 9\n"),
            ("<yesterday>", "0 10 2\n1 10 2\n0 9 9\n1 11 9\n"),
        ],
    );
    let arguments = ["-t1", "-k2", "--draw", "today", "<yesterday>"];
    let (status, svg) = compared(&folder, &arguments);
    assert_eq!(status, 1);
    assert!(
        svg.contains("noise 2: today, &lt;yesterday&gt;</title>"),
        "{svg}"
    );
    // From the least to the greatest of bands and dots, and room beside them.
    let place = |(top, bottom): (f64, f64), (low, high): (f64, f64), height: f64| {
        let (top, bottom) = (top + 18.0, bottom - 18.0);
        let place = bottom + (height - low) / (high - low) * (top - bottom);
        (10.0 * place).round() / 10.0
    };
    let mean = |height| place((60.0, 260.0), (7.0, 11.0), height);
    let difference = |height| place((280.0, 420.0), (-3.0, 1.0), height);
    let width = |height| place((440.0, 600.0), (0.0, 2.0), height);
    let (left, right) = (297.0, 723.0);
    let expected = [
        vec![(left, mean(11.0))],
        vec![(left, difference(1.0))],
        vec![(right, width(2.0))],
    ];
    assert_eq!(points(&svg, "sample"), expected);
    let expected = [
        vec![(right, mean(7.0))],
        vec![(right, difference(-3.0))],
        vec![(left, width(1.0))],
    ];
    assert_eq!(points(&svg, "kept"), expected);
    // The bands, with yesterday's levels in them.
    let paths = |class: &str| -> Vec<&str> {
        let begins = format!("<path class=\"{class}\" ");
        let paths = svg.lines().filter(|line| line.starts_with(&begins));
        let paths = paths.map(|line| line.split("d=\"").nth(1).unwrap());
        paths.map(|path| path.trim_end_matches("\"/>")).collect()
    };
    let band = |at: f64, low: f64, high: f64| {
        let (left, right) = (at - 22.0, at + 22.0);
        format!("M{left:.1} {low:.1}H{right:.1}V{high:.1}H{left:.1}Z")
    };
    let bands = [
        band(left, mean(9.0), mean(11.0)) + &band(right, mean(9.0), mean(11.0)),
        band(left, difference(-1.0), difference(1.0))
            + &band(right, difference(-1.0), difference(1.0)),
        band(left, width(0.0), width(0.0)) + &band(right, width(0.0), width(2.0)),
    ];
    assert_eq!(paths("band"), bands);
    let line = |at: f64, y: f64| format!("M{:.1} {y:.1}H{:.1}", at - 22.0, at + 22.0);
    let lines = [
        line(left, mean(10.0)) + &line(right, mean(10.0)),
        line(left, difference(0.0)) + &line(right, difference(0.0)),
        line(left, width(0.0)) + &line(right, width(1.0)),
    ];
    assert_eq!(paths("line"), lines);
    // Channels by their numbers, below and beside what is listed; above the dot, or below it.
    let number = |x: f64, y: f64, n: u32| format!("<text x=\"{x:.1}\" y=\"{y:.1}\">{n}</text>");
    for text in [
        number(right, mean(7.0) + 16.0, 9),
        number(right, difference(-3.0) + 16.0, 9),
        number(left, width(1.0) - 8.0, 2),
    ] {
        assert!(svg.contains(&text), "{text} {svg}");
    }
    for (x, channel) in [(left, 2), (right, 9)] {
        let text = format!("<text x=\"{x:.1}\" y=\"618\">{channel}</text>");
        assert!(svg.contains(&text), "{text}");
    }
}
