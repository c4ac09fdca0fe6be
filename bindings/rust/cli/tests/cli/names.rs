//! Names of files that are not UTF-8: to a pipe they are printed byte for byte.

use super::{folder, run_with, shipped, TOOL, WAVE};
use std::ffi::OsStr;
use std::fs;
use std::os::unix::ffi::OsStrExt;
use std::path::Path;
use std::process::{Command, Output, Stdio};

const NAME: &[u8] = b"r\xe9sum\xe9 \xff.record";

/// Runs the tool in this folder on this file.
fn run_on(folder: &Path, arguments: &[&str], name: &[u8]) -> Output {
    let mut tool = Command::new(TOOL);
    tool.current_dir(folder).args(arguments);
    tool.arg(OsStr::from_bytes(name)).stdout(Stdio::piped());
    run_with(tool, b"")
}

#[test]
fn bytes_of_names() {
    let folder = folder("bytes_of_names");
    let wave = shipped("examples/wave.record");
    fs::copy(&wave, folder.join(OsStr::from_bytes(NAME))).unwrap();
    fs::copy(&wave, folder.join("w")).unwrap();
    let shown = run_on(&folder, &["show", "w"], NAME);
    let text = format!("# tolerance 2/1\n{WAVE}");
    let expected = [
        b"# w\n",
        text.as_bytes(),
        b"# ",
        NAME,
        b"\n",
        text.as_bytes(),
    ];
    assert_eq!(shown.stdout, expected.concat());
    let mut other = fs::read(&wave).unwrap();
    other[5] = 3;
    fs::write(folder.join("w"), other).unwrap();
    let differ = b"no: the tolerances differ\nthe tolerance is 3/1 in w, and 2/1 in ";
    let same = run_on(&folder, &["same", "w"], NAME);
    assert_eq!(same.stdout, [&differ[..], NAME, b"\n"].concat());
    let summary = run_on(&folder, &["summary"], NAME);
    let line = [b"\n5\t4\t2/1\t-2\t2\t31\t", NAME, b"\n"].concat();
    let found = summary.stdout.windows(line.len()).any(|part| part == line);
    assert!(found, "{}", String::from_utf8_lossy(&summary.stdout));
}

#[test]
fn bytes_of_names_in_folders() {
    let folder = folder("bytes_of_names_in_folders");
    for (run, text) in [("today", "0,3\n"), ("yesterday", "0,0\n")] {
        fs::create_dir(folder.join(run)).unwrap();
        fs::write(folder.join(run).join(OsStr::from_bytes(NAME)), text).unwrap();
    }
    let compare = |options: &[&str]| {
        let arguments = [&["pedestals", "-t1", "-k1", "today"], options].concat();
        run_on(&folder, &arguments, b"yesterday")
    };
    let has = |bytes: &[u8], part: &[u8]| bytes.windows(part.len()).any(|found| found == part);
    let lines = compare(&[]).stdout;
    assert!(has(&lines, &[b"  ", NAME, b"\n"].concat()));
    let files = [b",\"today/", NAME, b"\",\"yesterday/", NAME, b"\","].concat();
    assert!(has(&compare(&["--csv"]).stdout, &files));
    let file = folder.join("yesterday").join(OsStr::from_bytes(NAME));
    fs::rename(file, folder.join("yesterday/other")).unwrap();
    let cause = [b"yesterday: there is no ", NAME, b", which today has\n"].concat();
    assert_eq!(compare(&[]).stderr, [b"kovrelna: ", &cause[..]].concat());
}

#[test]
fn bytes_of_names_in_messages() {
    let folder = folder("bytes_of_names_in_messages");
    let missing = run_on(&folder, &["show"], NAME);
    let cause = b": No such file or directory\n";
    assert_eq!(missing.stderr, [b"kovrelna: ", NAME, cause].concat());
    fs::write(folder.join(OsStr::from_bytes(NAME)), "0,0\n0,0\n").unwrap();
    let wrong = run_on(&folder, &["record", "-t1"], NAME);
    let cause = b":2: the tick is not above the one before\n";
    assert_eq!(wrong.stderr, [b"kovrelna: ", NAME, cause].concat());
    fs::write(folder.join(OsStr::from_bytes(NAME)), "0,0\n1,0\n").unwrap();
    fs::write(folder.join("other"), "0,0\n2,0\n").unwrap();
    let differing = run_on(&folder, &["sum", "-t1", "other"], NAME);
    let cause = b"other:2: the ticks differ: sample 1 is at tick 2, and at tick 1 in ";
    let message = [b"kovrelna: ", &cause[..], NAME, b":2\n"].concat();
    assert_eq!(differing.stderr, message);
    // A name stays in its line.
    let missing = run_on(&folder, &["show"], b"a\n0,1\xff");
    let name = b"a\xef\xbf\xbd0,1\xff";
    let cause = b": No such file or directory\n";
    assert_eq!(missing.stderr, [&b"kovrelna: "[..], name, cause].concat());
}
