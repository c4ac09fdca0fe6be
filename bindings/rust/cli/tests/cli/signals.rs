//! Runs that are ended while they write a file: the file is as it was, and no other is left beside it.

use super::{done, folder, path, run_with, shipped, told, TOOL, WAVE};
use std::fs;
use std::io::{BufRead, BufReader, Write};
use std::os::unix::process::ExitStatusExt;
use std::path::{Path, PathBuf};
use std::process::{Child, ChildStderr, Command, ExitStatus, Stdio};

/// Makes every flush to the disk wait for a signal, and tell so.
const WAIT: &str = "\
#include <unistd.h>
int fsync(int descriptor) {
    (void)descriptor;
    if (write(2, \"waiting\\n\", 8) != 8) _exit(9);
    for (;;) pause();
}
";

/// A library with `WAIT`, to be loaded before others, and an empty folder for this test.
fn library_and_folder(test: &str) -> (PathBuf, PathBuf) {
    let place = folder(&format!("{test}_library"));
    let (source, library) = (place.join("wait.c"), place.join("wait.so"));
    fs::write(&source, WAIT).unwrap();
    let mut compiler = Command::new("cc");
    compiler.args(["-shared", "-fPIC", "-o", path(&library), path(&source)]);
    assert!(compiler.status().unwrap().success());
    (library, folder(test))
}

/// A run that has written all of a new file, and waits before it gives it its name.
struct Waiting {
    child: Child,
    error: BufReader<ChildStderr>,
}

impl Waiting {
    /// Runs the tool on the wave, with the output in this folder; the shell does this before.
    fn start(library: &Path, folder: &Path, before: &str) -> Waiting {
        let script = format!("{before}; LD_PRELOAD=\"$1\" exec \"$0\" record -t2 -o out");
        let mut shell = Command::new("sh");
        shell.args(["-c", &script, TOOL, path(library)]);
        shell.current_dir(folder);
        shell.stdin(Stdio::piped()).stderr(Stdio::piped());
        let mut child = shell.spawn().unwrap();
        let input = child.stdin.take();
        input.unwrap().write_all(WAVE.as_bytes()).unwrap();
        let mut error = BufReader::new(child.stderr.take().unwrap());
        let mut line = String::new();
        error.read_line(&mut line).unwrap();
        assert_eq!(line, "waiting\n");
        Waiting { child, error }
    }

    /// How it ends; it tells nothing more.
    fn end(mut self, signal: &str) -> ExitStatus {
        send(&self.child, signal);
        let status = self.child.wait().unwrap();
        let mut line = String::new();
        self.error.read_line(&mut line).unwrap();
        assert_eq!(line, "");
        status
    }
}

impl Drop for Waiting {
    fn drop(&mut self) {
        let _ = self.child.kill();
        let _ = self.child.wait();
    }
}

/// Sends this signal to a run.
pub fn send(run: &Child, signal: &str) {
    let script = format!("kill -{signal} {}", run.id());
    let sent = Command::new("sh").args(["-c", &script]).status();
    assert!(sent.unwrap().success());
}

/// Whether this signal is ignored here, and so by what is run: as in the background of a script.
pub fn is_ignored(number: u32) -> bool {
    let status = fs::read_to_string("/proc/self/status").unwrap();
    let mask = status.lines().find_map(|line| line.strip_prefix("SigIgn:"));
    let mask = u64::from_str_radix(mask.unwrap().trim(), 16).unwrap();
    mask >> (number - 1) & 1 == 1
}

/// The names in a folder, in order.
fn names(folder: &Path) -> Vec<String> {
    let names = fs::read_dir(folder).unwrap();
    let name = |entry: std::io::Result<fs::DirEntry>| entry.unwrap().file_name();
    let mut names: Vec<String> = names
        .map(|entry| name(entry).into_string().unwrap())
        .collect();
    names.sort();
    names
}

#[test]
fn ended_by_signals() {
    let (library, folder) = library_and_folder("ended_by_signals");
    fs::write(folder.join("out"), "before").unwrap();
    for (signal, number) in [("HUP", 1), ("INT", 2), ("QUIT", 3), ("TERM", 15)] {
        if is_ignored(number) {
            continue;
        }
        let run = Waiting::start(&library, &folder, "ulimit -c 0");
        assert_eq!(names(&folder), [".kovrelna-0-out", "out"], "{signal}");
        let status = run.end(signal);
        assert_eq!(status.signal(), Some(number as i32), "{status}");
        assert_eq!(names(&folder), ["out"], "{signal}");
    }
    assert_eq!(fs::read(folder.join("out")).unwrap(), b"before");
}

/// The limit of a file's size, where the signal for it is not ignored.
#[test]
fn ended_by_a_limit() {
    if is_ignored(25) {
        return;
    }
    let folder = folder("ended_by_a_limit");
    let script = "ulimit -c 0; ulimit -f 1; exec \"$0\" draw -t1 \"$1\" -o out";
    let mut shell = Command::new("sh");
    shell.args(["-c", script, TOOL, path(&shipped("examples/pulse.csv"))]);
    shell.current_dir(&folder);
    let output = run_with(shell, b"");
    assert_eq!(output.status.signal(), Some(25), "{output:?}");
    assert_eq!(names(&folder), [""; 0]);
}

/// As under nohup: a signal that is ignored does not end the tool.
#[test]
fn ignored_signals() {
    let (library, folder) = library_and_folder("ignored_signals");
    let run = Waiting::start(&library, &folder, "trap '' HUP INT");
    send(&run.child, "HUP");
    send(&run.child, "INT");
    assert_eq!(run.end("TERM").signal(), Some(15));
    assert_eq!(names(&folder), [""; 0]);
}

/// What a run that was killed left behind is removed by the next that writes the same file.
#[test]
fn killed() {
    let (library, folder) = library_and_folder("killed");
    let run = Waiting::start(&library, &folder, ":");
    assert_eq!(run.end("KILL").signal(), Some(9));
    assert_eq!(names(&folder), [".kovrelna-0-out"]);
    let (other, out) = (folder.join("other"), folder.join("out"));
    done(&["record", "-t2", "-o", path(&other)], WAVE);
    assert_eq!(names(&folder), [".kovrelna-0-out", "other"]);
    done(&["record", "-t2", "-o", path(&out)], WAVE);
    assert_eq!(names(&folder), ["other", "out"]);
    assert_eq!(fs::read(&out).unwrap(), fs::read(&other).unwrap());
}

/// What another process is writing is not removed.
#[test]
fn two_at_once() {
    let (library, folder) = library_and_folder("two_at_once");
    let out = folder.join("out");
    let first = Waiting::start(&library, &folder, ":");
    done(&["record", "-t1", "-o", path(&out)], WAVE);
    assert_eq!(names(&folder), [".kovrelna-0-out", "out"]);
    let second = Waiting::start(&library, &folder, ":");
    let both = [".kovrelna-0-out", ".kovrelna-1-out", "out"];
    assert_eq!(names(&folder), both);
    assert_eq!(first.end("TERM").signal(), Some(15));
    assert_eq!(names(&folder), both[1..]);
    assert_eq!(second.end("TERM").signal(), Some(15));
    assert_eq!(names(&folder), ["out"]);
    assert_eq!(fs::read(&out).unwrap(), done(&["record", "-t1"], WAVE));
}

/// What has such a name and is no file that the tool left behind stays, and another name is taken.
#[test]
fn other_files() {
    let folder = folder("other_files");
    let out = folder.join("out");
    fs::create_dir(folder.join(".kovrelna-0-out")).unwrap();
    std::os::unix::fs::symlink("kept", folder.join(".kovrelna-1-out")).unwrap();
    fs::write(folder.join("kept"), "kept").unwrap();
    let before = names(&folder);
    done(&["record", "-t2", "-o", path(&out)], WAVE);
    assert_eq!(names(&folder), [&before[..], &["out".to_string()]].concat());
    assert_eq!(fs::read(folder.join("kept")).unwrap(), b"kept");
}

/// Many runs at once that write the same file: each succeeds, and the file is one of theirs.
#[test]
fn many_at_once() {
    let folder = folder("many_at_once");
    let out = folder.join("out");
    let runs: Vec<Child> = (0..300)
        .map(|k| {
            let mut tool = Command::new(TOOL);
            tool.args(["record", &format!("-t{}", k % 2 + 1), "-o", path(&out)]);
            tool.arg(shipped("examples/pulse.csv"));
            tool.stderr(Stdio::piped()).spawn().unwrap()
        })
        .collect();
    for run in runs {
        let output = run.wait_with_output().unwrap();
        assert_eq!(told(&output), (0, "".into(), "".into()));
    }
    assert_eq!(names(&folder), ["out"]);
    let pulse = shipped("examples/pulse.csv");
    let whole = ["-t1", "-t2"].map(|tolerance| done(&["record", tolerance, path(&pulse)], ""));
    assert!(whole.contains(&fs::read(&out).unwrap()));
}
