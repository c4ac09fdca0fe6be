//! The program as it is run.

use std::process::{Command, Output};

fn run(arguments: &[&str]) -> Output {
    let tool = env!("CARGO_BIN_EXE_evidence");
    Command::new(tool).args(arguments).output().unwrap()
}

/// The report without the time.
fn report(output: &Output) -> String {
    let text = String::from_utf8_lossy(&output.stdout);
    let lines = text.lines().filter(|line| !line.starts_with("seed"));
    lines.collect::<Vec<_>>().join("\n")
}

#[test]
fn a_seed_gives_the_same_cases() {
    let arguments = ["--cases", "300", "--seed", "7"];
    let (one, two) = (run(&arguments), run(&arguments));
    assert_eq!(one.status.code(), Some(0));
    assert_eq!(report(&one), report(&two));
    let text = String::from_utf8_lossy(&one.stdout);
    assert!(text.contains("seed 7, 300 cases in "), "{text}");
    assert!(text.ends_with(" 0 disagreements\n"), "{text}");
    assert_ne!(
        report(&one),
        report(&run(&["--cases", "300", "--seed", "8"]))
    );
}

#[test]
fn one_case() {
    let output = run(&["--seed", "7", "--case", "12"]);
    assert_eq!(output.status.code(), Some(0));
    assert!(String::from_utf8_lossy(&output.stdout).contains("seed 7, 1 case in"));
}

#[test]
fn minutes_and_a_random_seed() {
    let output = run(&["--minutes", "0.001"]);
    assert_eq!(output.status.code(), Some(0));
    assert!(String::from_utf8_lossy(&output.stderr).starts_with("seed "));
}

#[test]
fn command_lines() {
    for (arguments, cause) in [
        (&["--cases"][..], "--cases: a value is missing"),
        (&["--cases", "many"], "--cases: `many` is not a number"),
        (&["--minutes", "-1"], "--minutes: `-1` is not a number"),
        (&["--minutes", "nan"], "--minutes: `nan` is not a number"),
        (&["--hours", "1"], "there is no option --hours"),
        (&["--cases", "0"], "--cases: with 0 nothing is compared"),
        (&["--case", "3"], "--case: the seed of the run is missing"),
        (&["--minutes", "0"], "--minutes: with 0 nothing is compared"),
        (
            &["--cases", "1", "--minutes", "1"],
            "--minutes: how long to run is given already",
        ),
    ] {
        let output = run(arguments);
        assert_eq!(output.status.code(), Some(2), "{arguments:?}");
        let error = String::from_utf8_lossy(&output.stderr).into_owned();
        assert!(error.starts_with(&format!("evidence: {cause}")), "{error}");
    }
    assert_eq!(run(&["--help"]).status.code(), Some(0));
}
