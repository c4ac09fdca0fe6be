//! `evidence`: compares the library with the slow reference on random and adversarial traces, crates,
//! pedestal runs, range tables and damaged records, for so many cases or minutes, and reports what was
//! compared and what differed.

use kovrelna_evidence::calls::{CALLS, ROWS};
use kovrelna_evidence::cases;
use kovrelna_evidence::run::{one, random, run, Disagreement, Until};
use kovrelna_reference::generate::Random;
use std::collections::hash_map::RandomState;
use std::env;
use std::hash::{BuildHasher, Hasher};
use std::io::{self, Write};
use std::panic;
use std::process::ExitCode;
use std::time::{Duration, Instant};

const HELP: &str = "\
Compares the library with the slow reference on random and adversarial traces,
crates, pedestal runs, range tables and damaged records. Prints how often each
call was compared, by answer and by refusal and at tolerances with unequal
parts, and how many cases differed.

Usage: evidence [--cases N | --minutes M] [--seed S]
       evidence --seed S --case K

  --cases N    run N cases (10,000 if nothing is given)
  --minutes M  run for M minutes, such as 60 or 0.1
  --seed S     draw from this seed; a random one is drawn and printed otherwise
  --case K     run this case alone, as an earlier run with that seed did

What differs is printed with its seed, its case and its input; left is the
library's answer, right the reference's.

Exit status: 0 no difference, 1 a difference, 2 wrong command line.
";

/// So many differences are printed in full.
const PRINTED: u64 = 5;

struct Options {
    until: Until,
    seed: u64,
    case: Option<u64>,
}

fn options() -> Result<Option<Options>, String> {
    let (mut until, mut seed, mut case) = (None, None, None);
    let mut arguments = env::args_os().skip(1);
    while let Some(option) = arguments.next() {
        let option = option.to_string_lossy().into_owned();
        if option == "--help" || option == "-h" {
            return Ok(None);
        }
        let value = arguments
            .next()
            .ok_or(format!("{option}: a value is missing"))?;
        let value = value.to_string_lossy();
        let wrong = |_| format!("{option}: `{value}` is not a number");
        let number = || value.parse::<u64>().map_err(|_| wrong(()));
        match &option[..] {
            "--cases" | "--minutes" if until.is_some() => {
                return Err(format!("{option}: how long to run is given already"));
            }
            "--cases" => until = Some(Until::Cases(number()?)),
            "--minutes" => {
                let minutes = value.parse::<f64>().map_err(|_| wrong(()))?;
                let time = Duration::try_from_secs_f64(60.0 * minutes).map_err(|_| wrong(()))?;
                until = Some(Until::Elapsed(time));
            }
            "--seed" => seed = Some(number()?),
            "--case" => case = Some(number()?),
            _ => return Err(format!("there is no option {option}")),
        }
        if let Some(Until::Cases(0) | Until::Elapsed(Duration::ZERO)) = until {
            return Err(format!("{option}: with 0 nothing is compared"));
        }
    }
    if case.is_some() && seed.is_none() {
        return Err("--case: the seed of the run is missing".to_string());
    }
    Ok(Some(Options {
        until: until.unwrap_or(Until::Cases(10_000)),
        seed: seed.unwrap_or_else(|| RandomState::new().build_hasher().finish()),
        case,
    }))
}

fn main() -> ExitCode {
    let options = match options() {
        Ok(Some(options)) => options,
        Ok(None) => {
            let written = io::stdout().write_all(HELP.as_bytes());
            return ExitCode::from(if written.is_ok() { 0 } else { 2 });
        }
        Err(cause) => {
            let _ = writeln!(io::stderr(), "evidence: {cause}\nTry `evidence --help`.");
            return ExitCode::from(2);
        }
    };
    // A check that fails is reported with its case.
    panic::set_hook(Box::new(|_| ()));
    let differed = compare(&options);
    let report = report(&options, &differed);
    if io::stdout().write_all(report.as_bytes()).is_err() {
        return ExitCode::from(2);
    }
    ExitCode::from(u8::from(differed.count > 0))
}

/// How many cases were run, how long that took, and which differed.
#[derive(Default)]
struct Differed {
    cases: u64,
    time: Duration,
    count: u64,
    first: Option<u64>,
}

/// Runs the cases; tells standard error how far they are, about once a second, and what differs.
fn compare(options: &Options) -> Differed {
    let seed = options.seed;
    let _ = writeln!(io::stderr(), "seed {seed}");
    let case = |random: &mut Random| (cases::any(random).case)(random);
    let mut differed = Differed::default();
    let begun = Instant::now();
    let mut told = begun;
    let mut after = |cases: u64, disagreement: Option<Disagreement>| {
        if let Some(Disagreement { case, what }) = disagreement {
            differed.count += 1;
            differed.first.get_or_insert(case);
            if differed.count <= PRINTED {
                let sort = cases::any(&mut random(seed, case)).name;
                let _ = writeln!(io::stderr(), "seed {seed} case {case} ({sort}): {what}");
            }
        }
        if told.elapsed() >= Duration::from_secs(1) {
            told = Instant::now();
            let (seconds, count) = (begun.elapsed().as_secs(), differed.count);
            let (cases, count) = (counted(cases, "case"), counted(count, "disagreement"));
            let _ = writeln!(io::stderr(), "{seconds} s: {cases}, {count}");
        }
    };
    differed.cases = match options.case {
        Some(number) => {
            after(1, one(seed, number, case));
            1
        }
        None => run(seed, options.until, case, after),
    };
    differed.time = begun.elapsed();
    differed
}

/// What was compared, as a table: for each call how often it answered, how often each row of the table of
/// refusals was due, and how often of both a tolerance had unequal parts.
fn report(options: &Options, differed: &Differed) -> String {
    let mut report = format!("{:<12}{:>10}{:>10}", "call", "answered", "unequal");
    for row in 1..=ROWS {
        report += &format!("{:>9}", format!("row {row}"));
    }
    for call in CALLS {
        let counts = call.counts();
        let unequal = match call.has_tolerance() {
            true => call.unequal().to_string(),
            false => "-".into(),
        };
        report += &format!("\n{:<12}{:>10}{unequal:>10}", call.name(), counts[0]);
        for (row, count) in counts.iter().enumerate().skip(1) {
            let has = call.rows().contains(&(row as u32));
            let shown = if has { count.to_string() } else { "-".into() };
            report += &format!("{shown:>9}");
        }
    }
    let Differed {
        cases, time, count, ..
    } = differed;
    let (seed, time) = (options.seed, time.as_secs_f64());
    let (cases, count) = (counted(*cases, "case"), counted(*count, "disagreement"));
    report += &format!("\nseed {seed}, {cases} in {time:.1} s, {count}\n");
    if let Some(case) = differed.first {
        report += &format!("the first again: make evidence SEED={seed} CASE={case}\n");
    }
    report
}

/// So many of these, in words.
fn counted(count: u64, what: &str) -> String {
    format!("{count} {what}{}", if count == 1 { "" } else { "s" })
}
