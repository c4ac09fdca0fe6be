//! Judge's second question: whether the size bound of the greedy reductions holds of a list.

use super::{done, fails, files, path, run, run_in, shipped, told, written, WAVE};
use kovrelna_reference::generate::{any_limited, any_list, spoilt, Random, Trace};
use kovrelna_reference::{
    judge_greedy, reduce, Fault, Form, Fraction, GreedyFault, Limits, METHODS,
};

const ZIGZAG: &str = "0 0\n1 3\n2 0\n3 3\n4 0\n";
/// Samples 2 and 3 lie 8 ticks apart.
const HOLE: &str = "0,0\n1,0\n2,0\n10,0\n11,0\n12,0\n";

/// The answer yes for so many samples of so many, at this tolerance and with this bound of a and b together;
/// `obeys` is what is said of the gap limit, `half` what is said of half the tolerance.
fn yes(kept: &str, at: &str, obeys: &str, sum: &str, half: &str) -> (i32, String, String) {
    let printed = format!(
        "yes\nEvery link of this list of {kept} is valid at tolerance {at}, and wherever a link ends before \
         the last sample, the link from its start to the sample after its end is not. So for all fractions a \
         and b, neither below 0, whose sum is at most {sum}: no list of the trace that has its first sample \
         and its last{obeys}, and from whose lines no sample lies more than a above or more than b below, has \
         fewer samples.{half}\n"
    );
    (0, printed, String::new())
}

const OBEYS: &str = " and obeys this gap limit";

fn half(half: &str) -> String {
    format!(" In particular no such list within {half}, half the tolerance, has fewer.")
}

/// The answer no at this link, from a sample at a tick to another, with this fault in words.
fn no(link: usize, from: (usize, u32), to: (usize, u32), fault: &str) -> (i32, String, String) {
    let sample = |(k, tick): (usize, u32)| format!("sample {k} at tick {tick}");
    let (from, to) = (sample(from), sample(to));
    let printed = format!("no at link {link}, from {from} to {to}: {fault}\n");
    (1, printed, String::new())
}

const INVALID: &str = "the link is invalid; kovrelna judge without --greedy says where it strays";

fn stop(from: usize, (next, tick): (usize, u32)) -> String {
    let link = format!("the link from sample {from} to sample {next} at tick {tick}");
    format!("the stop is at fault, as {link} is valid too")
}

/// Asks the second question with these options.
fn asked(options: &[&str], trace: &str) -> (i32, String, String) {
    told(&run(&[&["judge", "--greedy"], options].concat(), trace))
}

#[test]
fn lists() {
    let at_two = |kept: &str| yes(&format!("{kept} of 5 samples"), "2", "", "2", &half("1"));
    for (trace, list, expected) in [
        (ZIGZAG, "0,1,2,3,4", at_two("5")),
        (ZIGZAG, "0,3,4", at_two("3")),
        (ZIGZAG, "0 1 4", at_two("3")),
        (ZIGZAG, "0,4", no(0, (0, 0), (4, 4), INVALID)),
        (ZIGZAG, "0,1,2,4", no(2, (2, 2), (4, 4), INVALID)),
        (WAVE, "0,2,4", at_two("3")),
        (WAVE, "0,4", at_two("2")),
        (WAVE, "0,1,4", no(0, (0, 0), (1, 1), &stop(0, (2, 2)))),
        (WAVE, "0,3,4", no(0, (0, 0), (3, 3), INVALID)),
        (WAVE, "0,2,3,4", no(1, (2, 2), (3, 3), &stop(2, (4, 4)))),
    ] {
        assert_eq!(asked(&["-t2", "-l", list], trace), expected, "{list}");
    }
    // Without the option every list of valid links passes, and nothing else is said.
    assert_eq!(done(&["judge", "-t2", "-l0,2,3,4"], WAVE), b"yes\n");
}

/// The numbers of the sentences: of the samples, of the parts, of the gap limit.
#[test]
fn sentences() {
    for (options, trace, expected) in [
        (
            &["-t", "3/2", "-l0,1,2,3,4"][..],
            ZIGZAG,
            yes("5 of 5 samples", "3/2", "", "3/2", &half("3/4")),
        ),
        (
            &["--tolerance=0", "--list=0,5"],
            HOLE,
            yes("2 of 6 samples", "0", "", "0", &half("0")),
        ),
        // Half of this tolerance is none that is allowed.
        (
            &["-t524289/524288", "-l0"],
            "7,7\n",
            yes(
                "1 of 1 sample",
                "524289/524288",
                "",
                "524289/524288",
                &half("524289/1048576"),
            ),
        ),
        (
            &["--above", "2", "--below", "1/3", "-l0,2,3,4"],
            WAVE,
            yes("4 of 5 samples", "2 above and 1/3 below", "", "1/3", ""),
        ),
        (
            &["--above=1", "--below=2", "-l0,1,3,4"],
            WAVE,
            yes("4 of 5 samples", "1 above and 2 below", "", "1", ""),
        ),
        (
            &["--above=2/1", "--below=4/2", "-l0,4"],
            WAVE,
            yes("2 of 5 samples", "2", "", "2", &half("1")),
        ),
        (
            &["-t2/3", "--gap=7", "-l0,2,3,5"],
            HOLE,
            yes(
                "4 of 6 samples",
                "2/3 under a gap limit of 7 ticks",
                OBEYS,
                "2/3",
                &half("1/3"),
            ),
        ),
        (
            &["--above=2", "--below=1", "--gap=1", "-l0,2,3,4"],
            WAVE,
            yes(
                "4 of 5 samples",
                "2 above and 1 below under a gap limit of 1 tick",
                OBEYS,
                "1",
                "",
            ),
        ),
    ] {
        assert_eq!(asked(options, trace), expected, "{options:?}");
    }
}

#[test]
fn gap_limits() {
    for (gap, list, expected) in [
        ("7", "0,2,5", no(1, (2, 2), (5, 12), INVALID)),
        ("7", "0,2,3,4,5", no(2, (3, 10), (4, 11), &stop(3, (5, 12)))),
        ("8", "0,2,3,5", no(0, (0, 0), (2, 2), &stop(0, (3, 10)))),
    ] {
        let options = ["-t0", "--gap", gap, "-l", list];
        assert_eq!(asked(&options, HOLE), expected, "{gap} {list}");
    }
}

/// Refusals and wrong command lines are those of the first question.
#[test]
fn refused() {
    let folder = files(
        "greedy_refused",
        &[("list", "0\n3 3\n4\n"), ("good", "0 # the first\n3\n4\n")],
    );
    let (list, good) = (folder.join("list"), folder.join("good"));
    let (list, good) = (path(&list), path(&good));
    let entry = format!("{list}:2: no kept list: entry 2 is bad\n");
    let short = "--list: no kept list: it does not end with the last sample\n";
    for (options, trace, message) in [
        (&["-t2", "-l0,3"][..], ZIGZAG, short),
        (
            &["-t2", "-l0,9"],
            ZIGZAG,
            "--list: no kept list: entry 1 is bad\n",
        ),
        (&["-t2", "-f", list], ZIGZAG, &entry),
        (&["-t2", "-f", good, "-l0,4"], ZIGZAG, "one of --list"),
        (&["-t2"], ZIGZAG, "one of --list"),
        (&["-t2", "-f-"], ZIGZAG, "standard input is wanted twice"),
        (&["-l0,4"], ZIGZAG, "--tolerance is missing"),
        (
            &["-t1/0", "-l0,4"],
            ZIGZAG,
            "--tolerance: the tolerance is not allowed",
        ),
        (
            &["-t2", "--gap=0", "-l0,4"],
            ZIGZAG,
            "--gap: the gap limit is below 1",
        ),
        (&["--above=2", "-l0,4"], ZIGZAG, "--above needs --below"),
        (
            &["-t2", "--greedy", "-l0,4"],
            ZIGZAG,
            "--greedy: the option is given twice",
        ),
        (
            &["-t2", "--greedy=yes", "-l0,4"],
            ZIGZAG,
            "--greedy=yes: the option takes no value",
        ),
        (
            &["-t2", "-l0,1"],
            "5,0\n5,0\n",
            "<stdin>:2: the tick is not above",
        ),
        (&["-t2", "-l0"], "", "<stdin>: no samples"),
        (
            &["-t2", "-l0,1"],
            "# tolerance 2/1\n0,0\n1,0\n",
            "<stdin>:1: samples are reduced already at 2/1",
        ),
    ] {
        fails(
            &[&["judge"], options, &["--greedy"]].concat(),
            trace,
            message,
        );
    }
    let answer = asked(&["-t2", "-f", good], ZIGZAG);
    assert_eq!(answer, yes("3 of 5 samples", "2", "", "2", &half("1")));
}

/// The shipped list of the shipped trace, at its tolerance and at another.
#[test]
fn shipped_list() {
    let folder = shipped("examples");
    let judged = |tolerance| {
        let arguments = ["judge", "--greedy", tolerance, "-fpulse.list", "pulse.csv"];
        told(&run_in(&folder, &arguments))
    };
    let expected = yes("14 of 128 samples", "8", "", "8", &half("4"));
    assert_eq!(judged("-t8"), expected);
    let next = stop(10, (13, 184_372));
    assert_eq!(judged("-t9"), no(1, (10, 184_360), (12, 184_368), &next));
}

/// Random traces, parts and gap limits, beside the slow reference: the list of walk, gallop or minimum, the
/// same with one entry changed, and another.
#[test]
fn as_the_reference() {
    let random = &mut Random::new(75);
    // Yes, and each fault.
    let mut seen = [0; 3];
    for _ in 0..60 {
        let samples = random.within(1, 30) as usize;
        let (trace, gap) = any_limited(samples, random);
        let Trace { ticks, values } = &trace;
        let above = (random.below(40), 1 + random.below(3));
        let other = (random.below(40), 1 + random.below(3));
        let below = random.choose(&[above, other]);
        let limits = Limits {
            tolerance: Form::Parts(above, below),
            gap: Some(gap),
        };
        let method = random.choose(&METHODS);
        let kept = reduce(method, ticks, values, limits, samples).unwrap().list;
        let other = any_list(ticks, gap, random);
        for list in [spoilt(&kept, samples, random), kept, other] {
            let entries: Vec<String> = list.iter().map(u16::to_string).collect();
            let part = |(p, q): (u64, u64)| format!("{p}/{q}");
            let [u, d, gap] = [
                format!("--above={}", part(above)),
                format!("--below={}", part(below)),
                format!("--gap={gap}"),
            ];
            let options = [&u[..], &d, &gap, "-l", &entries.join(",")];
            let answer = asked(&options, &written(&trace));
            let place = |k: usize| (k, ticks[k]);
            let expected = match judge_greedy(ticks, values, &list, limits).unwrap() {
                None => {
                    seen[0] += 1;
                    passed(list.len(), samples, limits)
                }
                Some(GreedyFault { link, fault }) => {
                    let (i, j) = (usize::from(list[link]), usize::from(list[link + 1]));
                    let fault = match fault {
                        Fault::Link => {
                            seen[1] += 1;
                            INVALID.to_string()
                        }
                        Fault::Stop => {
                            seen[2] += 1;
                            stop(i, place(j + 1))
                        }
                    };
                    no(link, place(i), place(j), &fault)
                }
            };
            assert_eq!(answer, expected, "{options:?} {trace:?}");
        }
    }
    assert!(seen.iter().all(|&count| count > 15), "{seen:?}");
}

/// The answer yes for so many samples of so many, under these limits.
fn passed(kept: usize, samples: usize, limits: Limits<Form>) -> (i32, String, String) {
    let ratio = |Fraction { p, q }: Fraction| match q {
        1 => p.to_string(),
        _ => format!("{p}/{q}"),
    };
    let plural = |count: u32| if count == 1 { "" } else { "s" };
    let tolerance = limits.held().unwrap().tolerance;
    let smaller = tolerance.smaller();
    let (parts, half) = match tolerance.one() {
        Some(one) => (ratio(one), half(&ratio(one.half().lowest()))),
        None => {
            let [above, below] = [tolerance.above, tolerance.below].map(ratio);
            (format!("{above} above and {below} below"), String::new())
        }
    };
    let gap = limits.gap.unwrap();
    let at = format!("{parts} under a gap limit of {gap} tick{}", plural(gap));
    let kept = format!("{kept} of {samples} sample{}", plural(samples as u32));
    yes(&kept, &at, OBEYS, &ratio(smaller), &half)
}
