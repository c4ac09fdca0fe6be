//! The program `reduce` as a user runs it: bytes through a pipe, and all that it prints compared with
//! what the slow reference says of them. `make target/bin/reduce` builds it.

use kovrelna_reference::generate::{
    any_parts, content, exceptional, near_parts, squeezed, trace, Random, KINDS,
};
use kovrelna_reference::record::{
    decode, encode, end, first, long, short, tolerance, unequal, Content,
};
use kovrelna_reference::{reduce, Form, Fraction, Method, Parts};
use std::fmt::Write as _;
use std::fs::{self, File};
use std::io::{ErrorKind, Seek, Write as _};
use std::process::{Child, Command, Output, Stdio};
use std::{thread, time::Duration};

const PROGRAM: &str = concat!(env!("CARGO_MANIFEST_DIR"), "/../../target/bin/reduce");

/// The most bytes that the program reads.
const LIMIT: usize = 24_598;
const MEGABYTE: usize = 1 << 20;

/// The shipped example.
const WAVE: &[u8] = include_bytes!("../../../examples/wave.record");

fn start(stdin: Stdio) -> Child {
    Command::new(PROGRAM)
        .stdin(stdin)
        .stdout(Stdio::piped())
        .stderr(Stdio::piped())
        .spawn()
        .unwrap_or_else(|error| panic!("{PROGRAM}: {error}. Build it with `make target/bin/reduce`"))
}

/// What the program printed. It ended well and reported no error.
fn printed(output: Output) -> String {
    assert!(output.status.success(), "{output:?}");
    assert_eq!(output.stderr, b"");
    String::from_utf8(output.stdout).unwrap()
}

/// What the program prints if these pieces come through its pipe, with a pause after each but the
/// last. It need not take them all.
fn run(pieces: &[&[u8]]) -> String {
    let mut program = start(Stdio::piped());
    let mut pipe = program.stdin.take().unwrap();
    let output = thread::scope(|scope| {
        scope.spawn(move || {
            for (k, piece) in pieces.iter().enumerate() {
                if k > 0 {
                    thread::sleep(Duration::from_millis(1));
                }
                match pipe.write_all(piece) {
                    Err(error) if error.kind() == ErrorKind::BrokenPipe => return,
                    written => written.unwrap(),
                }
            }
        });
        program.wait_with_output().unwrap()
    });
    printed(output)
}

/// The text for these bytes: document 01's four lines, with both parts of the tolerance if they differ, or the
/// fault of all of them.
fn text(bytes: &[u8]) -> String {
    let content = match decode(bytes) {
        Ok(content) => content,
        Err(fault) => return format!("refused 8 at {fault}\n"),
    };
    let (ticks, values) = content.trace();
    let Parts { above, below } = content.tolerance;
    let ratio = |Fraction { p, q }: Fraction| (p as u64, q as u64);
    let form = Form::Parts(ratio(above), ratio(below));
    let mut text = format!("samples {} tolerance {}/{}", ticks.len(), above.p, above.q);
    if above != below {
        write!(text, " {}/{}", below.p, below.q).unwrap();
    }
    text.push('\n');
    for (name, method) in [
        ("walk", Method::Walk),
        ("gallop", Method::Gallop),
        ("minimum", Method::Minimum),
    ] {
        let kept = reduce(method, &ticks, &values, form, ticks.len()).unwrap();
        write!(text, "{name} {}", kept.list.len()).unwrap();
        if method == Method::Gallop {
            write!(text, " {}", kept.probes).unwrap();
        }
        for sample in kept.list {
            write!(text, " {sample}").unwrap();
        }
        text.push('\n');
    }
    text
}

/// Runs the program on these bytes and compares. Whether they are a record.
fn is_record(bytes: &[u8]) -> bool {
    let (printed, expected) = (run(&[bytes]), text(bytes));
    if printed != expected {
        let shown = &bytes[..bytes.len().min(64)];
        panic!(
            "of {} bytes {shown:02x?}\n{printed}for\n{expected}",
            bytes.len()
        );
    }
    !printed.starts_with("refused")
}

fn noise(length: usize, random: &mut Random) -> Vec<u8> {
    (0..length).map(|_| random.bits() as u8).collect()
}

/// The longest record after this tolerance: 4,096 samples by long steps.
fn longest(tolerance: Vec<u8>) -> Vec<u8> {
    let steps: Vec<u8> = (1..4_096).flat_map(|k| long(256, k % 7)).collect();
    [tolerance, first(0, 0), steps, end(4_096)].concat()
}

#[test]
fn figure() {
    let wave = Content {
        tolerance: Fraction { p: 2, q: 1 }.into(),
        samples: vec![(0, 0), (1, 2), (2, 0), (3, -2), (4, 0)],
    };
    assert_eq!(WAVE, encode(&wave));
    let lines = "samples 5 tolerance 2/1\nwalk 3 0 2 4\ngallop 2 5 0 4\nminimum 2 0 4\n";
    assert_eq!(run(&[WAVE]), lines);
    assert_eq!(text(WAVE), lines);
}

/// Document 02's figures of unequal parts: the same samples at 2/1 above and 1/1 below, and a record of 30 bytes.
/// Both ratios are printed, the part above first. A command for unequal parts with equal ones is a fault.
#[test]
fn parts() {
    let samples = &WAVE[9..];
    let with = |above, below| [&unequal(above, below)[..], samples].concat();
    let record = with((2, 1), (1, 1));
    let lines = "samples 5 tolerance 2/1 1/1\nwalk 4 0 2 3 4\ngallop 4 5 0 2 3 4\n\
                 minimum 4 0 2 3 4\n";
    assert_eq!(run(&[&record]), lines);
    assert_eq!(text(&record), lines);
    let exchanged = run(&[&with((1, 1), (2, 1))]);
    assert!(
        exchanged.starts_with("samples 5 tolerance 1/1 2/1\nwalk 4 0 1 3 4\n"),
        "{exchanged}"
    );
    let short = [unequal((2, 3), (1, 1)), first(0, 0), short(3, 1), end(2)].concat();
    assert_eq!(short.len(), 30);
    let lines = "samples 2 tolerance 2/3 1/1\nwalk 2 0 1\ngallop 2 1 0 1\nminimum 2 0 1\n";
    assert_eq!(run(&[&short]), lines);
    let bad = [(1, 1), (2, 2), (1, 0), (65_536, 1), (1, 1_048_576)];
    for bad in bad {
        for record in [with((1, 1), bad), with(bad, (1, 1)), with(bad, bad)] {
            assert_eq!(run(&[&record]), "refused 8 at 0\n", "{bad:?}");
        }
    }
    // Other parts, and traces on which they matter.
    let random = &mut Random::new(35);
    for _ in 0..30 {
        let tolerance = any_parts(random);
        let samples = content(random.within(1, 12) as usize, random).samples;
        assert!(is_record(&encode(&Content { tolerance, samples })));
        let (trace, least) = squeezed(random.within(3, 40) as usize, random);
        let near = near_parts(least, random);
        for (trace, tolerance) in [(trace, near), exceptional(random)] {
            let samples = trace.ticks.into_iter().zip(trace.values).collect();
            assert!(is_record(&encode(&Content { tolerance, samples })));
        }
    }
    // Every later fault is 8 bytes further on.
    for length in 0..record.len() {
        assert!(!is_record(&record[..length]));
    }
    assert_eq!(run(&[&record[..17]]), "refused 8 at 17\n");
    assert_eq!(run(&[&record[..25]]), "refused 8 at 24\n");
}

#[test]
fn random_records() {
    let random = &mut Random::new(31);
    for kind in KINDS {
        for most in [1, 3, 12, 12, 40, 200, 200, 1_000] {
            let samples = random.within(1, most) as usize;
            let trace = trace(kind, samples, random);
            let traced = Content {
                tolerance: content(1, random).tolerance,
                samples: trace.ticks.into_iter().zip(trace.values).collect(),
            };
            assert!(is_record(&encode(&traced)));
            assert!(is_record(&encode(&content(samples, random))));
        }
    }
}

#[test]
fn longest_records() {
    let random = &mut Random::new(32);
    for samples in [4_095, 4_096] {
        assert!(is_record(&encode(&content(samples, random))));
    }
    // With unequal parts the longest is one byte shorter than what the program reads, with equal ones nine.
    for (head, shorter) in [(unequal((5, 2), (7, 3)), 1), (tolerance(5, 2), 9)] {
        let longest = longest(head);
        let length = longest.len();
        assert_eq!(length, LIMIT - shorter);
        assert!(is_record(&longest));
        // Cut off, something after the end, and one sample more.
        for cut in [1, 3, 4, 9] {
            assert!(!is_record(&longest[..length - cut]));
        }
        for more in [1, 2, 8, 9, 10, MEGABYTE] {
            let bytes = [&longest[..], &noise(more, random)].concat();
            assert_eq!(run(&[&bytes]), format!("refused 8 at {length}\n"));
            assert!(!is_record(&bytes));
        }
        let bytes = [&longest[..length - 3], &long(256, 9), &end(4_097)].concat();
        assert!(!is_record(&bytes));
    }
}

/// Of a long file the program takes its most bytes and no more: the place after them is where it has read up to.
#[test]
fn most_bytes() {
    let path = concat!(env!("CARGO_TARGET_TMPDIR"), "/long.record");
    let longest = longest(unequal((5, 2), (7, 3)));
    fs::write(path, [longest, vec![0; MEGABYTE]].concat()).unwrap();
    let mut file = File::open(path).unwrap();
    let lent = file.try_clone().unwrap();
    let output = start(lent.into()).wait_with_output().unwrap();
    assert_eq!(printed(output), format!("refused 8 at {}\n", LIMIT - 1));
    assert_eq!(file.stream_position().unwrap(), LIMIT as u64);
    fs::remove_file(path).unwrap();
}

/// Every byte with other values, cuts at every length, and bytes after the end.
#[test]
fn damaged_records() {
    let random = &mut Random::new(33);
    let steps = [
        short(255, 127),
        long(256, 0),
        short(255, -128),
        long(1, 500),
    ]
    .concat();
    let mut seen = [0; 2];
    for head in [tolerance(2, 3), unequal((2, 3), (5, 3))] {
        let record = [&head[..], &first(5, 0), &steps, &end(5)].concat();
        for at in 0..record.len() {
            let any = random.bits() as u8;
            for change in [0x01, 0x02, 0x07, 0x10, 0x80, 0xff, any] {
                let mut damaged = record.clone();
                damaged[at] ^= change;
                seen[usize::from(is_record(&damaged))] += 1;
            }
            assert!(!is_record(&record[..at]));
        }
        for more in [&[0][..], &end(5), &record, &noise(MEGABYTE, random)] {
            assert!(!is_record(&[&record, more].concat()));
        }
    }
    assert!(seen.iter().all(|&count| count > 80), "{seen:?}");
}

#[test]
fn no_record() {
    let random = &mut Random::new(34);
    let refused = "refused 8 at 0\n";
    assert_eq!(run(&[]), refused);
    assert_eq!(run(&[&noise(MEGABYTE, random)]), refused);
    assert_eq!(run(&[&vec![0x54; MEGABYTE]]), refused);
    assert_eq!(run(&[&vec![0x42; MEGABYTE]]), refused);
    assert_eq!(run(&[&WAVE[..9]]), "refused 8 at 9\n");
    // Noise after a tolerance, and after a first sample.
    assert!(!is_record(&[&WAVE[..9], &noise(MEGABYTE, random)].concat()));
    assert!(!is_record(
        &[&WAVE[..16], &noise(MEGABYTE, random)].concat()
    ));
    // No input at all.
    let output = start(Stdio::null()).wait_with_output().unwrap();
    assert_eq!(printed(output), refused);
    let closed = Command::new("sh")
        .args(["-c", "exec \"$0\" <&-", PROGRAM])
        .output();
    assert_eq!(printed(closed.unwrap()), refused);
}

/// A pipe that delivers a record little by little.
#[test]
fn pieces() {
    for bytes in [1, 5, 9, 16] {
        let pieces: Vec<&[u8]> = WAVE.chunks(bytes).collect();
        assert_eq!(run(&pieces), text(WAVE), "{bytes}");
    }
    let longest = longest(unequal((5, 2), (7, 3)));
    let pieces: Vec<&[u8]> = longest.chunks(4_000).collect();
    assert_eq!(run(&pieces), text(&longest));
}
