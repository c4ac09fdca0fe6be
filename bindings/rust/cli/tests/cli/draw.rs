//! Pictures.

use super::measure::word;
use super::{done, fails, folder, path, shipped, written, WAVE};
use kovrelna_reference::generate::{any_limited, Random};
use kovrelna_reference::{list_error, measure, reduce, worst_sample};
use kovrelna_reference::{Form, Fraction, Limits, Method};
use std::fs;

/// The picture that the tool draws.
pub fn drawn(arguments: &[&str], input: impl AsRef<[u8]>) -> String {
    String::from_utf8(done(arguments, input)).unwrap()
}

/// The points of each curve of this class, or its dots.
pub fn points(svg: &str, class: &str) -> Vec<Vec<(f64, f64)>> {
    let begins = format!("<path class=\"{class}\" ");
    let point = |point: &str| {
        let (x, y) = point.trim_end_matches("h0").split_once(' ').unwrap();
        (x.parse().unwrap(), y.parse().unwrap())
    };
    let points = |line: &str| {
        let (_, d) = line.split_once(" d=\"M").unwrap();
        let d = d.trim_end_matches("\"/>").trim_end_matches('Z');
        d.split(['M', 'L']).map(point).collect()
    };
    let curves = svg.lines().filter(|line| line.starts_with(&begins));
    curves.map(points).collect()
}

/// The picture in the documentation is what the tool draws.
#[test]
fn draws() {
    let trace = shipped("examples/pulse.csv");
    let arguments = ["draw", "-t", "8", "-m", "minimum", path(&trace)];
    let svg = drawn(&arguments, "");
    assert!(svg == fs::read_to_string(shipped("docs/pulse.svg")).unwrap());
    let title = "<title>128 samples, 12 kept by minimum, tolerance 8: pulse.csv</title>";
    assert!(svg.contains(title));
    let wave = shipped("examples/wave.record");
    let svg = drawn(&["draw", path(&wave)], "");
    assert!(svg.contains("<title>5 samples kept, tolerance 2: wave.record</title>"));
    assert!(!svg.contains("class=\"sample\""));
    let from_pipe = drawn(&["draw"], fs::read(&wave).unwrap());
    assert!(from_pipe.contains("<title>5 samples kept"));
    let message = format!("{}: a record", path(&wave));
    fails(&["draw", "-t2", path(&wave)], "", &message);
    fails(&["draw"], WAVE, "<stdin>: --tolerance is missing");
    fails(&["draw"], "T\0", "<stdin>: --tolerance is missing");
    fails(&["draw"], "# tolerance 2/1\n", "<stdin>: no samples");
    let cause = "<stdin>:3: the tick is not above the one before";
    fails(&["draw"], "# tolerance 2/1\n5,0\n3,0\n", cause);
    // The text of a record is drawn as the record is.
    let shown = done(&["show", path(&wave)], "");
    assert_eq!(
        done(&["draw"], &shown),
        done(&["draw"], fs::read(&wave).unwrap())
    );
    fails(
        &["draw", "-t2"],
        shown,
        "<stdin>:1: samples are reduced already at 2/1",
    );
    // A name is no part of the picture's text.
    let odd = folder("draws").join("a<b>&c.csv");
    fs::write(&odd, "0,0\n").unwrap();
    let svg = drawn(&["draw", "-t1", path(&odd)], "");
    let title = "<title>1 sample, 1 kept by walk, tolerance 1: a&lt;b&gt;&amp;c.csv</title>";
    assert!(svg.contains(title), "{svg}");
}

/// The tip of each arrowhead, and whether it points down.
fn arrowheads(svg: &str) -> Vec<(f64, f64, bool)> {
    let head = |line: &str| {
        let place = line.strip_prefix("<path class=\"ink\" d=\"M")?;
        let (tip, sides) = place.split_once('l').unwrap();
        let (x, y) = tip.split_once(' ').unwrap();
        let down = sides.starts_with("-4.5 -");
        Some((x.parse().unwrap(), y.parse().unwrap(), down))
    };
    svg.lines().filter_map(head).collect()
}

/// What the picture says of the worst sample, and the middle of its words.
fn worst(svg: &str) -> Option<(&str, f64)> {
    let line = svg.lines().find(|line| line.contains(">worst: "))?;
    let (place, words) = line.trim_end_matches("</text>").split_once('>').unwrap();
    let (_, x) = place.split_once(" x=\"").unwrap();
    let (x, _) = x.split_once('"').unwrap();
    Some((words, x.parse().unwrap()))
}

/// The worst sample is pointed at in both panels from the side where it lies.
#[test]
fn worst_samples() {
    for (trace, sample, words) in [
        (WAVE, 1, "worst: 2 at tick 1, above"),
        ("0,0\n1,1\n2,0\n3,-2\n4,0\n", 3, "worst: 2 at tick 3, below"),
        ("0,0\n1,1\n3,1\n", 1, "worst: 2/3 at tick 1, above"),
    ] {
        let svg = drawn(&["draw", "-t2", "-mminimum"], trace);
        let mut expected = Vec::new();
        for samples in points(&svg, "sample") {
            let (x, y) = samples[sample];
            let down = words.ends_with("above");
            expected.push((x, y + if down { -4.0 } else { 4.0 }, down));
        }
        assert_eq!(arrowheads(&svg), expected, "{words}");
        let (x, ..) = expected[0];
        assert_eq!(worst(&svg), Some((words, x)));
    }
    // Every sample is on the lines, or nothing is known of the others.
    let kept = "# tolerance 2/1\n0,0\n1,1\n2,0\n";
    let record = done(&["record", "-t2"], WAVE);
    for svg in [
        drawn(&["draw", "-t2"], "0,0\n1,1\n2,2\n"),
        drawn(&["draw", "-t0"], WAVE),
        drawn(&["draw", "-t2"], "7,9\n"),
        drawn(&["draw"], kept),
        drawn(&["draw"], record),
    ] {
        assert_eq!((arrowheads(&svg), worst(&svg)), (vec![], None), "{svg}");
    }
    // Only where the sample is drawn.
    let part = |from, to| drawn(&["draw", "-t2", "--from", from, "--to", to], WAVE);
    for (from, to, heads) in [("0", "1", 2), ("1", "1", 2), ("1", "4", 2), ("2", "4", 0)] {
        let svg = part(from, to);
        assert_eq!(arrowheads(&svg).len(), heads, "{from} {to}");
        assert_eq!(worst(&svg).is_some(), heads > 0, "{from} {to}");
    }
}

/// The words have room at both ends.
#[test]
fn worst_words() {
    let far = "4293918720,-32768\n4293918721,32767\n4294967294,-32767\n4294967295,32766\n";
    let svg = drawn(&["draw", "-t65535"], far);
    let words = "worst: 2216719261/33825 at tick 4293918721, above";
    let half = 3.5 * words.len() as f64;
    assert_eq!(worst(&svg), Some((words, 84.0 + half)));
    let near = far.replace("1,32767", "1,-32768");
    let svg = drawn(&["draw", "-t65535"], near);
    let (words, middle) = worst(&svg).unwrap();
    assert!(words.ends_with(" at tick 4294967294, below"), "{words}");
    assert_eq!(middle, 936.0 - 3.5 * words.len() as f64);
}

/// The worst sample of any list, beside the slow reference.
#[test]
fn worst_as_the_reference() {
    let random = &mut Random::new(23);
    let mut seen = [0; 3];
    for samples in (2..=40).flat_map(|samples| [samples; 4]) {
        let (trace, gap) = any_limited(samples, random);
        let (ticks, values) = (&trace.ticks, &trace.values);
        let (p, q) = random.choose(&[(0, 1), (2, 1), (7, 3), (500, 1)]);
        let limits = Limits {
            tolerance: Form::Ratio(p, q),
            gap: Some(gap),
        };
        for (name, method) in [
            ("walk", Method::Walk),
            ("gallop", Method::Gallop),
            ("minimum", Method::Minimum),
        ] {
            let (tolerance, gap) = (format!("-t{p}/{q}"), format!("--gap={gap}"));
            let svg = drawn(&["draw", &tolerance, &gap, "-m", name], written(&trace));
            let list = reduce(method, ticks, values, limits, samples).unwrap().list;
            let Fraction { p, q } = list_error(ticks, values, &list);
            if p == 0 {
                assert_eq!((arrowheads(&svg), worst(&svg)), (vec![], None));
                seen[0] += 1;
                continue;
            }
            let sample = worst_sample(ticks, values, &list);
            let link = list.windows(2).find(|link| usize::from(link[1]) > sample);
            let (i, j) = link.map(|link| (link[0].into(), link[1].into())).unwrap();
            let side = measure(ticks, values, i, j).unwrap().side;
            seen[side as usize] += 1;
            let error = match q {
                1 => p.to_string(),
                _ => format!("{p}/{q}"),
            };
            let (tick, side) = (ticks[sample], word(side));
            let expected = format!("worst: {error} at tick {tick}, {side}");
            let (words, _) = worst(&svg).unwrap();
            assert_eq!(words, expected, "{trace:?} {name}");
            let dots = points(&svg, "sample").into_iter();
            let places: Vec<f64> = dots.map(|panel| panel[sample].0).collect();
            let heads: Vec<f64> = arrowheads(&svg).iter().map(|head| head.0).collect();
            assert_eq!(heads, places, "{words}");
        }
    }
    assert!(seen.iter().min() > Some(&9), "{seen:?}");
}

/// Below the trace are the distances from the lines, in a band as high as the tolerance: at 2 the lines
/// are 0 everywhere, and the samples 0 2 0 -2 0 reach both of its edges.
#[test]
fn distances() {
    let svg = drawn(&["draw", "-t2", "-mminimum"], WAVE);
    assert!(svg.contains(">trace minus lines<"));
    let [trace, distances] = &points(&svg, "sample")[..] else {
        panic!("{svg}");
    };
    let x = |places: &[(f64, f64)]| places.iter().map(|&(x, _)| x).collect::<Vec<_>>();
    assert_eq!(x(trace), x(distances));
    let heights: Vec<f64> = distances.iter().map(|&(_, y)| y).collect();
    assert_eq!(heights, [500.0, 452.0, 500.0, 548.0, 500.0]);
    let (left, right) = (distances[0].0, distances[4].0);
    let edges = [(left, 452.0), (right, 452.0), (right, 548.0), (left, 548.0)];
    assert_eq!(points(&svg, "band")[1], edges);
    for (at, words) in [("456.5", "+2"), ("504.5", "0"), ("552.5", "-2")] {
        let text = format!("y=\"{at}\" text-anchor=\"end\">{words}<");
        assert!(svg.contains(&text), "{text}");
    }
    // The lines are not 0: samples 0, 2 and 4 are kept, and the others are 1 below the lines.
    let svg = drawn(&["draw", "-t1"], "0,0\n1,4\n2,10\n3,4\n4,0\n");
    let distances = &points(&svg, "sample")[1];
    let heights: Vec<f64> = distances.iter().map(|&(_, y)| y).collect();
    assert_eq!(heights, [500.0, 548.0, 500.0, 548.0, 500.0]);
    // Of a record alone nothing is known between its samples.
    let svg = drawn(&["draw"], done(&["record", "-t2"], WAVE));
    assert!(!svg.contains("trace minus lines"));
}

/// Only the ticks that are wanted, of what is kept of the whole trace.
#[test]
fn stretches() {
    let trace = shipped("examples/pulse.csv");
    let whole = ["draw", "-t8", "-mminimum", path(&trace)];
    let part = |options: &[&str]| drawn(&[&whole[..], options].concat(), "");
    let svg = part(&["--from", "184400", "--to=184432"]);
    let title = "<title>128 samples, 12 kept by minimum, tolerance 8, ticks 184400 to 184432: pulse.csv</title>";
    assert!(svg.contains(title), "{svg}");
    assert_eq!(
        points(&svg, "sample")
            .iter()
            .map(Vec::len)
            .collect::<Vec<_>>(),
        [9, 9]
    );
    assert_eq!(
        points(&svg, "kept")
            .iter()
            .map(Vec::len)
            .collect::<Vec<_>>(),
        [4, 4]
    );
    for class in ["band", "trace", "sample", "line", "kept"] {
        let points = points(&svg, class).concat();
        assert!(
            points.iter().all(|(x, _)| (92.0..=928.0).contains(x)),
            "{class}"
        );
    }
    // Between two samples there are lines, and no dots.
    let svg = part(&["--from=184401", "--to=184402"]);
    assert!(points(&svg, "sample").is_empty() && points(&svg, "kept").is_empty());
    assert_eq!(points(&svg, "trace").concat().len(), 4);
    assert_eq!(points(&svg, "line").concat().len(), 4);
    // One end is enough, and beyond the trace there is nothing.
    let beyond = part(&["--from", "0", "--to", "4294967295"]);
    let ticks = ", ticks 184320 to 184828";
    assert_eq!(beyond.matches(ticks).count(), 3);
    assert!(beyond.replace(ticks, "") == part(&[]));
    let end = part(&["--from", "184820"]);
    assert_eq!(points(&end, "sample")[0].len(), 3);
    let start = part(&["--to", "184320"]);
    assert_eq!(points(&start, "kept")[1].len(), 1);
    // Of a record too.
    let wave = shipped("examples/wave.record");
    let svg = drawn(&["draw", path(&wave), "--from", "2"], "");
    assert!(svg.contains("<title>5 samples kept, tolerance 2, ticks 2 to 4: wave.record</title>"));
    assert_eq!(points(&svg, "kept")[0].len(), 3);
    for (options, from, to) in [
        (["--from", "5", "--to", "4"], 5, 4),
        (["--from", "0", "--to", "9"], 0, 9),
        (["--from", "200000", "--to", "300000"], 200_000, 300_000),
    ] {
        let message = format!(
            "{}: nothing is from tick {from} to tick {to}: its ticks are from 184320 to 184828\n",
            path(&trace)
        );
        fails(&[&whole[..], &options].concat(), "", &message);
    }
    for (tick, cause) in [
        ("x", "--from: the tick `x` is not a number"),
        ("-1", "--from: the tick `-1` is not from 0 to 4294967295"),
        ("1.5", "--from: the tick `1.5` is no whole number"),
    ] {
        fails(&["draw", "-t1", "--from", tick], WAVE, cause);
    }
}
