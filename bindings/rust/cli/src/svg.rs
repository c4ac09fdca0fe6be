//! Pictures of a trace: the lines that are kept of it and their tolerance band, and below it how far the
//! trace is from the lines.

use crate::budget::ratio;
use crate::chart::{self, dots, path, Axis, Mark, Panel};
use crate::chart::{BAND, KEPT, LEFT, LINE, RIGHT, SAMPLE};
use crate::curve::{parts, Curve, Point, Sample, Stretch};
use crate::holes::Hole;
use kovrelna::{Parts, Ratio, Side};
use std::fmt::Write;

/// The first sample that is farthest from its line.
pub struct Worst {
    pub tick: u32,
    /// How far it is; not 0.
    pub error: Ratio,
    pub side: Side,
}

/// What is drawn.
pub struct Picture {
    /// Every sample of the trace, if they are known.
    pub samples: Vec<Sample>,
    /// The kept samples, at least one.
    pub kept: Vec<Sample>,
    pub tolerance: Parts,
    /// The holes of the trace.
    pub holes: Vec<Hole>,
    /// None if all samples are on the lines, or only the kept ones are known.
    pub worst: Option<Worst>,
    /// The first and the last tick to be drawn; both are from the first kept sample to the last.
    pub stretch: (u32, u32),
}

impl Picture {
    /// All of it, with no worst sample.
    pub fn whole(
        samples: Vec<Sample>,
        kept: Vec<Sample>,
        tolerance: Parts,
        holes: Vec<Hole>,
    ) -> Picture {
        let tick = |sample: Option<&Sample>| sample.map_or(0, |&(tick, _)| tick);
        Picture {
            stretch: (tick(kept.first()), tick(kept.last())),
            samples,
            kept,
            tolerance,
            holes,
            worst: None,
        }
    }
}

/// How far the tolerance band reaches above and below the lines: as far as samples may lie above and below
/// them.
#[derive(Clone, Copy)]
struct Band {
    above: f64,
    below: f64,
}

impl Band {
    fn of(Parts { above, below }: Parts) -> Band {
        let number = |Ratio { p, q }: Ratio| p as f64 / q as f64;
        Band {
            above: number(above),
            below: number(below),
        }
    }
}

/// The top and the bottom of the trace's panel, and of the distances' below it.
const TRACE: (f64, f64) = (60.0, 420.0);
const DISTANCES: (f64, f64) = (440.0, 560.0);
/// The foot of the words between them.
const BETWEEN: f64 = 434.5;
/// The least distance of two marks of the lower panel: the height of their words.
const APART: f64 = 13.0;
/// Up to so many samples a line joins them.
const JOINED: usize = 600;
/// How the band of one sample is drawn, alone and beside other parts of the band.
const ALONE: &str = "stroke=\"#54aeff\" stroke-opacity=\".5\" stroke-width=\"12\" ";
const BESIDE: &str = "stroke=\"#54aeff\" stroke-opacity=\".5\" stroke-width=\"3\" ";

/// What the marks mean; without samples, from the second on.
const KEY: [(Mark, &str); 4] = [
    (SAMPLE, "samples"),
    (KEPT, "kept samples"),
    (LINE, "lines between them"),
    (BAND, "tolerance band"),
];

/// The panel of the trace and its lines.
fn trace_panel<'a>(x: &'a Axis, (low, high): (f64, f64), band: Band) -> Panel<'a> {
    let (top, bottom) = TRACE;
    // No sample is outside the band.
    let reach = (low - band.below, high + band.above);
    let y = Axis::around(reach, 0.05, (bottom, top));
    Panel {
        x,
        marks: y.wholes(7),
        y,
        name: "value (ADC counts)",
    }
}

/// The panel of the distances from the lines, as high as the band and a little more.
fn distances_panel(x: &Axis, held: Parts, band: Band) -> Panel<'_> {
    let (top, bottom) = DISTANCES;
    let greater = band.above.max(band.below);
    let more = if greater == 0.0 { 1.0 } else { 0.25 * greater };
    let y = Axis {
        low: -(band.below + more),
        high: band.above + more,
        from: bottom,
        to: top,
    };
    let mut marks = vec![(0.0, "0".to_string())];
    let (up, down) = match held.one() {
        Some(_) => ("p/q", "p/q"),
        None => ("U", "D"),
    };
    for (height, words) in [
        (band.above, format!("+{}", short(held.above, up))),
        (-band.below, format!("-{}", short(held.below, down))),
    ] {
        if (y.place(height) - y.place(0.0)).abs() >= APART {
            marks.push((height, words));
        }
    }
    Panel {
        x,
        y,
        marks,
        name: "trace minus lines",
    }
}

/// The tolerance, or a part of it, where there is room for 5 characters, or else its letter. The title has
/// all of it.
fn short(part: Ratio, letter: &str) -> String {
    match ratio(part) {
        exact if exact.len() <= 5 => exact,
        _ => letter.to_string(),
    }
}

/// The picture as SVG.
pub fn draw(title: &str, picture: &Picture) -> String {
    let band = Band::of(picture.tolerance);
    let stretch = (f64::from(picture.stretch.0), f64::from(picture.stretch.1));
    let parts = parts(stretch, &picture.holes);
    let (samples, kept) = (Curve::of(&picture.samples), Curve::of(&picture.kept));
    let with_samples = !picture.samples.is_empty();
    let (_, bottom) = if with_samples { DISTANCES } else { TRACE };
    let key = &KEY[usize::from(!with_samples)..];
    let mut svg = chart::begun(title, key, bottom);
    let x = Axis::around(stretch, 0.01, (LEFT, RIGHT));
    let panel = trace_panel(&x, kept.cut(stretch).range(), band);
    panel.scales(&mut svg);
    let lines = [stretch];
    curves(&panel, &mut svg, &samples, &kept, band, &parts, &lines);
    let (from, to) = picture.stretch;
    let worst = picture.worst.as_ref();
    let worst = worst.filter(|worst| (from..=to).contains(&worst.tick));
    if let Some(worst) = worst {
        point_at(&panel, &mut svg, &samples, worst);
    }
    if with_samples {
        let panel = distances_panel(&x, picture.tolerance, band);
        panel.scales(&mut svg);
        // The lines are at 0.
        let (samples, kept) = (samples.above(&kept), kept.above(&kept));
        curves(&panel, &mut svg, &samples, &kept, band, &parts, &parts);
        if let Some(worst) = worst {
            point_at(&panel, &mut svg, &samples, worst);
            draw_words(&x, &mut svg, worst);
        }
    }
    chart::end(&mut svg, &x, bottom, "tick", |tick| tick.to_string());
    svg
}

/// The band, the samples and the kept samples in some parts, and the lines in others.
fn curves(
    panel: &Panel,
    svg: &mut String,
    samples: &Curve,
    kept: &Curve,
    band: Band,
    parts: &[Stretch],
    lines: &[Stretch],
) {
    let places = |points: &[Point], side: f64| -> Vec<String> {
        let place = |&(tick, height): &Point| panel.place((tick, height + side));
        points.iter().map(place).collect()
    };
    for Curve { points } in kept.cuts(parts) {
        let (above, mut below) = (places(&points, band.above), places(&points, -band.below));
        below.reverse();
        // The band of one sample has no width: it is drawn as a stroke.
        let stroke = match (points.len(), parts.len()) {
            (1, 1) => ALONE,
            (1, _) => BESIDE,
            _ => "",
        };
        let around = [above, below].concat().join("L");
        path(svg, "band", stroke, &format!("M{around}Z"));
    }
    let line = |points: &[Point]| format!("M{}", places(points, 0.0).join("L"));
    if !samples.points.is_empty() {
        let joined = samples.cuts(parts);
        let count: usize = joined.iter().map(|curve| curve.points.len()).sum();
        for Curve { points } in joined {
            if points.len() > 1 && count <= JOINED {
                path(svg, "trace", "fill=\"none\" ", &line(&points));
            }
        }
    }
    let between = |curve: &Curve| -> Vec<Point> {
        let points = parts.iter().flat_map(|&part| curve.between(part));
        points.copied().collect()
    };
    dots(svg, "sample", 3.4, &places(&between(samples), 0.0));
    let joint = "fill=\"none\" stroke-width=\"1.8\" stroke-linejoin=\"round\" ";
    for Curve { points } in kept.cuts(lines) {
        path(svg, "line", joint, &line(&points));
    }
    let drawn = between(kept);
    let width = if drawn.len() > JOINED { 3.4 } else { 6.0 };
    dots(svg, "kept", width, &places(&drawn, 0.0));
}

/// An arrowhead at the worst of these samples, from the side where it lies.
fn point_at(panel: &Panel, svg: &mut String, samples: &Curve, worst: &Worst) {
    let down = if worst.side == Side::Below { 1.0 } else { -1.0 };
    let tick = f64::from(worst.tick);
    for &(tick, height) in samples.between((tick, tick)) {
        let (x, y) = (panel.x.place(tick), panel.y.place(height) + 4.0 * down);
        let head = format!("M{x:.1} {y:.1}l-4.5 {}h9Z", 8.0 * down);
        path(svg, "ink", "", &head);
    }
}

/// How far the worst sample is from its line, at its tick as far as there is room.
fn draw_words(x: &Axis, svg: &mut String, worst: &Worst) {
    let &Worst { tick, error, side } = worst;
    let words = format!("worst: {} at tick {tick}, {side}", ratio(error));
    let half = 3.5 * words.len() as f64;
    let at = x.place(tick.into()).clamp(LEFT + half, RIGHT - half);
    let _ = writeln!(
        svg,
        "<text class=\"ink\" x=\"{at:.1}\" y=\"{BETWEEN}\" text-anchor=\"middle\">{words}</text>"
    );
}

#[cfg(test)]
mod tests {
    use super::*;
    use crate::chart::tests::well_formed;

    #[test]
    fn extremes() {
        let zero = Ratio::default();
        for (samples, p, q) in [
            (vec![(0, 0)], 0, 1),
            (vec![(u32::MAX, i16::MIN)], 65_535, 1),
            (
                vec![(u32::MAX - 1, i16::MIN), (u32::MAX, i16::MAX)],
                1,
                1_048_575,
            ),
        ] {
            let part = Ratio { p, q };
            for (above, below) in [(part, part), (part, zero), (zero, part)] {
                for (known, holes) in [
                    (true, vec![]),
                    (false, vec![]),
                    (true, vec![(u32::MAX - 1, u32::MAX)]),
                ] {
                    let drawn = if known { samples.clone() } else { Vec::new() };
                    let error = Ratio { p: 1, q: 1_048_575 };
                    let (tick, side) = (samples[0].0, Side::Below);
                    let tolerance = Parts { above, below };
                    let picture = Picture {
                        worst: Some(Worst { tick, error, side }),
                        ..Picture::whole(drawn, samples.clone(), tolerance, holes)
                    };
                    let svg = draw("a<b>&\"c\"", &picture);
                    well_formed(&svg);
                    assert_eq!(svg.contains(ALONE), samples.len() == 1);
                    assert_eq!(svg.contains("trace minus lines"), known);
                    assert_eq!(svg.contains(">worst: 1/1048575 at tick "), known);
                    assert_eq!(svg, draw("a<b>&\"c\"", &picture));
                }
            }
        }
    }
}
