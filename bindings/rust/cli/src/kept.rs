//! Pictures of kept numbers by tolerance: walk's, and the bound that they never exceed.

use crate::chart::{self, dots, path, Axis, Mark, Panel};
use crate::chart::{KEPT, LEFT, RIGHT, SAMPLE};
use std::fmt::Write;

/// What is kept at a tolerance.
pub struct Point {
    pub tolerance: f64,
    /// Walk's kept number.
    pub kept: usize,
    /// Minimum's at half the tolerance, if that is an allowed tolerance.
    pub bound: Option<usize>,
}

/// The top and the bottom of the panel.
const PANEL: (f64, f64) = (60.0, 420.0);
/// An axis is logarithmic if its greatest number is at least so many times its least.
const FAR: f64 = 8.0;
/// The part of an axis beside its numbers.
const BESIDE: f64 = 0.08;
/// The most marks of an axis.
const MARKS: i64 = 9;
/// From a dot of walk's to its number below it, and the breadth of one digit.
const BELOW: f64 = 18.0;
const DIGIT: f64 = 6.5;

/// An axis, straight or logarithmic, with words at its marks.
struct Scale {
    axis: Axis,
    is_logarithmic: bool,
    marks: Vec<(f64, String)>,
}

impl Scale {
    /// With room for these numbers, none of which is below 0; below 0 nothing is marked, and between whole
    /// numbers no others.
    fn around(numbers: &[f64], is_whole: bool, (from, to): (f64, f64)) -> Scale {
        let least = numbers.iter().copied().fold(f64::INFINITY, f64::min);
        let greatest = numbers.iter().copied().fold(0.0, f64::max);
        let is_logarithmic = least > 0.0 && greatest >= FAR * least;
        let (low, high) = match is_logarithmic {
            true => (least.log10(), greatest.log10()),
            false => (least, greatest),
        };
        let beside = if low < high {
            BESIDE * (high - low)
        } else {
            0.5
        };
        let axis = Axis {
            low: low - beside,
            high: high + beside,
            from,
            to,
        };
        let mut marks = match (is_logarithmic, is_whole) {
            (true, _) => powers(&axis),
            (false, true) => axis.wholes(MARKS),
            (false, false) => axis.decimals(MARKS),
        };
        marks.retain(|(mark, _)| is_logarithmic || *mark >= 0.0);
        Scale {
            axis,
            is_logarithmic,
            marks,
        }
    }

    /// The number as it stands on the axis.
    fn at(&self, number: f64) -> f64 {
        match self.is_logarithmic {
            true => number.log10(),
            false => number,
        }
    }
}

/// Marks of an axis of logarithms: 1, 2 and 5 times powers of ten, or powers of ten alone, as many as there is
/// room for.
fn powers(axis: &Axis) -> Vec<(f64, String)> {
    let every = [(&[1.0, 2.0, 5.0][..], 1), (&[1.0], 1), (&[1.0], 2)];
    let marks = every.map(|(digits, step)| {
        let powers = (-8..=8).filter(|power| power % step == 0);
        let numbers = powers.flat_map(|power| {
            let times = move |digit: &f64| match power {
                0.. => digit * 10f64.powi(power),
                _ => digit / 10f64.powi(-power),
            };
            digits.iter().map(times)
        });
        let marks = numbers.map(|number| (number.log10(), number.to_string()));
        let within = |(mark, _): &(f64, String)| (axis.low..=axis.high).contains(mark);
        marks.filter(within).collect::<Vec<_>>()
    });
    let [.., fewest] = &marks;
    let fits = marks.iter().find(|marks| marks.len() as i64 <= MARKS);
    fits.unwrap_or(fewest).clone()
}

/// The picture as SVG. There is at least one point, and they come by rising tolerance.
pub fn draw(title: &str, points: &[Point]) -> String {
    let without = points.iter().filter(|point| point.bound.is_none()).count();
    let bound = match without {
        0 => "proved bound: minimum at half the tolerance".to_string(),
        _ => format!(
            "proved bound: minimum at half the tolerance; none at {without} of {}, \
             as half is no allowed tolerance",
            points.len()
        ),
    };
    let key: [(Mark, &str); 2] = [(KEPT, "kept by walk"), (SAMPLE, &bound)];
    let (top, bottom) = PANEL;
    let mut svg = chart::begun(title, &key, bottom);
    let tolerances: Vec<f64> = points.iter().map(|point| point.tolerance).collect();
    let numbers = points
        .iter()
        .flat_map(|point| [Some(point.kept), point.bound])
        .flatten();
    let numbers: Vec<f64> = numbers.map(|number| number as f64).collect();
    let x = Scale::around(&tolerances, false, (LEFT, RIGHT));
    let y = Scale::around(&numbers, true, (bottom, top));
    let place = |tolerance: f64, number: usize| (x.at(tolerance), y.at(number as f64));
    let kept = points
        .iter()
        .map(|point| place(point.tolerance, point.kept))
        .collect::<Vec<_>>();
    let bounds = points
        .iter()
        .filter_map(|point| Some(place(point.tolerance, point.bound?)))
        .collect::<Vec<_>>();
    let panel = Panel {
        x: &x.axis,
        marks: y.marks.clone(),
        y: y.axis,
        name: "kept samples",
    };
    panel.scales_at(&mut svg, x.marks.iter().map(|(mark, _)| *mark));
    draw_curve(&panel, &mut svg, ("trace", "sample", 5.0), &bounds);
    draw_curve(&panel, &mut svg, ("line", "kept", 8.0), &kept);
    draw_numbers(&panel, &mut svg, points, &kept);
    chart::end_at(
        &mut svg,
        &x.axis,
        bottom,
        "tolerance (ADC counts)",
        &x.marks,
    );
    svg
}

/// Points of this class and width, and the lines between them, which have a class of their own.
fn draw_curve(
    panel: &Panel,
    svg: &mut String,
    (line, class, width): (&str, &str, f64),
    points: &[(f64, f64)],
) {
    let places: Vec<String> = points.iter().map(|&point| panel.place(point)).collect();
    if places.len() > 1 {
        let lines = format!("M{}", places.join("L"));
        path(svg, line, "fill=\"none\" stroke-width=\"1.4\" ", &lines);
    }
    dots(svg, class, width, &places);
}

/// Walk's kept numbers below their dots, as far as there is room.
fn draw_numbers(panel: &Panel, svg: &mut String, points: &[Point], places: &[(f64, f64)]) {
    *svg += "<g class=\"ink\" text-anchor=\"middle\" font-size=\"11\">\n";
    let mut free = 0.0;
    for (point, &(x, y)) in points.iter().zip(places) {
        let words = point.kept.to_string();
        let (at, side) = (panel.x.place(x), words.len() as f64 * DIGIT / 2.0);
        if at - side >= free {
            let below = panel.y.place(y) + BELOW;
            let _ = writeln!(svg, "<text x=\"{at:.1}\" y=\"{below:.1}\">{words}</text>");
            free = at + side;
        }
    }
    *svg += "</g>\n";
}

#[cfg(test)]
mod tests {
    use super::*;
    use crate::chart::tests::well_formed;

    fn point(tolerance: f64, kept: usize, bound: Option<usize>) -> Point {
        Point {
            tolerance,
            kept,
            bound,
        }
    }

    #[test]
    fn extremes() {
        let least = 1.0 / 1_048_575.0;
        for points in [
            vec![point(0.0, 1, Some(1))],
            vec![point(65_535.0, 2, None)],
            vec![point(0.0, 4_096, Some(4_096)), point(65_535.0, 2, Some(2))],
            vec![point(least, 4_096, None), point(65_535.0, 2, Some(4_096))],
            (0..16).map(|k| point(f64::from(k), 16, Some(16))).collect(),
        ] {
            let svg = draw("a<b>&\"c\"", &points);
            well_formed(&svg);
            let without = points.iter().any(|point| point.bound.is_none());
            assert_eq!(svg.contains("half is no allowed tolerance"), without);
            assert_eq!(svg, draw("a<b>&\"c\"", &points));
        }
    }

    /// The words at the marks.
    #[test]
    fn scales() {
        let words = |numbers: &[f64], is_whole| {
            let scale = Scale::around(numbers, is_whole, (0.0, 100.0));
            let marks = scale.marks.into_iter().map(|(_, words)| words);
            (scale.is_logarithmic, marks.collect::<Vec<_>>().join(" "))
        };
        for (numbers, is_logarithmic, marks) in [
            (&[1.0, 7.0][..], false, "1 2 3 4 5 6 7"),
            (&[0.0, 8.0], false, "0 1 2 3 4 5 6 7 8"),
            (&[0.5, 1.5], false, "0.6 0.8 1 1.2 1.4"),
            (&[1.0, 8.0], true, "1 2 5"),
            (&[0.25, 40.0], true, "0.2 0.5 1 2 5 10 20 50"),
            (
                &[0.015625, 65_535.0],
                true,
                "0.01 0.1 1 10 100 1000 10000 100000",
            ),
            (&[3.0], false, "2.6 2.8 3 3.2 3.4"),
            (&[0.0], false, "0 0.2 0.4"),
        ] {
            let found = words(numbers, false);
            assert_eq!(found, (is_logarithmic, marks.to_string()), "{numbers:?}");
        }
        let wide = words(&[1.0 / 1_048_575.0, 65_535.0], false);
        assert_eq!(wide.1, "0.000001 0.0001 0.01 1 100 10000");
        for (numbers, marks) in [(&[2.0, 4.0][..], "2 3 4"), (&[17.0], "17")] {
            assert_eq!(words(numbers, true), (false, marks.to_string()));
        }
    }
}
