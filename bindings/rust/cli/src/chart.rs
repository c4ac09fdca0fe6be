//! What pictures share: a title, a key, and panels with axes. The same input gives the same bytes.
//! Nothing else is needed to show a picture; its colours follow the reader's choice of a light or a dark
//! ground.

use std::fmt::Write;

const WIDTH: f64 = 960.0;
/// The edges of all panels.
pub const LEFT: f64 = 84.0;
pub const RIGHT: f64 = 936.0;
/// Below the lowest panel.
const FOOT: f64 = 60.0;

const STYLE: &str = "\
.ground{fill:#ffffff}.ink{fill:#1f2328}.quiet{fill:#59636e}.grid{stroke:#d1d9e0}.edge{stroke:#59636e}
.band{fill:#54aeff;fill-opacity:.28}.trace{stroke:#8c959f}.sample{stroke:#59636e}
.line{stroke:#0550ae}.kept{stroke:#cf222e}
@media (prefers-color-scheme:dark){
.ground{fill:#0d1117}.ink{fill:#f0f6fc}.quiet{fill:#9198a1}.grid{stroke:#2a313c}.edge{stroke:#9198a1}
.band{fill:#388bfd;fill-opacity:.36}.trace{stroke:#656c76}.sample{stroke:#9198a1}
.line{stroke:#79c0ff}.kept{stroke:#ff7b72}}
";

/// A mark in the key, with the class of what it stands for.
pub struct Mark {
    class: &'static str,
    attributes: &'static str,
    path: &'static str,
}

pub const SAMPLE: Mark = Mark {
    class: "sample",
    attributes: " stroke-width=\"3.4\" stroke-linecap=\"round\"",
    path: "M12 0h0",
};
pub const KEPT: Mark = Mark {
    class: "kept",
    attributes: " stroke-width=\"8\" stroke-linecap=\"round\"",
    path: "M12 0h0",
};
pub const LINE: Mark = Mark {
    class: "line",
    attributes: " stroke-width=\"1.8\"",
    path: "M0 0H24",
};
pub const BAND: Mark = Mark {
    class: "band",
    attributes: "",
    path: "M0 -6H24V6H0Z",
};

/// A straight axis: numbers from `low` to `high` on the way between two places.
pub struct Axis {
    pub low: f64,
    pub high: f64,
    pub from: f64,
    pub to: f64,
}

impl Axis {
    /// With room for these numbers, and a part of their difference beside them.
    pub fn around((low, high): (f64, f64), part: f64, (from, to): (f64, f64)) -> Axis {
        let beside = ((high - low) * part).max(0.5);
        Axis {
            low: low - beside,
            high: high + beside,
            from,
            to,
        }
    }

    pub fn place(&self, number: f64) -> f64 {
        self.from + (number - self.low) / (self.high - self.low) * (self.to - self.from)
    }

    /// Round numbers on the axis, at most `most` and about as many.
    pub fn marks(&self, most: i64) -> Vec<i64> {
        let (low, high) = (self.low.ceil() as i64, self.high.floor() as i64);
        let steps = (0..12).flat_map(|power| [1, 2, 5].map(|digit| digit * 10i64.pow(power)));
        let count = |step: i64| high.div_euclid(step) - (low - 1).div_euclid(step);
        let step = steps.into_iter().find(|&step| count(step) <= most);
        let step = step.unwrap_or(i64::MAX);
        let first = (low - 1).div_euclid(step) + 1;
        (0..count(step)).map(|k| (first + k) * step).collect()
    }

    /// The same as places of the axis, in words.
    pub fn wholes(&self, most: i64) -> Vec<(f64, String)> {
        let marks = self.marks(most).into_iter();
        marks.map(|mark| (mark as f64, mark.to_string())).collect()
    }

    /// Round numbers on the axis, whole or thousandths, in words.
    pub fn decimals(&self, most: i64) -> Vec<(f64, String)> {
        let thousandths = Axis {
            low: 1_000.0 * self.low,
            high: 1_000.0 * self.high,
            ..*self
        };
        let marks = thousandths.marks(most).into_iter();
        let marks = marks.map(|mark| mark as f64 / 1_000.0);
        marks.map(|mark| (mark, mark.to_string())).collect()
    }
}

/// Two axes with words at some heights, and what the heights are.
pub struct Panel<'a> {
    pub x: &'a Axis,
    pub y: Axis,
    pub marks: Vec<(f64, String)>,
    pub name: &'static str,
}

impl Panel<'_> {
    /// Both axes with the lines of the grid, and the words beside them.
    pub fn scales(&self, svg: &mut String) {
        let marks = self.x.marks(9).into_iter();
        self.scales_at(svg, marks.map(|mark| mark as f64));
    }

    /// The same with upright lines at these places of the axis.
    pub fn scales_at(&self, svg: &mut String, marks: impl Iterator<Item = f64>) {
        let (top, bottom) = (self.y.to, self.y.from);
        let (mut grid, mut words) = (String::new(), String::new());
        for mark in marks {
            let at = self.x.place(mark);
            let _ = write!(grid, "M{at:.1} {top}V{bottom}");
        }
        for (mark, text) in &self.marks {
            let at = self.y.place(*mark);
            let _ = write!(grid, "M{LEFT} {at:.1}H{RIGHT}");
            let _ = writeln!(
                words,
                "<text x=\"{}\" y=\"{:.1}\" text-anchor=\"end\">{text}</text>",
                LEFT - 8.0,
                at + 4.5
            );
        }
        let (centre, name) = ((top + bottom) / 2.0, self.name);
        let _ = write!(
            svg,
            "<path class=\"grid\" d=\"{grid}\"/>\n\
             <path class=\"edge\" fill=\"none\" d=\"M{LEFT} {top}V{bottom}H{RIGHT}\"/>\n\
             <g class=\"quiet\">\n{words}\
             <text transform=\"translate(20 {centre}) rotate(-90)\" text-anchor=\"middle\">\
             {name}</text>\n</g>\n"
        );
    }

    /// The place of a point.
    pub fn place(&self, (x, y): (f64, f64)) -> String {
        format!("{:.1} {:.1}", self.x.place(x), self.y.place(y))
    }
}

/// A picture whose lowest panel ends at `bottom`, up to its panels: the title and the key.
pub fn begun(title: &str, key: &[(Mark, &str)], bottom: f64) -> String {
    let height = bottom + FOOT;
    let title = escaped(title);
    let mut svg = format!(
        "<svg xmlns=\"http://www.w3.org/2000/svg\" viewBox=\"0 0 {WIDTH} {height}\" \
         width=\"{WIDTH}\" height=\"{height}\" role=\"img\" aria-label=\"{title}\" \
         font-family=\"system-ui,sans-serif\" font-size=\"13\">\n\
         <title>{title}</title>\n<style>\n{STYLE}</style>\n\
         <rect class=\"ground\" width=\"{WIDTH}\" height=\"{height}\"/>\n\
         <text class=\"ink\" x=\"{LEFT}\" y=\"26\" font-size=\"16\">{title}</text>\n"
    );
    let mut at = LEFT;
    for (mark, words) in key {
        let Mark {
            class,
            attributes,
            path,
        } = mark;
        let _ = writeln!(
            svg,
            "<g transform=\"translate({at} 44)\"><path class=\"{class}\"{attributes} d=\"{path}\"/>\
             <text class=\"quiet\" x=\"30\" y=\"4.5\">{words}</text></g>"
        );
        at += 60.0 + 7.0 * words.len() as f64;
    }
    svg
}

/// The words at the marks of the axis and its name, below all panels, and the picture's end.
pub fn end(svg: &mut String, x: &Axis, bottom: f64, name: &str, words: impl Fn(i64) -> String) {
    let marks = x.marks(9).into_iter();
    let marks: Vec<_> = marks.map(|mark| (mark as f64, words(mark))).collect();
    end_at(svg, x, bottom, name, &marks);
}

/// The same with these words at these places of the axis.
pub fn end_at(svg: &mut String, x: &Axis, bottom: f64, name: &str, marks: &[(f64, String)]) {
    *svg += "<g class=\"quiet\" text-anchor=\"middle\">\n";
    for (mark, words) in marks {
        let (at, below) = (x.place(*mark), bottom + 18.0);
        let _ = writeln!(svg, "<text x=\"{at:.1}\" y=\"{below}\">{words}</text>");
    }
    let (middle, below) = ((LEFT + RIGHT) / 2.0, bottom + 42.0);
    let _ = writeln!(
        svg,
        "<text x=\"{middle}\" y=\"{below}\">{name}</text>\n</g>\n</svg>"
    );
}

/// A path of this class.
pub fn path(svg: &mut String, class: &str, attributes: &str, d: &str) {
    let _ = writeln!(svg, "<path class=\"{class}\" {attributes}d=\"{d}\"/>");
}

/// Round dots of this class at these places.
pub fn dots(svg: &mut String, class: &str, width: f64, places: &[String]) {
    if !places.is_empty() {
        let round = format!("fill=\"none\" stroke-width=\"{width}\" stroke-linecap=\"round\" ");
        path(svg, class, &round, &format!("M{}h0", places.join("h0M")));
    }
}

/// The text as XML, without control characters.
fn escaped(text: &str) -> String {
    let mut escaped = String::new();
    for c in text.chars() {
        match c {
            '&' => escaped += "&amp;",
            '<' => escaped += "&lt;",
            '>' => escaped += "&gt;",
            '"' => escaped += "&quot;",
            c if c.is_control() || matches!(c, '\u{fffe}' | '\u{ffff}') => escaped.push('\u{fffd}'),
            c => escaped.push(c),
        }
    }
    escaped
}

#[cfg(test)]
pub mod tests {
    use super::*;

    fn axis(low: f64, high: f64) -> Axis {
        Axis {
            low,
            high,
            from: 0.0,
            to: 100.0,
        }
    }

    #[test]
    fn marks() {
        assert_eq!(axis(-0.5, 4.5).marks(9), [0, 1, 2, 3, 4]);
        assert_eq!(axis(-25.0, 41.0).marks(7), [-20, -10, 0, 10, 20, 30, 40]);
        assert_eq!(axis(-25.0, 41.0).marks(6), [-20, 0, 20, 40]);
        assert_eq!(axis(4.2, 4.8).marks(5), []);
        let greatest = axis(4_293_000_000.0, 4_294_967_295.0).marks(9);
        assert_eq!(greatest[0], 4_293_000_000);
        assert_eq!(axis(0.0, 200.0).place(50.0), 25.0);
    }

    /// Every element is closed, in order, by its name, and nothing stands outside the first. Quotation
    /// marks are in pairs, and `&` begins one of the entities. Every number is one.
    pub fn well_formed(svg: &str) {
        assert!(!svg.contains("NaN") && !svg.contains("inf"), "{svg}");
        let mut open = Vec::new();
        let mut parts = svg.split('<');
        assert_eq!(parts.next(), Some(""));
        for part in parts {
            let (tag, text) = part.split_once('>').expect(part);
            assert!(
                !text.contains('>') && tag.matches('"').count() % 2 == 0,
                "{part}"
            );
            let name = tag.split(['/', ' ']).find(|word| !word.is_empty());
            if tag.starts_with('/') {
                assert_eq!(open.pop(), name);
            } else if !tag.ends_with('/') {
                open.push(name.expect(part));
            }
            assert!(!open.is_empty() || text == "\n", "{part}");
            for entity in part.split('&').skip(1) {
                let known = ["amp;", "lt;", "gt;", "quot;"];
                assert!(known.iter().any(|name| entity.starts_with(name)), "{part}");
            }
        }
        assert!(open.is_empty(), "{open:?}");
    }

    #[test]
    fn escapes() {
        assert_eq!(
            escaped("a<b>&\"c\"\u{1}"),
            "a&lt;b&gt;&amp;&quot;c&quot;\u{fffd}"
        );
    }
}
