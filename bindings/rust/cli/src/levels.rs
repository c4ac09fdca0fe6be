//! Pictures of two pedestal runs by channel: the means, today's minus yesterday's, and the widths, each
//! in the band that is allowed.

use crate::chart::{self, dots, path, Axis, Mark, Panel};
use crate::chart::{BAND, KEPT, LEFT, LINE, RIGHT, SAMPLE};
use std::fmt::Write;

/// A channel. Of two numbers the first is today's.
pub struct Channel {
    pub number: u32,
    pub means: (f64, f64),
    /// Today's mean minus yesterday's.
    pub difference: f64,
    pub widths: (f64, f64),
    pub moved: bool,
    pub noisy: bool,
}

/// What is drawn.
pub struct Levels {
    /// At least one.
    pub channels: Vec<Channel>,
    pub tolerance: f64,
    /// How many times yesterday's width is allowed.
    pub noise: f64,
}

/// The top and the bottom of each panel.
const MEANS: (f64, f64) = (60.0, 260.0);
const DIFFERENCES: (f64, f64) = (280.0, 420.0);
const WIDTHS: (f64, f64) = (440.0, 600.0);
/// The room for numbers at the top and at the bottom of a panel.
const EDGE: f64 = 18.0;
/// The part of a channel's room that its band takes on either side, and how much it takes at most.
const SIDE: f64 = 0.36;
const MOST: f64 = 22.0;
/// From a listed channel's dot to its number, above or below it, and the breadth of one digit.
const ABOVE: f64 = -8.0;
const BELOW: f64 = 16.0;
const DIGIT: f64 = 6.5;

const KEY: [(Mark, &str); 4] = [
    (LINE, "yesterday"),
    (SAMPLE, "today"),
    (KEPT, "today, listed"),
    (BAND, "within the limits"),
];

/// A channel in one of the panels.
struct Level {
    /// From the least to the greatest that is allowed.
    band: (f64, f64),
    yesterday: f64,
    today: f64,
    is_listed: bool,
}

/// The picture as SVG.
pub fn draw(title: &str, levels: &Levels) -> String {
    let Levels {
        channels,
        tolerance,
        noise,
    } = levels;
    let means = |channel: &Channel| {
        let (today, yesterday) = channel.means;
        Level {
            band: (yesterday - tolerance, yesterday + tolerance),
            yesterday,
            today,
            is_listed: channel.moved,
        }
    };
    let differences = |channel: &Channel| Level {
        band: (-tolerance, *tolerance),
        yesterday: 0.0,
        today: channel.difference,
        is_listed: channel.moved,
    };
    let widths = |channel: &Channel| {
        let (today, yesterday) = channel.widths;
        Level {
            band: (0.0, noise * yesterday),
            yesterday,
            today,
            is_listed: channel.noisy,
        }
    };
    let (_, bottom) = WIDTHS;
    let mut svg = chart::begun(title, &KEY, bottom);
    // Channels are as far apart whatever their numbers are.
    let x = Axis {
        low: -0.5,
        high: channels.len() as f64 - 0.5,
        from: LEFT,
        to: RIGHT,
    };
    let mut panel = |name, ends, level: &dyn Fn(&Channel) -> Level| {
        let levels: Vec<Level> = channels.iter().map(level).collect();
        let panel = panel(&x, name, ends, &levels);
        panel.scales(&mut svg);
        draw_levels(&panel, &mut svg, &levels);
        draw_numbers(&panel, &mut svg, channels, &levels);
    };
    panel("mean (ADC counts)", MEANS, &means);
    panel("difference", DIFFERENCES, &differences);
    panel("width (ADC counts)", WIDTHS, &widths);
    chart::end(&mut svg, &x, bottom, "channel", |place| {
        channels[place as usize].number.to_string()
    });
    svg
}

/// A panel with room for these levels.
fn panel<'a>(
    x: &'a Axis,
    name: &'static str,
    (top, bottom): (f64, f64),
    levels: &[Level],
) -> Panel<'a> {
    let heights = || levels.iter().flat_map(|l| [l.band.0, l.band.1, l.today]);
    let low = heights().fold(f64::INFINITY, f64::min);
    let high = heights().fold(f64::NEG_INFINITY, f64::max);
    let reach = if low < high { high - low } else { 1.0 };
    let beside = reach * EDGE / (bottom - top - 2.0 * EDGE);
    let y = Axis {
        low: low - beside,
        high: low + reach + beside,
        from: bottom,
        to: top,
    };
    Panel {
        x,
        marks: y.decimals(((bottom - top) / 30.0) as i64),
        y,
        name,
    }
}

/// The bands, yesterday's levels, and today's.
fn draw_levels(panel: &Panel, svg: &mut String, levels: &[Level]) {
    let side = MOST.min(SIDE * (RIGHT - LEFT) / levels.len() as f64);
    let (mut bands, mut lines) = (String::new(), String::new());
    let (mut within, mut listed) = (Vec::new(), Vec::new());
    for (place, level) in levels.iter().enumerate() {
        let x = place as f64;
        let (left, right) = (panel.x.place(x) - side, panel.x.place(x) + side);
        let (bottom, top) = (panel.y.place(level.band.0), panel.y.place(level.band.1));
        let _ = write!(
            bands,
            "M{left:.1} {bottom:.1}H{right:.1}V{top:.1}H{left:.1}Z"
        );
        let at = panel.y.place(level.yesterday);
        let _ = write!(lines, "M{left:.1} {at:.1}H{right:.1}");
        let dots = if level.is_listed {
            &mut listed
        } else {
            &mut within
        };
        dots.push(panel.place((x, level.today)));
    }
    path(svg, "band", "", &bands);
    path(svg, "line", "fill=\"none\" stroke-width=\"1.8\" ", &lines);
    dots(svg, "sample", 5.0, &within);
    dots(svg, "kept", 7.0, &listed);
}

/// The numbers of listed channels beside their dots, away from the bands, as far as there is room.
fn draw_numbers(panel: &Panel, svg: &mut String, channels: &[Channel], levels: &[Level]) {
    *svg += "<g class=\"ink\" text-anchor=\"middle\" font-size=\"11\">\n";
    let mut free = 0.0;
    for (place, (channel, level)) in channels.iter().zip(levels).enumerate() {
        let words = channel.number.to_string();
        let (at, side) = (
            panel.x.place(place as f64),
            words.len() as f64 * DIGIT / 2.0,
        );
        if level.is_listed && at - side >= free {
            let is_above = level.today >= level.yesterday;
            let y = panel.y.place(level.today) + if is_above { ABOVE } else { BELOW };
            let _ = writeln!(svg, "<text x=\"{at:.1}\" y=\"{y:.1}\">{words}</text>");
            free = at + side;
        }
    }
    *svg += "</g>\n";
}

#[cfg(test)]
mod tests {
    use super::*;
    use crate::chart::tests::well_formed;

    fn channel(number: u32, means: (f64, f64), widths: (f64, f64)) -> Channel {
        Channel {
            number,
            means,
            difference: means.0 - means.1,
            widths,
            moved: means.0 != means.1,
            noisy: widths.0 > widths.1,
        }
    }

    #[test]
    fn extremes() {
        let quiet = channel(0, (0.0, 0.0), (0.0, 0.0));
        let loud = channel(u32::MAX, (-32_768.0, 32_767.0), (32_767.5, 0.0));
        for channels in [
            vec![quiet],
            vec![loud],
            (0..64)
                .map(|n| channel(n, (0.5, 0.0), (1.0, 0.5)))
                .collect(),
        ] {
            for (tolerance, noise) in [(0.0, 1.0), (1.0 / 1_048_575.0, 2.0), (65_535.0, 16.0)] {
                let levels = Levels {
                    channels: channels
                        .iter()
                        .map(|c| channel(c.number, c.means, c.widths))
                        .collect(),
                    tolerance,
                    noise,
                };
                let svg = draw("a<b>&\"c\"", &levels);
                well_formed(&svg);
                assert_eq!(svg, draw("a<b>&\"c\"", &levels));
            }
        }
    }

    /// Numbers of channels that would overlap are left out.
    #[test]
    fn room_for_numbers() {
        for (first, drawn) in [(0, 64), (100, 32), (u32::MAX - 63, 13)] {
            let channels = (0..64).map(|n| channel(first + n, (1.0, 0.0), (0.0, 0.0)));
            let levels = Levels {
                channels: channels.collect(),
                tolerance: 0.0,
                noise: 1.0,
            };
            let svg = draw("", &levels);
            let panel = svg.split("font-size=\"11\">\n").nth(1).unwrap();
            let numbers = panel.split("</g>").next().unwrap();
            assert_eq!(numbers.lines().count(), drawn, "{first}");
        }
    }
}
