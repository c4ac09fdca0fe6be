//! Plots in one line of text.

use crate::curve::{Curve, Sample};

/// A character for each height, from the lowest.
pub type Marks = [char; 8];

pub const BLOCKS: Marks = ['▁', '▂', '▃', '▄', '▅', '▆', '▇', '█'];
pub const ASCII: Marks = ['.', ':', '-', '=', '+', '*', '#', '@'];

/// The straight lines between these samples, of which there is at least one, in so many columns. A column has
/// an equal part of the ticks, and shows the height there that is farthest from what the column before it
/// shows, so that no peak is passed over. The lowest height is at the first mark, the highest at the last.
pub fn plot(samples: &[Sample], columns: usize, marks: Marks) -> String {
    let curve = Curve::of(samples);
    let (low, high) = curve.range();
    let (first, mut shown) = curve.points[0];
    let (last, _) = curve.points[curve.points.len() - 1];
    let start = |column: usize| first + (last - first) * column as f64 / columns as f64;
    let mark = |column: usize| {
        let (least, greatest) = curve.cut((start(column), start(column + 1))).range();
        shown = match greatest - shown > shown - least {
            true => greatest,
            false => least,
        };
        // Values are whole: unless they are equal, they are 1 apart or more.
        let height = (shown - low) / (high - low).max(1.0);
        let mark = (height * marks.len() as f64) as usize;
        marks[mark.min(marks.len() - 1)]
    };
    (0..columns).map(mark).collect()
}

#[cfg(test)]
mod tests {
    use super::*;

    #[test]
    fn plots() {
        for (samples, columns, expected) in [
            (&[(7, 5)][..], 4, "▁▁▁▁"),
            (&[(7, -5), (9, -5)], 3, "▁▁▁"),
            (&[(0, 0), (8, 8)], 8, "▂▃▄▅▆▇██"),
            (&[(0, 8), (8, 0)], 8, "█▇▆▅▄▃▂▁"),
            (&[(0, -1), (1, 0), (2, -1)], 2, "█▁"),
            (&[(0, 0), (1, 0)], 0, ""),
            // The span and the values are the greatest that there are.
            (
                &[(u32::MAX - 1_048_575, i16::MIN), (u32::MAX, i16::MAX)],
                4,
                "▃▅▇█",
            ),
        ] {
            assert_eq!(plot(samples, columns, BLOCKS), expected, "{samples:?}");
        }
        assert_eq!(plot(&[(0, 0), (8, 8)], 8, ASCII), ":-=+*#@@");
    }

    /// Peaks and dips that are narrower than a column.
    #[test]
    fn peaks() {
        let peak = [(0, 0), (500, 0), (501, 70), (502, 0), (1_000, 0)];
        assert_eq!(plot(&peak, 9, BLOCKS), "▁▁▁▁█▁▁▁▁");
        let dip = peak.map(|(tick, value)| (tick, -value));
        assert_eq!(plot(&dip, 9, BLOCKS), "████▁████");
        assert_eq!(plot(&peak, 1, BLOCKS), "█");
    }
}
