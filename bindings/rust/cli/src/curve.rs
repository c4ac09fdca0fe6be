//! Curves of straight lines.

use crate::holes::Hole;
use std::iter::once;

/// A tick and a value.
pub type Sample = (u32, i16);

/// A tick, and a value or a distance.
pub type Point = (f64, f64);

/// From one tick to another.
pub type Stretch = (f64, f64);

/// What is left of a stretch without these holes, which come by rising ticks.
pub fn parts((from, to): Stretch, holes: &[Hole]) -> Vec<Stretch> {
    let starts = holes.iter().map(|&(_, after)| from.max(after.into()));
    let ends = holes.iter().map(|&(before, _)| to.min(before.into()));
    let parts = once(from).chain(starts).zip(ends.chain(once(to)));
    parts.filter(|(start, end)| start <= end).collect()
}

/// Points by rising ticks, and the straight lines between them.
pub struct Curve {
    pub points: Vec<Point>,
}

impl Curve {
    pub fn of(samples: &[Sample]) -> Curve {
        let point = |&(tick, value): &Sample| (f64::from(tick), f64::from(value));
        Curve {
            points: samples.iter().map(point).collect(),
        }
    }

    /// The height at this tick, which is from the first point to the last.
    fn at(&self, tick: f64) -> f64 {
        let after = self.points.partition_point(|&(other, _)| other < tick);
        let (u, w) = self.points[after];
        match after.checked_sub(1).map(|before| self.points[before]) {
            Some((t, v)) if tick < u => v + (w - v) * (tick - t) / (u - t),
            _ => w,
        }
    }

    /// The points from one tick to another.
    pub fn between(&self, (from, to): Stretch) -> &[Point] {
        let start = self.points.partition_point(|&(tick, _)| tick < from);
        let end = self.points.partition_point(|&(tick, _)| tick <= to);
        &self.points[start..end]
    }

    /// The curve from one tick to another, which are from the first point to the last.
    pub fn cut(&self, (from, to): Stretch) -> Curve {
        let mut points = vec![(from, self.at(from)), (to, self.at(to))];
        points.splice(1..1, self.between((from, to)).iter().copied());
        points.dedup();
        Curve { points }
    }

    /// The curve in each of these parts.
    pub fn cuts(&self, parts: &[Stretch]) -> Vec<Curve> {
        parts.iter().map(|&part| self.cut(part)).collect()
    }

    /// How far this curve is above the other, at each of its points.
    pub fn above(&self, other: &Curve) -> Curve {
        let above = |&(tick, height): &Point| (tick, height - other.at(tick));
        Curve {
            points: self.points.iter().map(above).collect(),
        }
    }

    /// The least and the greatest height.
    pub fn range(&self) -> (f64, f64) {
        let heights = || self.points.iter().map(|&(_, height)| height);
        (
            heights().fold(f64::INFINITY, f64::min),
            heights().fold(f64::NEG_INFINITY, f64::max),
        )
    }
}

#[cfg(test)]
mod tests {
    use super::*;

    #[test]
    fn holes() {
        let holes = [(2, 10), (10, 15), (17, 30)];
        for (stretch, left) in [
            (
                (0.0, 40.0),
                vec![(0.0, 2.0), (10.0, 10.0), (15.0, 17.0), (30.0, 40.0)],
            ),
            (
                (2.0, 30.0),
                vec![(2.0, 2.0), (10.0, 10.0), (15.0, 17.0), (30.0, 30.0)],
            ),
            ((1.0, 5.0), vec![(1.0, 2.0)]),
            ((5.0, 16.0), vec![(10.0, 10.0), (15.0, 16.0)]),
            ((15.0, 16.0), vec![(15.0, 16.0)]),
            ((3.0, 9.0), vec![]),
        ] {
            assert_eq!(parts(stretch, &holes), left);
        }
        assert_eq!(parts((3.0, 3.0), &[]), [(3.0, 3.0)]);
    }

    #[test]
    fn curves() {
        let curve = Curve::of(&[(0, 0), (4, 8), (6, -2)]);
        assert_eq!(
            [0.0, 1.0, 4.0, 5.0, 6.0].map(|tick| curve.at(tick)),
            [0.0, 2.0, 8.0, 3.0, -2.0]
        );
        for (stretch, cut) in [
            ((0.0, 6.0), vec![(0.0, 0.0), (4.0, 8.0), (6.0, -2.0)]),
            ((1.0, 5.0), vec![(1.0, 2.0), (4.0, 8.0), (5.0, 3.0)]),
            ((1.0, 3.0), vec![(1.0, 2.0), (3.0, 6.0)]),
            ((4.0, 6.0), vec![(4.0, 8.0), (6.0, -2.0)]),
            ((4.0, 4.0), vec![(4.0, 8.0)]),
            ((5.0, 5.0), vec![(5.0, 3.0)]),
        ] {
            assert_eq!(curve.cut(stretch).points, cut);
        }
        assert_eq!(curve.range(), (-2.0, 8.0));
        let lines = Curve::of(&[(0, 0), (6, -6)]);
        assert_eq!(
            curve.above(&lines).points,
            [(0.0, 0.0), (4.0, 12.0), (6.0, 4.0)]
        );
    }
}
