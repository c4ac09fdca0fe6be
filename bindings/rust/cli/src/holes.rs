//! Holes of a trace: two neighbouring samples that lie more ticks apart than the gap limit. A link that
//! is longer than one step and crosses one is invalid.

/// The ticks on both sides of a hole.
pub type Hole = (u32, u32);

/// The holes between these ticks, which rise; none without a gap limit.
pub fn holes(ticks: &[u32], gap: Option<u32>) -> Vec<Hole> {
    let is_hole = |&(before, after): &Hole| gap.is_some_and(|gap| after - before > gap);
    let neighbours = ticks.windows(2).map(|pair| (pair[0], pair[1]));
    neighbours.filter(is_hole).collect()
}
