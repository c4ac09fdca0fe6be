//! Tables of counts: a line for each trace, and the sums.

use crate::failure::{Failure, Status};
use crate::line::each;
use crate::name::joined;
use crate::output;
use crate::text::Text;
use std::ffi::{OsStr, OsString};

/// The counts of a line; none where there is nothing to count.
type Counts<const N: usize> = [Option<usize>; N];

/// Prints a line with the counts and the name of each trace; for several inputs also the sums, added
/// to `sums`.
pub fn print<const N: usize>(
    inputs: &[&OsStr],
    mut sums: Counts<N>,
    counts: impl Fn(&Text) -> Result<Counts<N>, Failure>,
) -> Result<Status, Failure> {
    let status = each(inputs, |source| {
        let text = Text::read(source)?.original()?;
        let counts = counts(&text)?;
        for (sum, count) in sums.iter_mut().zip(counts) {
            *sum = sum.zip(count).map(|(sum, count)| sum + count);
        }
        Ok(line(counts, &text.name))
    })?;
    if inputs.len() > 1 {
        output::print(line(sums, "total"))?;
    }
    Ok(status)
}

fn line<const N: usize>(counts: Counts<N>, name: impl AsRef<OsStr>) -> OsString {
    let column = |count: Option<usize>| {
        let count = count.map_or("-".to_string(), |count| count.to_string());
        format!("{count:>7} ")
    };
    joined(&[&counts.map(column).concat(), &" ", &name, &"\n"])
}
