//! Tables: columns of equal width, and fields of CSV.

use crate::name::joined;
use kovrelna::{Parts, Ratio};
use std::ffi::{OsStr, OsString};
use std::iter::repeat_n;
use std::os::unix::ffi::{OsStrExt, OsStringExt};

/// Lines of fields in columns of equal width, at the right, with what stands after them, if anything
/// does.
pub fn aligned<const N: usize>(lines: &[([String; N], &OsStr)]) -> OsString {
    let mut widths = [0; N];
    for (fields, _) in lines {
        for (width, field) in widths.iter_mut().zip(fields) {
            *width = field.len().max(*width);
        }
    }
    let mut table = OsString::new();
    for (fields, last) in lines {
        let padded = widths.iter().zip(fields);
        let mut padded: Vec<_> = padded
            .map(|(width, field)| format!("{field:>width$}").into())
            .collect();
        if !last.is_empty() {
            padded.push(last.to_os_string());
        }
        table.push(padded.join(OsStr::new("  ")));
        table.push("\n");
    }
    table
}

/// The columns of CSV for tolerances. Those for parts that differ have other names, and two columns more at
/// the end of the line, so that the others keep their places.
pub struct Columns {
    pub names: &'static str,
    /// The names of the columns at the end.
    pub last_names: &'static str,
}

impl Columns {
    /// For tables with these tolerances.
    pub fn of(tolerances: &[Parts]) -> Columns {
        match tolerances.iter().all(|held| held.one().is_some()) {
            true => Columns {
                names: "tolerance p,tolerance q",
                last_names: "",
            },
            false => Columns {
                names: "above p,above q",
                last_names: ",below p,below q",
            },
        }
    }

    /// The fields of a tolerance, and those at the end of the line.
    pub fn fields(&self, Parts { above, below }: Parts) -> (String, String) {
        let last = match self.last_names {
            "" => String::new(),
            _ => format!(",{}", pair(below)),
        };
        (pair(above), last)
    }
}

/// The two fields of a ratio, as p/q would be taken for a date.
pub fn pair(Ratio { p, q }: Ratio) -> String {
    format!("{p},{q}")
}

/// The field in quotation marks.
pub fn quoted(field: &OsStr) -> OsString {
    let bytes = field.as_bytes().iter();
    let doubled = bytes.flat_map(|&byte| repeat_n(byte, 1 + usize::from(byte == b'"')));
    let field = OsString::from_vec(doubled.collect());
    joined(&[&"\"", &field, &"\""])
}
