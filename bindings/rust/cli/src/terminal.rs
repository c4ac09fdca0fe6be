//! Standard output as a terminal: its width, its characters, and a line that is redrawn in place. The
//! numbers are those of Linux.

use crate::failure::Failure;
use crate::{ending, output};
use std::env;
use std::ffi::{c_int, c_ulong};

/// The columns of a terminal that does not say how many it has.
const COLUMNS: u16 = 80;

/// The size of a terminal, as the system gives it.
#[repr(C)]
#[derive(Default)]
struct Size {
    rows: u16,
    columns: u16,
    width: u16,
    height: u16,
}

extern "C" {
    fn ioctl(descriptor: c_int, request: c_ulong, ...) -> c_int;
}

/// How many columns the terminal has by now: as it says itself, or else as COLUMNS does.
#[allow(unsafe_code)]
pub fn columns() -> u16 {
    const SIZE: c_ulong = 0x5413;
    let mut size = Size::default();
    // SAFETY: the size is laid out as C's; where it is not known, it stays as it is.
    unsafe { ioctl(1, SIZE, &mut size) };
    let named = || env::var("COLUMNS").ok()?.parse().ok();
    let mut given = [Some(size.columns), named()].into_iter().flatten();
    let known = given.find(|&columns| columns > 0);
    known.unwrap_or(COLUMNS)
}

/// Whether the locale has characters beyond ASCII, as UTF-8.
pub fn is_utf8() -> bool {
    let given = ["LC_ALL", "LC_CTYPE", "LANG"].map(|name| env::var(name).unwrap_or_default());
    let locale = given.into_iter().find(|locale| !locale.is_empty());
    let locale = locale.unwrap_or_default().to_lowercase();
    locale.contains("utf-8") || locale.contains("utf8")
}

/// A line that is redrawn in place. It is ended when it is dropped, and where a signal ends the tool.
pub struct Redrawn;

impl Redrawn {
    /// Draws this in place of what was drawn before. It is shorter than the terminal's line.
    pub fn draw(&mut self, text: &str) -> Result<(), Failure> {
        ending::undisturbed(ending::end_line_first);
        output::standard(format!("\r{text}\x1b[K").as_bytes())
    }
}

impl Drop for Redrawn {
    fn drop(&mut self) {
        ending::undisturbed(|| {
            if ending::leave_line() {
                let _ = output::standard(b"\n");
            }
        });
    }
}
