//! Names of files in what is printed. They are any bytes: to a file or a pipe they go as they are, to a
//! terminal with what is not UTF-8 replaced.

use std::borrow::Cow;
use std::ffi::{OsStr, OsString};
use std::os::unix::ffi::OsStrExt;

/// The name in one line of text: control characters are replaced.
pub fn shown(name: &OsStr) -> OsString {
    let mut shown = OsString::new();
    for chunk in name.as_bytes().utf8_chunks() {
        shown.push(plain(chunk.valid()));
        shown.push(OsStr::from_bytes(chunk.invalid()));
    }
    shown
}

/// The text with control characters replaced.
pub fn plain(text: &str) -> String {
    let plain = |c: char| if c.is_control() { '\u{fffd}' } else { c };
    text.chars().map(plain).collect()
}

/// Text with names in it: these parts.
pub fn joined(parts: &[&dyn AsRef<OsStr>]) -> OsString {
    parts.iter().map(AsRef::as_ref).collect()
}

/// The cause at this place.
pub fn placed(place: impl AsRef<OsStr>, cause: impl ToString) -> OsString {
    joined(&[&place, &": ", &cause.to_string()])
}

/// What is written where the text, which has names in it, is printed.
pub fn printed(text: &OsStr, to_terminal: bool) -> Cow<'_, [u8]> {
    match text.to_string_lossy() {
        Cow::Owned(replaced) if to_terminal => replaced.into_bytes().into(),
        _ => text.as_bytes().into(),
    }
}

#[cfg(test)]
mod tests {
    use super::*;

    #[test]
    fn bytes() {
        let name = shown(OsStr::from_bytes(b"a\xff\n\x80b\xc3\xa9"));
        let expected = b"a\xff\xef\xbf\xbd\x80b\xc3\xa9";
        assert_eq!(name.as_bytes(), expected);
        assert_eq!(*printed(&name, false), expected[..]);
        assert_eq!(
            *printed(&name, true),
            *"a\u{fffd}\u{fffd}\u{fffd}bé".as_bytes()
        );
        assert_eq!(
            placed(&name, "why").as_bytes(),
            [expected, &b": why"[..]].concat()
        );
    }
}
