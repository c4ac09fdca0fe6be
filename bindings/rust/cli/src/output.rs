//! Standard output, and files that are replaced whole.
//!
//! A regular file is written under another name beside it (`temporary`), flushed to the disk and only
//! then given its name, so that after any error what was there before is there still.

use crate::failure::{Failure, Status};
use crate::name::{joined, printed, shown};
use crate::temporary::Temporary;
use std::ffi::{OsStr, OsString};
use std::fs::{self, File, OpenOptions};
use std::io::{self, IsTerminal, Write};
use std::path::{Path, PathBuf};

const STDOUT: &str = "<stdout>";

/// What goes wrong with standard output.
fn failed(error: &io::Error) -> Failure {
    match error.kind() {
        io::ErrorKind::BrokenPipe => Failure::BrokenPipe,
        _ => Failure::io(STDOUT, error),
    }
}

/// Writes to standard output, and sees that all of it is written.
pub fn standard(bytes: &[u8]) -> Result<(), Failure> {
    let mut output = io::stdout().lock();
    let written = output.write_all(bytes).and_then(|()| output.flush());
    written.map_err(|error| failed(&error))
}

/// Prints text, which may have names in it.
pub fn print(text: impl AsRef<OsStr>) -> Result<Status, Failure> {
    standard(&printed(text.as_ref(), io::stdout().is_terminal()))?;
    Ok(Status::Done)
}

/// Writes to this file, or to standard output if there is none or it is `-`. Bytes that are no text are
/// not written to a terminal.
pub fn write(path: Option<&OsStr>, bytes: &[u8], is_text: bool) -> Result<Status, Failure> {
    match path.filter(|&path| path != "-") {
        Some(path) if path.is_empty() => return Err(Failure::at("--output", "the name is empty")),
        Some(path) => replace(path, bytes)?,
        None if !is_text && io::stdout().is_terminal() => {
            let cause =
                "a record is not written to a terminal; redirect it, or name a file with -o";
            return Err(Failure::at(STDOUT, cause));
        }
        None => standard(bytes)?,
    }
    Ok(Status::Done)
}

/// Replaces a file's content, or makes the file. A link is followed. A file that may not be written is
/// refused. What is no regular file, such as a device or a pipe, is written to as it is, and so is a
/// file that a process has open, such as `/dev/stdout`.
fn replace(given: &OsStr, bytes: &[u8]) -> Result<(), Failure> {
    let failed = |error: io::Error| Failure::io(shown(given), &error);
    let (folder, name) = followed(Path::new(given)).map_err(failed)?;
    let path = folder.join(&name);
    let before = fs::metadata(&path).ok();
    if let Some(before) = &before {
        let file = OpenOptions::new().append(true).open(&path);
        let mut file = file.map_err(failed)?;
        if !before.is_file() || is_open_file(&folder, &path) {
            return file.write_all(bytes).map_err(failed);
        }
    }
    let made = Temporary::create(&folder, &name).map_err(|error| {
        let folder = shown(folder.as_ref());
        let place = joined(&[&shown(given), &": no file can be made in ", &folder]);
        Failure::io(place, &error)
    });
    let mut made = made?;
    let permissions = before.map(|before| before.permissions());
    made.fill(bytes, permissions).map_err(failed)?;
    made.rename(&path).map_err(failed)?;
    // The new name is in the folder by now; some file systems cannot flush a folder.
    let _ = File::open(folder).and_then(|folder| folder.sync_all());
    Ok(())
}

/// Whether both paths lead to one file, through links. There need be no file.
pub fn are_same(one: &OsStr, other: &OsStr) -> bool {
    let places = [one, other].map(|path| followed(Path::new(path)));
    matches!(places, [Ok(one), Ok(other)] if one == other)
}

/// Whether this is the link, below /proc, to a file that a process has open.
fn is_open_file(folder: &Path, path: &Path) -> bool {
    folder.starts_with("/proc") && path.is_symlink()
}

/// The most links that are followed.
const LINKS: usize = 40;

/// The folder and the name in it that the path leads to, through links, up to the first that leads to
/// an open file. There need be nothing of that name.
fn followed(path: &Path) -> io::Result<(PathBuf, OsString)> {
    let mut path = path.to_path_buf();
    for _ in 0..LINKS {
        let ends_in_slash = path.as_os_str().as_encoded_bytes().ends_with(b"/");
        let Some(name) = path.file_name().filter(|_| !ends_in_slash) else {
            // A folder is named, which may not be there.
            fs::metadata(&path)?;
            return Err(io::ErrorKind::IsADirectory.into());
        };
        let folder = match path.parent() {
            Some(folder) if folder != Path::new("") => fs::canonicalize(folder)?,
            _ => fs::canonicalize(".")?,
        };
        let found = folder.join(name);
        match fs::read_link(&found) {
            Ok(link) if !is_open_file(&folder, &found) => path = folder.join(link),
            _ => return Ok((folder, name.to_os_string())),
        }
    }
    Err(io::Error::other("too many links"))
}
