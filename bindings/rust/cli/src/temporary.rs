//! A new file beside the one that it is to replace, which gets that one's name once it is whole.
//!
//! Until then its name is `.kovrelna-N-NAME`, with the other's NAME, and it is removed where an error or
//! a signal ends the tool. After SIGKILL or a loss of power it stays, and the next run that writes NAME
//! removes it. To know that no other process is writing it, each holds the lock (flock) of its file from
//! making it to renaming it, and the system gives the lock back when the process ends, however it ends:
//!
//! - A file is removed only by who has its lock, and has then seen that it still has its name.
//! - Who has made a file locks it, and goes on only if it then still has its name; otherwise another
//!   took it, between the two, for one that was left behind, and the next number is tried.
//!
//! Where there are no locks nothing is removed. Where hosts do not see each other's locks, what one
//! writes another may remove, but only if both write the same NAME at once; the first then fails.

use crate::ending;
use std::ffi::{c_int, OsStr, OsString};
use std::fs::{self, File, OpenOptions};
use std::io::{self, Write};
use std::os::fd::AsRawFd;
use std::os::unix::ffi::OsStrExt;
use std::os::unix::fs::MetadataExt;
use std::path::{Path, PathBuf};

/// The most bytes of NAME that are used, so that the name is not too long.
const NAME: usize = 100;
/// The most numbers that are tried.
const NUMBERS: usize = 1_000;

/// A file that is removed unless it is renamed.
pub struct Temporary {
    path: PathBuf,
    file: File,
}

impl Temporary {
    /// Makes a file in this folder, to replace the one of this name.
    pub fn create(folder: &Path, name: &OsStr) -> io::Result<Temporary> {
        let name = &name.as_bytes()[..name.len().min(NAME)];
        ending::undisturbed(|| {
            for number in 0..NUMBERS {
                let mut beside = OsString::from(format!(".kovrelna-{number}-"));
                beside.push(OsStr::from_bytes(name));
                if let Some(made) = Temporary::make(folder.join(beside))? {
                    ending::remove_first(&made.path);
                    return Ok(made);
                }
            }
            Err(io::ErrorKind::AlreadyExists.into())
        })
    }

    /// Makes a file that was not there, or was left behind; nothing if another process has it.
    fn make(path: PathBuf) -> io::Result<Option<Temporary>> {
        remove_left(&path);
        let made = OpenOptions::new().write(true).create_new(true).open(&path);
        let file = match made {
            Err(error) if error.kind() == io::ErrorKind::AlreadyExists => return Ok(None),
            made => made?,
        };
        match lock(&file) {
            // Who has the lock removes the file.
            Err(error) if error.kind() == io::ErrorKind::WouldBlock => Ok(None),
            _ if is_at(&file, &path) => Ok(Some(Temporary { path, file })),
            _ => Ok(None),
        }
    }

    /// Writes everything, with these permissions, and flushes it to the disk.
    pub fn fill(&mut self, bytes: &[u8], permissions: Option<fs::Permissions>) -> io::Result<()> {
        if let Some(permissions) = permissions {
            self.file.set_permissions(permissions)?;
        }
        self.file.write_all(bytes)?;
        self.file.sync_all()
    }

    /// Gives the file its name.
    pub fn rename(self, to: &Path) -> io::Result<()> {
        ending::undisturbed(|| {
            if !is_at(&self.file, &self.path) {
                return Err(io::Error::other("another process removed the new file"));
            }
            fs::rename(&self.path, to)?;
            // Its path is free for another process.
            ending::keep();
            Ok(())
        })
    }
}

impl Drop for Temporary {
    fn drop(&mut self) {
        ending::undisturbed(|| {
            ending::keep();
            if is_at(&self.file, &self.path) {
                let _ = fs::remove_file(&self.path);
            }
        });
    }
}

/// Removes a file at this path that no process is writing.
fn remove_left(path: &Path) {
    // A pipe might wait to be opened, and a link leads elsewhere.
    if !fs::symlink_metadata(path).is_ok_and(|left| left.is_file()) {
        return;
    }
    if let Ok(left) = OpenOptions::new().append(true).open(path) {
        if lock(&left).is_ok() && is_at(&left, path) {
            let _ = fs::remove_file(path);
        }
    }
}

/// Whether this file has this path.
fn is_at(file: &File, path: &Path) -> bool {
    match (file.metadata(), fs::symlink_metadata(path)) {
        (Ok(one), Ok(other)) => (one.dev(), one.ino()) == (other.dev(), other.ino()),
        _ => false,
    }
}

extern "C" {
    fn flock(descriptor: c_int, operation: c_int) -> c_int;
}

/// Locks the file until it is closed, unless another process has locked it.
#[allow(unsafe_code)]
fn lock(file: &File) -> io::Result<()> {
    const EXCLUSIVE: c_int = 2;
    const NO_WAITING: c_int = 4;
    // SAFETY: the descriptor is open.
    match unsafe { flock(file.as_raw_fd(), EXCLUSIVE | NO_WAITING) } {
        0 => Ok(()),
        _ => Err(io::Error::last_os_error()),
    }
}
