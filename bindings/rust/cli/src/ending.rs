//! Signals that end the tool: the file that it is making is removed first, the line that it is drawing is
//! ended, and the tool then ends as the signal ends it. Signals that are ignored, as by nohup, stay ignored.
//! The numbers are those of Linux.

use std::ffi::{c_char, c_int, c_void, CString};
use std::os::unix::ffi::OsStrExt;
use std::path::Path;
use std::ptr;
use std::sync::atomic::{AtomicBool, AtomicPtr, Ordering};

/// Hang-up, interrupt, quit, termination, and the limits of processor time and of a file's size.
const ENDING: [c_int; 6] = [1, 2, 3, 15, 24, 25];

/// What a signal does.
const DEFAULT: usize = 0;
const IGNORED: usize = 1;

/// A set of signals, as large as the C library's.
#[repr(C)]
struct Signals([u64; 16]);

/// The first argument of `sigprocmask`.
const BLOCK: c_int = 0;
const SET: c_int = 2;

extern "C" {
    fn signal(number: c_int, action: usize) -> usize;
    fn raise(number: c_int) -> c_int;
    fn unlink(path: *const c_char) -> c_int;
    fn write(descriptor: c_int, bytes: *const c_void, count: usize) -> isize;
    fn sigemptyset(signals: *mut Signals) -> c_int;
    fn sigaddset(signals: *mut Signals, number: c_int) -> c_int;
    fn sigprocmask(how: c_int, signals: *const Signals, before: *mut Signals) -> c_int;
}

/// The path of the file to be removed, if there is one. It changes only while signals are put off.
static FILE: AtomicPtr<c_char> = AtomicPtr::new(ptr::null_mut());

/// Whether standard output is in a line that is to be ended.
static LINE: AtomicBool = AtomicBool::new(false);

/// Only what a handler of signals may do.
extern "C" fn end(number: c_int) {
    let file = FILE.swap(ptr::null_mut(), Ordering::SeqCst);
    // SAFETY: the path is a C string, and is not freed, as the tool ends. One byte is written. The signal
    // is put off until this returns.
    unsafe {
        if !file.is_null() {
            unlink(file);
        }
        if LINE.swap(false, Ordering::SeqCst) {
            write(1, b"\n".as_ptr().cast(), 1);
        }
        signal(number, DEFAULT);
        raise(number);
    }
}

/// Does this with the signals put off until it is done.
pub fn undisturbed<T>(act: impl FnOnce() -> T) -> T {
    let (mut ending, mut before) = (Signals([0; 16]), Signals([0; 16]));
    // SAFETY: the sets are as large as the C library's.
    unsafe {
        sigemptyset(&mut ending);
        for number in ENDING {
            sigaddset(&mut ending, number);
        }
        sigprocmask(BLOCK, &ending, &mut before);
    }
    let done = act();
    // SAFETY: as above.
    unsafe { sigprocmask(SET, &before, ptr::null_mut()) };
    done
}

/// From now on this file is removed where a signal ends the tool. Signals are put off.
pub fn remove_first(path: &Path) {
    // A path without zero bytes: a file has it.
    let path = CString::new(path.as_os_str().as_bytes()).unwrap_or_default();
    keep();
    FILE.store(path.into_raw(), Ordering::SeqCst);
    handle();
}

/// From now on no file is removed. Signals are put off.
pub fn keep() {
    let file = FILE.swap(ptr::null_mut(), Ordering::SeqCst);
    if !file.is_null() {
        // SAFETY: the path was made by `remove_first`, and nobody else has it.
        drop(unsafe { CString::from_raw(file) });
    }
}

/// From now on the line that standard output is in is ended where a signal ends the tool. Signals are put
/// off.
pub fn end_line_first() {
    if !LINE.swap(true, Ordering::SeqCst) {
        handle();
    }
}

/// From now on no line is ended. Whether one was to be. Signals are put off.
pub fn leave_line() -> bool {
    LINE.swap(false, Ordering::SeqCst)
}

/// From now on signals that are not ignored are handled.
fn handle() {
    for number in ENDING {
        // SAFETY: the handler does only what it may.
        unsafe {
            if signal(number, end as *const () as usize) == IGNORED {
                signal(number, IGNORED);
            }
        }
    }
}
