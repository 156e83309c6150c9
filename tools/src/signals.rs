//! Holds what the program does when a signal ends it: no temporary file is left behind.

use std::ffi::{c_char, c_int, c_void, CString};
use std::os::unix::ffi::OsStrExt;
use std::path::Path;
use std::ptr;
use std::sync::atomic::{AtomicPtr, Ordering};

const SIGHUP: c_int = 1;
const SIGINT: c_int = 2;
const SIGQUIT: c_int = 3;
const SIGBUS: c_int = 7;
const SIGTERM: c_int = 15;
const SIGXFSZ: c_int = 25;
/// SIGUSR1, SIGUSR2, SIGALRM, SIGXCPU, SIGVTALRM and SIGPROF, each of which would end the program too.
const OTHERS: [c_int; 6] = [10, 12, 14, 24, 26, 27];
const SIG_DFL: usize = 0;
const SIG_IGN: usize = 1;

/// What is told where the end of a mapped file is gone when it is read.
pub const SHORTENED: &str = "a file was shortened while it was read";

extern "C" {
    fn _exit(status: c_int) -> !;
    fn raise(signal: c_int) -> c_int;
    fn signal(signal: c_int, handler: usize) -> usize;
    fn unlink(path: *const c_char) -> c_int;
    fn write(fd: c_int, bytes: *const c_void, length: usize) -> isize;
}

/// The name of the temporary file, or null.
static PART: AtomicPtr<c_char> = AtomicPtr::new(ptr::null_mut());

/// Has the signals that end the program remove the temporary file first. A signal that is ignored, as SIGHUP below nohup, stays so.
pub fn install() {
    let end: extern "C" fn(c_int) = end;
    for number in [SIGHUP, SIGINT, SIGQUIT, SIGTERM].into_iter().chain(OTHERS) {
        unsafe {
            if signal(number, end as usize) == SIG_IGN {
                signal(number, SIG_IGN);
            }
        }
    }
    let shortened: extern "C" fn(c_int) = shortened;
    unsafe {
        signal(SIGBUS, shortened as usize);
        // A file that grows past a limit is an error of the write instead, which is told.
        signal(SIGXFSZ, SIG_IGN);
    }
}

/// Names the temporary file that a signal removes, or that there is none.
pub fn remove_on_signal(part: Option<&Path>) {
    let name = part.and_then(|part| CString::new(part.as_os_str().as_bytes()).ok());
    let old = PART.swap(name.map_or(ptr::null_mut(), CString::into_raw), Ordering::SeqCst);
    if !old.is_null() {
        drop(unsafe { CString::from_raw(old) });
    }
}

// The handlers call only what is allowed between any two steps of the program, and neither comes back to it.

fn remove() {
    let part = PART.load(Ordering::SeqCst);
    if !part.is_null() {
        unsafe { unlink(part) };
    }
}

/// Ends the program by the same signal, which waits until this returns.
extern "C" fn end(number: c_int) {
    remove();
    unsafe {
        signal(number, SIG_DFL);
        raise(number);
    }
}

extern "C" fn shortened(_: c_int) {
    remove();
    for text in ["sion: ", SHORTENED, "\n"] {
        unsafe { write(2, text.as_ptr().cast(), text.len()) };
    }
    unsafe { _exit(crate::failure::SYSTEM.into()) }
}
