//! Holds the few calls of the system that Rust's library lacks, as safe functions.

use std::ffi::{c_char, c_int, c_uint, CString};
use std::fs::{self, File};
use std::io::{self, ErrorKind};
use std::mem::ManuallyDrop;
use std::ops::{Deref, DerefMut};
use std::os::fd::FromRawFd;
use std::os::unix::ffi::OsStrExt;
use std::path::Path;
use std::sync::atomic::{AtomicBool, Ordering};
use std::{ptr, slice};

const F_GETFD: c_int = 1;
const AT_FDCWD: c_int = -100;
const RENAME_NOREPLACE: c_uint = 1;
const PROT_READ_AND_WRITE: c_int = 1 | 2;
const MAP_PRIVATE: c_int = 0x2;
const MAP_ANONYMOUS: c_int = 0x20;
const MAP_NORESERVE: c_int = 0x4000;
const MADV_NOHUGEPAGE: c_int = 15;
const EBADF: i32 = 9;
const ENOSYS: i32 = 38;

extern "C" {
    fn fcntl(fd: c_int, command: c_int, ...) -> c_int;
    fn madvise(at: *mut u8, size: usize, advice: c_int) -> c_int;
    fn mmap(at: *mut u8, size: usize, access: c_int, flags: c_int, fd: c_int, from: i64)
        -> *mut u8;
    fn munmap(at: *mut u8, size: usize) -> c_int;
    fn renameat2(
        old_folder: c_int,
        old: *const c_char,
        new_folder: c_int,
        new: *const c_char,
        flags: c_uint,
    ) -> c_int;
}

/// Whether standard input and standard output were closed when the program was started.
static CLOSED: [AtomicBool; 2] = [const { AtomicBool::new(false) }; 2];

/// Before `main`, Rust puts /dev/null in place of what is closed, and what is written there would seem to have arrived. This runs before.
#[used]
#[link_section = ".init_array"]
static LOOK: extern "C" fn() = look;

extern "C" fn look() {
    for (fd, closed) in (0..).zip(&CLOSED) {
        closed.store(unsafe { fcntl(fd, F_GETFD) } == -1, Ordering::Relaxed);
    }
}

fn standard(fd: c_int) -> io::Result<ManuallyDrop<File>> {
    if CLOSED[fd as usize].load(Ordering::Relaxed) {
        return Err(io::Error::from_raw_os_error(EBADF));
    }
    // Not dropped, the file is not closed either.
    Ok(ManuallyDrop::new(unsafe { File::from_raw_fd(fd) }))
}

pub fn standard_input() -> io::Result<ManuallyDrop<File>> {
    standard(0)
}

/// Standard output without a buffer. Rust's own takes a write that fails because it is closed for one that was made.
pub fn standard_output() -> io::Result<ManuallyDrop<File>> {
    standard(1)
}

/// Renames a file to a name that nothing has, also where another program takes that name at the same time.
pub fn rename_to_new(old: &Path, new: &Path) -> io::Result<()> {
    let text = |path: &Path| CString::new(path.as_os_str().as_bytes());
    let (from, to) = (text(old)?, text(new)?);
    let (from, to) = (from.as_ptr(), to.as_ptr());
    if unsafe { renameat2(AT_FDCWD, from, AT_FDCWD, to, RENAME_NOREPLACE) } == 0 {
        return Ok(());
    }
    let error = io::Error::last_os_error();
    let unknown = error.raw_os_error() == Some(ENOSYS) || error.kind() == ErrorKind::InvalidInput;
    if !unknown {
        return Err(error);
    }
    // A link is not made over a name either.
    fs::hard_link(old, new)?;
    fs::remove_file(old)
}

/// The bytes of memory that a program can have now, where the system says it.
pub fn free_memory() -> Option<u64> {
    let about = fs::read_to_string("/proc/meminfo").ok()?;
    let line = about.lines().find_map(|line| line.strip_prefix("MemAvailable:"))?;
    let kilobytes: u64 = line.trim().strip_suffix(" kB")?.parse().ok()?;
    kilobytes.checked_mul(1024)
}

/// Zeros that take memory only where they are written to.
pub struct Zeros {
    start: *mut u8,
    length: usize,
}

impl Zeros {
    /// So many bytes, at least one. Nothing is set aside for those that are never used, so a length beyond the computer's memory is no error.
    pub fn new(length: usize) -> io::Result<Zeros> {
        let flags = MAP_PRIVATE | MAP_ANONYMOUS | MAP_NORESERVE;
        let start = unsafe { mmap(ptr::null_mut(), length, PROT_READ_AND_WRITE, flags, -1, 0) };
        if start.addr() == usize::MAX {
            return Err(io::Error::last_os_error());
        }
        // With huge pages, a few bytes here and there would take 2 MiB each. A system without them knows no such advice.
        unsafe { madvise(start, length, MADV_NOHUGEPAGE) };
        Ok(Zeros { start, length })
    }
}

impl Deref for Zeros {
    type Target = [u8];

    fn deref(&self) -> &[u8] {
        unsafe { slice::from_raw_parts(self.start, self.length) }
    }
}

impl DerefMut for Zeros {
    fn deref_mut(&mut self) -> &mut [u8] {
        unsafe { slice::from_raw_parts_mut(self.start, self.length) }
    }
}

impl Drop for Zeros {
    fn drop(&mut self) {
        // It fails for an address that was not mapped alone.
        unsafe { munmap(self.start, self.length) };
    }
}
