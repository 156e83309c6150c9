//! Holds a file mapped into memory, by the two calls of the system that this takes.

use std::ffi::c_int;
use std::fs::File;
use std::os::fd::AsRawFd;
use std::{io, ptr, slice};

const PROT_READ: c_int = 1;
const MAP_PRIVATE: c_int = 2;

extern "C" {
    fn mmap(at: *mut u8, size: usize, access: c_int, flags: c_int, fd: c_int, from: i64)
        -> *mut u8;
    fn munmap(at: *mut u8, size: usize) -> c_int;
}

/// The first bytes of a file, for reading alone. It stays when the file is closed, renamed or removed.
pub(crate) struct Mapping {
    start: *mut u8,
    length: usize,
}

// The mapping is memory that nothing in this process writes.
unsafe impl Send for Mapping {}
unsafe impl Sync for Mapping {}

impl Mapping {
    /// Maps so many bytes from the file's start. None at all is an error, as the system has it.
    pub(crate) fn new(file: &File, length: usize) -> io::Result<Mapping> {
        let fd = file.as_raw_fd();
        let start = unsafe { mmap(ptr::null_mut(), length, PROT_READ, MAP_PRIVATE, fd, 0) };
        if start.addr() == usize::MAX {
            return Err(io::Error::last_os_error());
        }
        Ok(Mapping { start, length })
    }

    /// The bytes. Who else writes to the file changes them, as the documentation of `Container::open` says.
    pub(crate) fn bytes(&self) -> &[u8] {
        unsafe { slice::from_raw_parts(self.start, self.length) }
    }
}

impl Drop for Mapping {
    fn drop(&mut self) {
        // It fails for an address that was not mapped alone.
        unsafe { munmap(self.start, self.length) };
    }
}
