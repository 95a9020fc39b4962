//! Memory between two pages that nobody may touch: a read or a write outside ends the process.

use std::ffi::{c_int, c_void};
use std::{fmt, io, ptr, slice};

unsafe extern "C" {
    fn mmap(
        at: *mut c_void,
        length: usize,
        protection: c_int,
        flags: c_int,
        file: c_int,
        offset: i64,
    ) -> *mut c_void;
    fn mprotect(at: *mut c_void, length: usize, protection: c_int) -> c_int;
    fn munmap(at: *mut c_void, length: usize) -> c_int;
}

const PAGE: usize = 4_096;
const NO_ACCESS: c_int = 0;
const READ_AND_WRITE: c_int = 1 | 2;
const PRIVATE_AND_ANONYMOUS: c_int = 0x02 | 0x20;

/// At which of the two forbidden pages a slice lies.
#[derive(Debug, Clone, Copy, PartialEq, Eq)]
pub enum Edge {
    First,
    Last,
}

impl fmt::Display for Edge {
    fn fmt(&self, f: &mut fmt::Formatter<'_>) -> fmt::Result {
        f.write_str(match self {
            Self::First => "first",
            Self::Last => "last",
        })
    }
}

/// Some pages, with a forbidden one before and behind them.
pub struct Guarded {
    first_page: *mut u8,
    length: usize,
}

impl Guarded {
    /// At least this many bytes.
    pub fn new(length: usize) -> io::Result<Self> {
        let length = length.next_multiple_of(PAGE);
        let whole = length + 2 * PAGE;
        // SAFETY: a new mapping, of which the middle is then made accessible.
        unsafe {
            let flags = PRIVATE_AND_ANONYMOUS;
            let at = mmap(ptr::null_mut(), whole, NO_ACCESS, flags, -1, 0);
            if at.addr() == usize::MAX || mprotect(at.add(PAGE), length, READ_AND_WRITE) != 0 {
                return Err(io::Error::last_os_error());
            }
            let first_page = at.cast();
            Ok(Self { first_page, length })
        }
    }

    /// So many bytes, up against a forbidden page.
    pub fn slice(&mut self, edge: Edge, length: usize) -> &mut [u8] {
        assert!(length <= self.length, "more than the memory between");
        let skipped = match edge {
            Edge::First => 0,
            Edge::Last => self.length - length,
        };
        // SAFETY: inside the middle of the mapping, which is lent by `&mut self` only.
        unsafe { slice::from_raw_parts_mut(self.first_page.add(PAGE + skipped), length) }
    }
}

impl Drop for Guarded {
    fn drop(&mut self) {
        // SAFETY: the mapping that `new` made; every slice of it has ended.
        unsafe {
            munmap(self.first_page.cast(), self.length + 2 * PAGE);
        }
    }
}
