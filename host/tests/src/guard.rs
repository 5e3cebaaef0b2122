//! Memory between two pages that no one may touch: a step over an end stops the process.

use std::ffi::c_void;
use std::ptr;

const PAGE: usize = 4_096;
const NO_ACCESS: i32 = 0;
const READ: i32 = 1;
const READ_AND_WRITE: i32 = 3;
const PRIVATE_AND_ANONYMOUS: i32 = 0x22;

// of the C library, which std links on Linux
extern "C" {
    fn mmap(address: *mut c_void, length: usize, protection: i32, flags: i32, file: i32, offset: i64) -> *mut c_void;
    fn mprotect(address: *mut c_void, length: usize, protection: i32) -> i32;
    fn munmap(address: *mut c_void, length: usize) -> i32;
}

/// A slice that ends where a guard page begins, or begins where one ends.
pub struct Guarded {
    base: *mut u8,
    whole: usize,
    start: usize,
    length: usize,
}

impl Guarded {
    pub fn new(content: &[u8], at_end: bool) -> Guarded {
        let inside = content.len().div_ceil(PAGE) * PAGE;
        let whole = inside + 2 * PAGE;
        let start = if at_end { PAGE + inside - content.len() } else { PAGE };
        let base = unsafe { mmap(ptr::null_mut(), whole, NO_ACCESS, PRIVATE_AND_ANONYMOUS, -1, 0) } as *mut u8;
        assert_ne!(base as isize, -1, "no memory");
        let mut guarded = Guarded { base, whole, start, length: content.len() };
        guarded.protect(READ_AND_WRITE);
        guarded.bytes_mut().copy_from_slice(content);
        guarded
    }

    /// From here on a write into the slice stops the process too.
    pub fn read_only(self) -> Guarded {
        self.protect(READ);
        self
    }

    fn protect(&self, protection: i32) {
        let inside = self.whole - 2 * PAGE;
        if inside > 0 {
            let done = unsafe { mprotect(self.base.add(PAGE).cast(), inside, protection) };
            assert_eq!(done, 0, "the pages cannot be protected");
        }
    }

    pub fn bytes(&self) -> &[u8] {
        unsafe { std::slice::from_raw_parts(self.base.add(self.start), self.length) }
    }

    pub fn bytes_mut(&mut self) -> &mut [u8] {
        unsafe { std::slice::from_raw_parts_mut(self.base.add(self.start), self.length) }
    }
}

impl Drop for Guarded {
    fn drop(&mut self) {
        unsafe { munmap(self.base.cast(), self.whole) };
    }
}
