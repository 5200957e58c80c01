//! Memory with a page on either side that can be neither read nor written: touching it ends the process. For x86-64 Linux.
use std::ffi::{c_int, c_void};
use std::ptr::null_mut;

extern "C" {
    fn mmap(at: *mut c_void, length: usize, protection: c_int, flags: c_int, file: c_int, offset: i64) -> *mut c_void;
    fn mprotect(at: *mut c_void, length: usize, protection: c_int) -> c_int;
    fn munmap(at: *mut c_void, length: usize) -> c_int;
}

const PAGE: usize = 4096;
const NO_ACCESS: c_int = 0;
const READ_WRITE: c_int = 1 | 2;
const PRIVATE_ANONYMOUS: c_int = 2 | 0x20;

/// So many bytes, rounded up to whole pages, between two pages that cannot be touched.
pub struct Area {
    start: *mut u8,
    length: usize,
}

impl Area {
    pub fn new(length: usize) -> Area {
        let length = length.div_ceil(PAGE) * PAGE;
        // SAFETY: a new mapping that nothing else knows; then the part of it between its first and its last page.
        unsafe {
            let whole = mmap(null_mut(), length + 2 * PAGE, NO_ACCESS, PRIVATE_ANONYMOUS, -1, 0).cast::<u8>();
            assert!(whole as isize != -1, "no memory for an area");
            let start = whole.add(PAGE);
            assert_eq!(mprotect(start.cast(), length, READ_WRITE), 0, "the area cannot be opened");
            Area { start, length }
        }
    }

    /// A part of this length, with its last byte right before the page behind, or its first right behind the page before.
    pub fn place(&mut self, length: usize, at_end: bool) -> &mut [u8] {
        assert!(length <= self.length, "the area is too small");
        let from = if at_end { self.length - length } else { 0 };
        // SAFETY: within the area, which is borrowed mutably.
        unsafe { std::slice::from_raw_parts_mut(self.start.add(from), length) }
    }
}

impl Drop for Area {
    fn drop(&mut self) {
        // SAFETY: the whole mapping, of which nothing is lent any more.
        unsafe {
            munmap(self.start.sub(PAGE).cast(), self.length + 2 * PAGE);
        }
    }
}
