//! Memory of which the end is known: after it comes a page that nobody may touch.

use std::ffi::{c_int, c_long, c_void};

unsafe extern "C" {
    fn mmap(
        at: *mut c_void, length: usize, protection: c_int, flags: c_int, file: c_int, offset: c_long,
    ) -> *mut c_void;
    fn mprotect(at: *mut c_void, length: usize, protection: c_int) -> c_int;
}

const PAGE: usize = 4096;
const NO_ACCESS: c_int = 0;
const READ_AND_WRITE: c_int = 3;
const PRIVATE_AND_ANONYMOUS: c_int = 0x22;

/// A page of memory, kept for good, and the page after it.
pub struct Guarded(&'static mut [u8]);

impl Default for Guarded {
    fn default() -> Guarded {
        // two pages of fresh memory, of which the second is closed
        unsafe {
            let at = mmap(std::ptr::null_mut(), 2 * PAGE, READ_AND_WRITE, PRIVATE_AND_ANONYMOUS, -1, 0);
            assert!(at.addr() != usize::MAX && mprotect(at.byte_add(PAGE), PAGE, NO_ACCESS) == 0);
            Guarded(std::slice::from_raw_parts_mut(at.cast(), PAGE))
        }
    }
}

impl Guarded {
    /// A copy of at most a page of bytes, which ends where the closed page begins.
    pub fn lend(&mut self, bytes: &[u8]) -> &mut [u8] {
        let copy = &mut self.0[PAGE - bytes.len()..];
        copy.copy_from_slice(bytes);
        copy
    }
}
