//! Pages of memory, as Linux on x86-64 lends them, and rooms of them between two that nobody may touch.

use std::ffi::c_void;
use std::ptr;

/// The bytes of one.
pub const PAGE: usize = 4096;

/// No access; reading and writing.
pub const NONE: i32 = 0;
pub const READ_WRITE: i32 = 3;

/// A mapping of one's own, of no file.
const PRIVATE_ANONYMOUS: i32 = 0x22;

extern "C" {
    fn mmap(
        at: *mut c_void,
        len: usize,
        access: i32,
        flags: i32,
        file: i32,
        from: i64,
    ) -> *mut c_void;
    pub fn mprotect(at: *mut c_void, len: usize, access: i32) -> i32;
    pub fn munmap(at: *mut c_void, len: usize) -> i32;
}

/// New pages for so many bytes.
pub fn map(bytes: usize, access: i32) -> *mut c_void {
    // SAFETY: none of the pages that are in use is asked for.
    let start = unsafe { mmap(ptr::null_mut(), bytes, access, PRIVATE_ANONYMOUS, -1, 0) };
    assert_ne!(start as isize, -1, "no pages");
    start
}

/// Bytes of a room. They take memory once they are written, so that a room for the largest frame costs a small one nothing.
const BYTES: usize = 4096 * PAGE;

/// Which end of a copy touches a guarded page.
#[derive(Clone, Copy)]
pub enum Guard {
    After,
    Before,
}

/// Pages for one copy, between two that nobody may touch.
pub struct Room(*mut u8);

impl Room {
    pub fn new() -> Self {
        // SAFETY: new pages, of which those between the first and the last are opened.
        unsafe {
            let inner = map(BYTES + 2 * PAGE, NONE).byte_add(PAGE);
            let opened = mprotect(inner, BYTES, READ_WRITE);
            assert_eq!(opened, 0, "no pages to write");
            Room(inner.cast())
        }
    }

    /// A copy of these, laid against a guarded page.
    pub fn lay<T: Copy>(&mut self, from: &[T], guard: Guard) -> &mut [T] {
        let bytes = size_of_val(from);
        assert!(bytes <= BYTES, "{bytes} bytes are too many for the pages");
        let skipped = match guard {
            Guard::After => BYTES - bytes,
            Guard::Before => 0,
        };
        // SAFETY: inside the pages, which are this room's own; a page's ends are aligned for all that is lent.
        unsafe {
            let start: *mut T = self.0.add(skipped).cast();
            std::ptr::copy_nonoverlapping(from.as_ptr(), start, from.len());
            std::slice::from_raw_parts_mut(start, from.len())
        }
    }
}
