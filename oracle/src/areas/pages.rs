//! A picture in pages of its own, of which those without a held word cannot be read: a call that reads one ends the process.

use std::ffi::c_void;

use crate::pages::{self, NONE, PAGE, READ_WRITE};

/// The words of a page.
const WORDS: usize = PAGE / 4;

pub struct Pages {
    start: *mut c_void,
    bytes: usize,
    words: usize,
}

impl Pages {
    /// A copy of the picture. It ends at the end of its last page or begins at the start of its first, as `last` says.
    pub fn new(picture: &[u32], held: &[bool], last: bool) -> Self {
        let count = picture.len().div_ceil(WORDS).max(1);
        let before = if last {
            count * WORDS - picture.len()
        } else {
            0
        };
        let is_held = |word: usize| {
            word.checked_sub(before)
                .is_some_and(|at| held.get(at) == Some(&true))
        };
        // SAFETY: new pages, which are written, and then closed but for those with a held word.
        unsafe {
            let start = pages::map(count * PAGE, READ_WRITE);
            let first: *mut u32 = start.cast();
            std::ptr::copy_nonoverlapping(picture.as_ptr(), first.add(before), picture.len());
            for page in 0..count {
                if !(page * WORDS..(page + 1) * WORDS).any(is_held) {
                    assert_eq!(
                        pages::mprotect(start.byte_add(page * PAGE), PAGE, NONE),
                        0,
                        "a page stays open"
                    );
                }
            }
            Pages {
                start: first.add(before).cast(),
                bytes: count * PAGE,
                words: picture.len(),
            }
        }
    }

    /// Where the picture begins, and how many words it has.
    pub fn picture(&self) -> (*const u32, usize) {
        (self.start.cast(), self.words)
    }
}

impl Drop for Pages {
    fn drop(&mut self) {
        let start = (self.start as usize / PAGE * PAGE) as *mut c_void;
        // SAFETY: the pages that were made above; nothing points into them any more.
        unsafe {
            pages::munmap(start, self.bytes);
        }
    }
}
