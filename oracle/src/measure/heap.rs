//! The program's allocator: that of the system, with a count for each thread of what is allocated.

use std::alloc::{GlobalAlloc, Layout, System};
use std::cell::Cell;

struct Counting;

#[global_allocator]
static ALLOCATOR: Counting = Counting;

thread_local! {
    /// All that was ever allocated, what is not yet given back, and the most of that at one time, in bytes.
    static TOTAL: Cell<usize> = const { Cell::new(0) };
    static LIVE: Cell<isize> = const { Cell::new(0) };
    static MOST: Cell<isize> = const { Cell::new(0) };
}

fn taken(bytes: usize) {
    let live = LIVE.get() + bytes as isize;
    LIVE.set(live);
    MOST.set(MOST.get().max(live));
    TOTAL.set(TOTAL.get() + bytes);
}

fn given_back(bytes: usize) {
    LIVE.set(LIVE.get() - bytes as isize);
}

// SAFETY: every call is handed on as it is. The counts allocate nothing.
unsafe impl GlobalAlloc for Counting {
    unsafe fn alloc(&self, layout: Layout) -> *mut u8 {
        taken(layout.size());
        System.alloc(layout)
    }

    unsafe fn alloc_zeroed(&self, layout: Layout) -> *mut u8 {
        taken(layout.size());
        System.alloc_zeroed(layout)
    }

    unsafe fn realloc(&self, old: *mut u8, layout: Layout, bytes: usize) -> *mut u8 {
        given_back(layout.size());
        taken(bytes);
        System.realloc(old, layout, bytes)
    }

    unsafe fn dealloc(&self, old: *mut u8, layout: Layout) {
        given_back(layout.size());
        System.dealloc(old, layout);
    }
}

/// What a call allocates.
pub struct Heap {
    /// All of it together.
    pub total: usize,
    /// The most at one time, above what was there before.
    pub most: isize,
    /// What is still there after it.
    pub kept: isize,
}

pub fn used(call: impl FnOnce()) -> Heap {
    let (total, live) = (TOTAL.get(), LIVE.get());
    MOST.set(live);
    call();
    Heap {
        total: TOTAL.get() - total,
        most: MOST.get() - live,
        kept: LIVE.get() - live,
    }
}
