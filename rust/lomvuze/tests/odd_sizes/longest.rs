//! The longest buffer that a thread asks for.

use std::alloc::{GlobalAlloc, Layout, System};
use std::cell::Cell;

struct Watched;

#[global_allocator]
static ALLOCATOR: Watched = Watched;

thread_local! {
    static LONGEST: Cell<usize> = const { Cell::new(0) };
}

fn watch(bytes: usize) {
    let _ = LONGEST.try_with(|longest| longest.set(longest.get().max(bytes)));
}

unsafe impl GlobalAlloc for Watched {
    unsafe fn alloc(&self, layout: Layout) -> *mut u8 {
        watch(layout.size());
        System.alloc(layout)
    }

    unsafe fn alloc_zeroed(&self, layout: Layout) -> *mut u8 {
        watch(layout.size());
        System.alloc_zeroed(layout)
    }

    unsafe fn realloc(&self, at: *mut u8, layout: Layout, bytes: usize) -> *mut u8 {
        watch(bytes);
        System.realloc(at, layout, bytes)
    }

    unsafe fn dealloc(&self, at: *mut u8, layout: Layout) {
        System.dealloc(at, layout);
    }
}

/// Runs a call, and says how long the longest buffer is that it asks for.
pub fn longest_buffer<T>(call: impl FnOnce() -> T) -> (usize, T) {
    LONGEST.set(0);
    let result = call();
    (LONGEST.get(), result)
}
