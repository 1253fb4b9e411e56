//! What is allocated, and allocations that fail.

use std::alloc::{GlobalAlloc, Layout, System};
use std::sync::atomic::{AtomicUsize, Ordering};

/// The allocator of Rust, of which one allocation may fail.
struct Counting;

/// How many allocations are made before the one that fails. None fails if there are as many as possible.
static LEFT: AtomicUsize = AtomicUsize::new(usize::MAX);
/// The bytes that are allocated now, and the most of them so far.
static NOW: AtomicUsize = AtomicUsize::new(0);
static MOST: AtomicUsize = AtomicUsize::new(0);

fn is_refused() -> bool {
    let left = LEFT.load(Ordering::Relaxed);
    if left != usize::MAX {
        LEFT.store(left.wrapping_sub(1), Ordering::Relaxed);
    }
    left == 0
}

fn add(bytes: usize) {
    let now = NOW.fetch_add(bytes, Ordering::Relaxed) + bytes;
    MOST.fetch_max(now, Ordering::Relaxed);
}

// SAFETY: it does what the system's allocator does, or returns no memory.
unsafe impl GlobalAlloc for Counting {
    unsafe fn alloc(&self, layout: Layout) -> *mut u8 {
        if is_refused() {
            return std::ptr::null_mut();
        }
        add(layout.size());
        unsafe { System.alloc(layout) }
    }

    unsafe fn dealloc(&self, place: *mut u8, layout: Layout) {
        NOW.fetch_sub(layout.size(), Ordering::Relaxed);
        unsafe { System.dealloc(place, layout) }
    }

    // For a moment both places may be there.
    unsafe fn realloc(&self, place: *mut u8, layout: Layout, size: usize) -> *mut u8 {
        if is_refused() {
            return std::ptr::null_mut();
        }
        add(size);
        NOW.fetch_sub(layout.size(), Ordering::Relaxed);
        unsafe { System.realloc(place, layout, size) }
    }
}

#[global_allocator]
static ALLOCATOR: Counting = Counting;

/// Runs, and returns the most bytes that were allocated meanwhile beyond those before.
pub fn most<T>(run: impl FnOnce() -> T) -> (T, usize) {
    let before = NOW.load(Ordering::Relaxed);
    MOST.store(before, Ordering::Relaxed);
    let found = run();
    (found, MOST.load(Ordering::Relaxed) - before)
}

/// Runs while an allocation fails, and returns whether there was such a one.
pub fn refusing<T>(number: usize, run: impl FnOnce() -> T) -> (T, bool) {
    LEFT.store(number, Ordering::Relaxed);
    let found = run();
    (found, LEFT.swap(usize::MAX, Ordering::Relaxed) > number)
}
