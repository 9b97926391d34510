//! A run that is not refused is counted and written without taking memory.

use std::alloc::{GlobalAlloc, Layout, System};
use std::cell::Cell;
use table_text::{FormattingFlags, Run};

thread_local! {
    static TAKEN: Cell<usize> = const { Cell::new(0) };
}

/// The system's, and counts how often a thread takes memory.
struct Counting;

unsafe impl GlobalAlloc for Counting {
    unsafe fn alloc(&self, layout: Layout) -> *mut u8 {
        TAKEN.set(TAKEN.get() + 1);
        System.alloc(layout)
    }

    unsafe fn dealloc(&self, place: *mut u8, layout: Layout) {
        System.dealloc(place, layout);
    }
}

#[global_allocator]
static ALLOCATOR: Counting = Counting;

#[test]
fn a_run_that_is_not_refused_takes_no_memory() {
    let mut run = Run::new(FormattingFlags::NEW);
    let mut s = run.debug_struct("Move");
    s.field("x").write_i32_debug(1200);
    s.finish();
    let mut packet = [0; 16];
    let before = TAKEN.get();
    assert_eq!(run.count(), Ok(16));
    assert_eq!(run.write(&mut packet, 0), Ok(16));
    assert_eq!(TAKEN.get(), before);
    // The counter does count.
    assert!(run.write(&mut packet, 1).is_err());
    assert!(before < TAKEN.get());
}
