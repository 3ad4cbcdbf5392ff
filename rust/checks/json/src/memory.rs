//! Counts the memory that a document takes.

use crate::shapes;
use fosibegan_core::plain_std::alloc::Global;
use fosibegan_core::plain_std::json::Value;
use std::alloc::{GlobalAlloc, Layout, System};
use std::sync::atomic::{AtomicUsize, Ordering::Relaxed};

/// How many items a document has: those after which a list that doubles has just grown, and as many more as it holds.
const COUNTS: [usize; 2] = [(1 << 17) + 1, 1 << 18];

static NOW: AtomicUsize = AtomicUsize::new(0);
static MOST: AtomicUsize = AtomicUsize::new(0);

struct Counted;

// SAFETY: each call is passed on as it is.
unsafe impl GlobalAlloc for Counted {
    unsafe fn alloc(&self, layout: Layout) -> *mut u8 {
        MOST.fetch_max(NOW.fetch_add(layout.size(), Relaxed) + layout.size(), Relaxed);
        System.alloc(layout)
    }

    unsafe fn dealloc(&self, pointer: *mut u8, layout: Layout) {
        NOW.fetch_sub(layout.size(), Relaxed);
        System.dealloc(pointer, layout)
    }
}

#[global_allocator]
static COUNTED: Counted = Counted;

/// The most memory that was asked for at one time, for each byte of a document. What grows is counted twice then.
pub fn most_for_each_byte() -> f64 {
    let mut most: f64 = 0.0;
    for (name, document) in COUNTS.into_iter().flat_map(shapes::heavy) {
        let before = NOW.load(Relaxed);
        MOST.store(before, Relaxed);
        let value = Value::from_slice(Global, &document);
        let taken = (MOST.load(Relaxed) - before) as f64 / document.len() as f64;
        drop(value);
        if NOW.load(Relaxed) != before {
            println!("{name}: memory is not given back");
            return f64::INFINITY;
        }
        if taken > most {
            println!("{name}: {taken:.1} bytes for each byte");
            most = taken;
        }
    }
    most
}
