//! Reading, writing and printing allocate nothing: an allocator that counts sees none.
use std::alloc::{GlobalAlloc, Layout, System};
use std::cell::Cell;
use std::fmt::Write;
use tsintovehy::*;

struct Counting;

// Each thread counts its own, since the test harness has threads too.
thread_local! {
    static ALLOCATED: Cell<usize> = const { Cell::new(0) };
}

unsafe impl GlobalAlloc for Counting {
    unsafe fn alloc(&self, layout: Layout) -> *mut u8 {
        ALLOCATED.with(|count| count.set(count.get() + 1));
        System.alloc(layout)
    }

    unsafe fn dealloc(&self, place: *mut u8, layout: Layout) {
        System.dealloc(place, layout)
    }
}

#[global_allocator]
static COUNTING: Counting = Counting;

/// A place to print to that is not on the heap.
struct Line {
    bytes: [u8; 80],
    used: usize,
}

impl Write for Line {
    fn write_str(&mut self, s: &str) -> std::fmt::Result {
        let end = self.used + s.len();
        self.bytes.get_mut(self.used..end).ok_or(std::fmt::Error)?.copy_from_slice(s.as_bytes());
        self.used = end;
        Ok(())
    }
}

/// How many allocations `work` makes.
fn allocations(work: impl FnOnce()) -> usize {
    let before = ALLOCATED.with(Cell::get);
    work();
    ALLOCATED.with(Cell::get) - before
}

#[test]
fn nothing_is_allocated() {
    let mut line = Line { bytes: [0; 80], used: 0 };
    let seen = allocations(|| {
        let square: Square = "18twl856641113154".parse().unwrap();
        let refused = "18TW".parse::<Reading>().unwrap_err();
        write!(line, "{} {} {}", square.shorten(2).unwrap(), "18t".parse::<Reading>().unwrap(), refused).unwrap();
        let mut out = [0; LONGEST];
        assert_eq!(shorten(b"18twl856641113154", 0, &mut out), Ok(5));
        assert!(covers(&out[..5], b"18TWL8511").unwrap());
    });
    assert_eq!(&line.bytes[..line.used], b"18TWL8511 18T refusal 7: exactly one byte follows the band");
    assert_eq!(seen, 0);
    assert_ne!(allocations(|| drop(String::from("18T"))), 0, "the allocator does not count");
}
