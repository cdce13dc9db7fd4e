//! What a row is measured by: the clock, or instructions that an emulator counts. It logs each instruction with the function that has
//! it; bench/run counts those between the two marks, and a second run of the program puts the numbers into the same tables.
use crate::clock::{measure, Figure, Pass, Plan};
use std::arch::asm;
use std::cell::RefCell;
use std::vec::IntoIter;

pub enum Gauge {
    Clock(Plan),
    /// Runs every pass between the marks.
    Mark,
    /// The numbers that were counted so, in order.
    Counted(RefCell<IntoIter<f64>>),
}

/// The marks. They differ, since a compiler makes one of two functions that are alike.
#[no_mangle]
#[inline(never)]
pub extern "C" fn count_begins() {
    unsafe { asm!("nop", options(nostack, preserves_flags)) }
}

#[no_mangle]
#[inline(never)]
pub extern "C" fn count_ends() {
    unsafe { asm!("nop", "nop", options(nostack, preserves_flags)) }
}

fn mark(mut pass: Pass) -> Figure {
    count_begins();
    pass();
    count_ends();
    Figure::of(0.0)
}

impl Gauge {
    pub fn counted(numbers: &str) -> Gauge {
        let numbers: Vec<f64> = numbers.lines().map(|n| n.parse().expect("a number on each line")).collect();
        Gauge::Counted(RefCell::new(numbers.into_iter()))
    }

    pub fn unit(&self) -> &'static str {
        if let Gauge::Clock(_) = self { "ns" } else { "instructions" }
    }

    /// The figures of all sides of one row, each pass having so many calls. A side that is not asked has none.
    pub fn measure(&self, calls: usize, sides: Vec<Option<Pass>>) -> Vec<Option<Figure>> {
        match self {
            Gauge::Clock(plan) => measure(*plan, calls, sides),
            Gauge::Mark => sides.into_iter().map(|side| side.map(mark)).collect(),
            Gauge::Counted(numbers) => {
                let mut numbers = numbers.borrow_mut();
                let mut next = |_| Figure::of(numbers.next().expect("a number for each side of each row") / calls as f64);
                sides.into_iter().map(|side| side.map(&mut next)).collect()
            }
        }
    }
}
