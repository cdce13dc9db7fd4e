//! One way over the inputs, for each side: what stands between two readings of the clock.
use crate::calls::Point;
use crate::clock::{hidden, seen, Pass};
use crate::points::Job;
use crate::theirs;
use geoconvert::Mgrs;
use std::fmt::Write;

/// The loop with nothing in it, which every figure has in it.
pub fn nothing<'a>(texts: &'a [&'a str]) -> Pass<'a> {
    Box::new(move || {
        for text in texts {
            seen(&hidden(*text));
        }
    })
}

/// What a reading fills: the units of a position, or metres. Its last number is what a later call can wait for.
pub trait Filled: Default {
    fn last(&self) -> usize;
}

impl Filled for [i64; 6] {
    fn last(&self) -> usize {
        self[5] as usize
    }
}

impl Filled for [f64; 2] {
    fn last(&self) -> usize {
        self[1].to_bits() as usize
    }
}

/// The inputs one after another. Where each call waits, its input is found only when the answer before it is there: the answer's
/// number, cut by a mask that is 0, is added to the place of the next input. The compiler does not know the mask.
fn walk<'a, T: Copy + 'a>(inputs: &'a [T], waits: bool, mut call: impl FnMut(T) -> usize + 'a) -> Pass<'a> {
    if !waits {
        return Box::new(move || {
            for input in inputs {
                call(hidden(*input));
            }
        });
    }
    Box::new(move || {
        let (mask, mut last) = (hidden(0), 0);
        for k in 0..inputs.len() {
            last = call(inputs[k + (last & mask)]);
        }
        seen(&last);
    })
}

/// Reading by our calls or by those of the limit, which are of one form.
pub fn read<'a, T: Filled + 'a>(texts: &'a [&'a str], waits: bool, call: impl Fn(&[u8], &mut T) -> i64 + 'a) -> Pass<'a> {
    let mut filled = T::default();
    walk(texts, waits, move |text| {
        let answer = call(text.as_bytes(), &mut filled);
        seen(&answer);
        seen(&filled);
        answer as usize + filled.last()
    })
}

/// A refusal's message is freed again: its caller cannot do without.
pub fn rust_read<'a>(texts: &'a [&'a str], waits: bool) -> Pass<'a> {
    walk(texts, waits, |text| {
        let answer = Mgrs::parse_str(text);
        seen(&answer);
        answer.as_ref().map_or(0, |m| m.northing().to_bits() as usize)
    })
}

pub fn their_read<'a>(texts: &'a [theirs::Text], waits: bool) -> Pass<'a> {
    let mut metres = [0.0; 2];
    walk(texts, waits, move |text| {
        let answer = theirs::read(text, &mut metres);
        seen(&answer);
        seen(&metres);
        answer as usize + metres.last()
    })
}

/// Writing by our call or by the limit's. What each side is handed is laid out beforehand, one behind the other.
pub fn write<'a>(jobs: &[Job], call: impl Fn(&Point, &mut [u8]) -> i64 + 'a) -> Pass<'a> {
    let points: Vec<(Point, usize)> = jobs.iter().map(|job| (job.ours, job.room)).collect();
    let mut out = [0; 27];
    Box::new(move || {
        for point in &points {
            let (at, room) = hidden(point);
            let length = call(at, &mut out[..*room]);
            seen(&length);
            seen(&out);
        }
    })
}

/// The Rust's cheapest way: from a value that is there already, into a string that is used again.
pub fn rust_write<'a>(jobs: &[Job]) -> Pass<'a> {
    let made: Vec<Mgrs> = jobs.iter().filter_map(|job| job.rust).collect();
    let mut out = String::with_capacity(64);
    Box::new(move || {
        for value in &made {
            out.clear();
            write!(out, "{}", hidden(value)).expect("a string has room");
            seen(&out);
        }
    })
}

/// From numbers, as our writer: `create`, and then the text unless that refuses.
pub fn rust_create<'a>(jobs: &[Job]) -> Pass<'a> {
    let points: Vec<theirs::Point> = jobs.iter().map(|job| job.theirs).collect();
    let mut out = String::with_capacity(64);
    Box::new(move || {
        for point in &points {
            let at = hidden(point);
            let answer = Mgrs::create(at.zone, at.north, at.easting, at.northing, at.p);
            if let Ok(value) = &answer {
                out.clear();
                write!(out, "{value}").expect("a string has room");
                seen(&out);
            }
            seen(&answer);
        }
    })
}

pub fn their_write<'a>(jobs: &[Job]) -> Pass<'a> {
    let points: Vec<theirs::Point> = jobs.iter().map(|job| job.theirs).collect();
    let mut text = std::ptr::null();
    Box::new(move || {
        for point in &points {
            let length = theirs::write(hidden(point), &mut text);
            seen(&length);
            seen(&text);
        }
    })
}
