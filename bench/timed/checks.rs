//! Before the clock runs every answer is held to the other sides': a benchmark of wrong answers is none.
use crate::calls::Point;
use crate::inputs::{number_of, Case};
use crate::limit;
use crate::numbers::range_number;
use crate::ours;
use crate::points::{Job, Jobs};
use crate::theirs;
use geoconvert::Mgrs;

/// What is wrong, in words; nothing where all is well.
pub type Wrong = Result<(), String>;

/// The metres answer is the units' one, divided once; and plain C answers the same, also in what a refusal leaves.
fn units_and_metres(text: &str) -> Result<(i64, [f64; 2]), String> {
    let (mut position, mut metres) = ([7; 6], [7.0; 2]);
    let answer = ours::read(text.as_bytes(), &mut position);
    let again = ours::read_metres(text.as_bytes(), &mut metres);
    let divided = [position[4] as f64 / 2_000_000.0, position[5] as f64 / 2_000_000.0];
    if answer != again || answer >= 0 && metres != divided {
        return Err(format!("{text}: mgrs_read and mgrs_read_metres part: {answer} {again}"));
    }
    let (mut units, mut f64s) = ([7; 6], [7.0; 2]);
    let limit = (limit::read(text.as_bytes(), &mut units), limit::read_metres(text.as_bytes(), &mut f64s));
    if (answer, answer) != limit || position != units || metres != f64s {
        return Err(format!("{text}: ours {answer} {position:?}, plain C {limit:?} {units:?}"));
    }
    Ok((answer, metres))
}

/// Bit for bit, and a refusal by its number.
fn with_rust(text: &str, answer: i64, metres: [f64; 2]) -> Wrong {
    let same = match (Mgrs::parse_str(text), number_of(text)) {
        (Ok(m), _) => {
            let bits = |a: f64, b: f64| a.to_bits() == b.to_bits();
            answer == i64::from(m.precision() < 0) && bits(m.easting(), metres[0]) && bits(m.northing(), metres[1])
        }
        (Err(_), number) => Some(-answer) == number.map(i64::from),
    };
    if same { Ok(()) } else { Err(format!("{text}: ours {answer} {metres:?}, the Rust otherwise")) }
}

/// To ten nanometres, a fiftieth of a unit, since it rounds twice at 11 digits; a refusal by any reason.
fn with_theirs(text: &str, answer: i64, metres: [f64; 2]) -> Wrong {
    let mut other = [0.0; 2];
    let p = theirs::read(theirs::text(text), &mut other);
    let near = |k: usize| (metres[k] - other[k]).abs() < 1e-8;
    let same = if answer < 0 { p == -2 } else { (p == -1) == (answer == 1) && p > -2 && near(0) && near(1) };
    if same { Ok(()) } else { Err(format!("{text}: ours {answer} {metres:?}, GeographicLib {p} {other:?}")) }
}

pub fn read(case: &Case) -> Wrong {
    for text in &case.texts {
        let (answer, metres) = units_and_metres(text)?;
        if case.compared {
            with_rust(text, answer, metres)?;
        }
        if theirs::is_here() {
            with_theirs(text, answer, metres)?;
        }
    }
    Ok(())
}

/// What our writer does, or plain C's. Bytes beyond the text that did not stay are put behind it, so that it is not the text wanted.
fn our_text(job: &Job, write: impl Fn(&Point, &mut [u8]) -> i64) -> Result<String, u32> {
    let mut out = [b'~'; 27];
    let length = write(&job.ours, &mut out[..job.room]);
    let kept = out[length.max(0) as usize..].iter().all(|b| *b == b'~');
    match length {
        n if n < 0 && kept => Err(-n as u32),
        n if kept => Ok(String::from_utf8_lossy(&out[..n as usize]).into_owned()),
        n => Ok(format!("{}, of them {n} told", String::from_utf8_lossy(&out))),
    }
}

fn rust_text(job: &Job) -> Result<String, u32> {
    let at = &job.theirs;
    match Mgrs::create(at.zone, at.north, at.easting, at.northing, at.p) {
        Ok(made) => Ok(made.to_string()),
        Err(error) => Err(range_number(&error)),
    }
}

fn their_text(job: &Job) -> Result<String, u32> {
    let mut text = std::ptr::null();
    let length = theirs::write(&job.theirs, &mut text);
    if length < 0 { Err(0) } else { Ok(theirs::written(text, length)) }
}

/// The Rust's texts were made from the points that it read; here they are made from the numbers, by `create`.
pub fn write(row: &Jobs) -> Wrong {
    for job in &row.jobs {
        let (ours, limit) = (our_text(job, ours::write), our_text(job, limit::write));
        if ours != job.answer || limit != job.answer {
            return Err(format!("{:?}: ours {ours:?}, plain C {limit:?}, wanted {:?}", job.ours, job.answer));
        }
        if row.shared && rust_text(job) != job.answer {
            return Err(format!("{:?}: the Rust {:?}, wanted {:?}", job.ours, rust_text(job), job.answer));
        }
        if row.shared && theirs::is_here() && their_text(job).ok() != job.answer.clone().ok() {
            return Err(format!("{:?}: GeographicLib {:?}, wanted {:?}", job.ours, their_text(job), job.answer));
        }
    }
    Ok(())
}

/// The listing's lines, held to what `mgrs_read` answers.
pub fn listing(texts: &[u8], listed: &str) -> Wrong {
    let (mut number, mut lines) = (0, listed.lines());
    // Every line is ended, so behind the last end there is none.
    for text in texts.split(|b| *b == b'\n').take(texts.iter().filter(|b| **b == b'\n').count()) {
        number += 1;
        let mut q = [0; 6];
        let answer = ours::read(text, &mut q);
        let side = if q[1] == 1 { 'N' } else { 'S' };
        let wanted = match answer {
            n if n < 0 => format!("{number} R {}", -n),
            _ => format!("{number} {} {side} {} {} {} {}", q[0], q[2] as u8 as char, q[3], q[4], q[5]),
        };
        if lines.next() != Some(&wanted) {
            return Err(format!("line {number} of the listing is not: {wanted}"));
        }
    }
    if lines.next().is_some() { Err("the listing has more lines".to_string()) } else { Ok(()) }
}
