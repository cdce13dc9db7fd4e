//! Asks the Rust, and writes each question with its answer to standard output, a line each; the counts go to standard error.
//! Use: feed short|full|list|parted SEED
mod ask;
mod degrees;
mod list;
mod numbers;
mod parted;
mod points;
mod rng;
mod texts;

use ask::{Sheet, KINDS};
use rng::Rng;
use std::io::{BufWriter, Write};

#[cfg(lent)]
extern "C" {
    fn lent_latitude(lon0: f64, x: f64, y: f64) -> f64;
}

#[cfg(lent)]
fn lend() {
    geoconvert::mgrs::doors::LENDER.with(|l| l.set(Some(|lon0, x, y| unsafe { lent_latitude(lon0, x, y) })));
}

#[cfg(not(lent))]
fn lend() {}

/// What is not exhaustive, `many` times over.
fn run<W: Write>(sheet: &mut Sheet<W>, rng: &mut Rng, all: bool, many: u64) {
    texts::short(sheet);
    texts::blocks(sheet);
    texts::random(sheet, rng, 700_000 * many);
    points::tiles(sheet);
    points::write(sheet, rng, 200_000 * many);
    points::ranges(sheet, rng, 100_000 * many);
    degrees::bands(sheet, rng, 20_000 * many);
    degrees::zones(sheet, rng, all, 40_000 * many);
    degrees::rows(sheet);
}

/// Where the Rust did what no list explains, it is said, and the exit status is 1.
fn report<W: Write>(sheet: &Sheet<W>) {
    for kind in KINDS {
        eprintln!("{kind} {}", sheet.lines.get(kind).unwrap_or(&0));
    }
    for (why, n) in &sheet.apart {
        eprintln!("apart {n} {why}");
    }
    for what in &sheet.strange {
        eprintln!("strange {what}");
    }
    if !sheet.strange.is_empty() {
        std::process::exit(1);
    }
}

fn main() {
    let words: Vec<String> = std::env::args().collect();
    let seed = words.get(2).and_then(|s| s.parse().ok()).expect("a seed");
    // A panic of the Rust is an answer, and is counted.
    std::panic::set_hook(Box::new(|_| {}));
    lend();
    let mut sheet = Sheet::new(BufWriter::with_capacity(1 << 20, std::io::stdout()));
    let mut rng = Rng::new(seed);
    match words[1].as_str() {
        "short" => run(&mut sheet, &mut rng, false, 4),
        "full" => run(&mut sheet, &mut rng, true, 40),
        "list" => list::list(&mut sheet, &mut rng),
        "parted" => parted::parted(&mut sheet),
        _ => std::process::exit(2),
    }
    sheet.flush();
    report(&sheet);
}
