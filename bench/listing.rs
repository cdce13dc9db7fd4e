//! Times the listing program beside `wc -l` on the same files: the whole of a process, from its start to its end.
//! Use: listing ROUNDS PROGRAM [WORD] -- FILE...
//! Each row is one file: its lines, then for both the best time of so many, what that is for a line, lines and bytes a second.
#[path = "timed/numerals.rs"]
mod numerals;

use numerals::whole;
use std::fs::File;
use std::process::{exit, Command, Stdio};
use std::time::Instant;

/// Seconds. What it writes goes to /dev/null.
fn time(words: &[&str], file: &str) -> f64 {
    let input = File::open(file).expect("the file can be read");
    let start = Instant::now();
    let status = Command::new(words[0]).args(&words[1..]).stdin(input).stdout(Stdio::null()).status();
    let taken = start.elapsed().as_secs_f64();
    match status {
        Ok(status) if status.success() => taken,
        other => {
            eprintln!("bench: {words:?} failed: {other:?}");
            exit(1)
        }
    }
}

fn cells(seconds: f64, lines: f64, bytes: f64) -> String {
    let ms = format!("{:.2}", seconds * 1e3);
    if lines == 0.0 {
        return format!("{ms} | - | - | -");
    }
    format!("{ms} | {:.1} | {} | {:.1}", seconds * 1e9 / lines, whole(lines / seconds), bytes / seconds / 1e6)
}

/// The first turn of each is not counted: it reads the file into memory.
fn row(rounds: usize, program: &[&str], file: &str) {
    let bytes = std::fs::read(file).expect("the file can be read");
    let (lines, size) = (bytes.iter().filter(|b| **b == b'\n').count() as f64, bytes.len() as f64);
    drop(bytes);
    let sides = [program, &["wc", "-l"]];
    let mut best = [f64::MAX; 2];
    for round in 0..=rounds {
        for (k, words) in sides.iter().enumerate() {
            let taken = time(words, file);
            if round > 0 {
                best[k] = best[k].min(taken);
            }
        }
    }
    let (ours, wc) = (cells(best[0], lines, size), cells(best[1], lines, size));
    println!("| {} | {} | {ours} | {wc} | {:.1} |", whole(lines), whole(size), best[0] / best[1]);
}

fn main() {
    let words: Vec<String> = std::env::args().collect();
    let words: Vec<&str> = words.iter().map(String::as_str).collect();
    let rounds = words[1].parse().expect("a number of rounds");
    let split = words.iter().position(|w| *w == "--").expect("-- before the files");
    let side = |name: &str| format!("{name}, ms | ns a line | lines a second | MB a second");
    println!("| lines | bytes | {} | {} | list / wc |", side("list"), side("wc -l"));
    println!("|{}", "---|".repeat(11));
    for file in &words[split + 1..] {
        row(rounds, &words[2..split], file);
    }
}
