//! How the cost of a call grows with the length of the text.
use crate::clock::{measure, Figure, Plan};
use crate::inputs::number_of;
use crate::ours;
use crate::passes;
use crate::quiet::quietly;
use crate::numerals::{shown, whole};
use crate::theirs;

const LENGTHS: [usize; 7] = [10, 22, 100, 1_000, 10_000, 100_000, 1_000_000];

/// What stands n times in the text, and what ends it: the last byte of U+0080 is 128, and so a `&str` can have it.
const KINDS: [(&str, fn(usize) -> String); 4] = [
    ("18TWL and n digits", |n| format!("18TWL{}", "8566411131".repeat(n / 10 + 1).split_at(n).0)),
    ("n leading digits and TWL", |n| "1".repeat(n) + "TWL"),
    ("n bytes, the last of them 128", |n| "8".repeat(n - 2) + "\u{80}"),
    ("n letters T", |n| "T".repeat(n)),
];

/// The Rust's answer in words. Nothing is compared here: past the compared domain its 32-bit sums wrap.
fn rust_answer(text: &str) -> String {
    match quietly(|| number_of(text)) {
        Some(None) => "read".to_string(),
        Some(Some(number)) => format!("refused {number}"),
        None => "panics".to_string(),
    }
}

fn our_answer(text: &str) -> String {
    let answer = ours::read(text.as_bytes(), &mut [0; 6]);
    if answer < 0 { format!("refused {}", -answer) } else { "read".to_string() }
}

fn cells(figure: &Option<Figure>, length: usize) -> String {
    figure.as_ref().map_or("- | -".to_string(), |f| format!("{} | {:.3}", shown(f.best()), f.best() / length as f64))
}

fn row(plan: Plan, name: &str, n: usize, text: &str) {
    // Short texts are read many times a pass, so that the loop weighs little.
    let many = (60_000 / text.len()).max(1);
    let texts = vec![text; many];
    let kept = vec![theirs::text(text); many];
    let (here, there) = (our_answer(text), rust_answer(text));
    let rust = if there == "panics" { None } else { Some(passes::rust_read(&texts, false)) };
    let other = if theirs::is_here() { Some(passes::their_read(&kept, false)) } else { None };
    let figures = measure(plan, many, vec![Some(passes::read(&texts, false, ours::read)), rust, other]);
    let all: Vec<String> = figures.iter().map(|f| cells(f, text.len())).collect();
    println!("| {name} | {} | {here} | {there} | {} |", whole(n as f64), all.join(" | "));
}

pub fn tables(plan: Plan) {
    let sides = "ours, ns | a byte | the Rust, ns | a byte | GeographicLib, ns | a byte";
    println!("\n| text | n | ours answers | the Rust answers | {sides} |");
    println!("|{}", "---|".repeat(10));
    for (name, make) in KINDS {
        for n in LENGTHS {
            row(plan, name, n, &make(n));
        }
    }
}
