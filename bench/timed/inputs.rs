//! Texts to read, made up before the clock runs and the same for the same seed. Whether a text is sound, or by which number it
//! is refused, is the Rust's word; checks.rs holds our side to it.
use crate::numbers::reading_number;
use crate::rng::Rng;
use geoconvert::{Error, Mgrs};

/// So many inputs in every case that is timed: more than a processor keeps in mind of its branches.
pub const MANY: usize = 4096;
/// And so many where instructions are counted, which takes an emulator a microsecond each.
pub const FEW: usize = 64;
pub const REFUSALS: u32 = 13;
const FIXED: &str = "18TWL8566411131";

/// The rows that the goals are about.
pub const MIXED: &str = "UTM, 5+5, mixed";
pub const POLAR: &str = "UPS, 5+5, mixed";
pub const LONG: &str = "UTM, 11+11, mixed";
pub const BARE: &str = "bare zones, mixed";
pub const MIXTURE: &str = "refused, 1 to 13 mixed";

/// The texts of one row of a table. `compared`: the Rust's answer is one that ours has to equal.
pub struct Case {
    pub name: String,
    pub texts: Vec<String>,
    pub compared: bool,
}

/// The number by which the Rust refuses, or none where it reads.
pub fn number_of(text: &str) -> Option<u32> {
    match Mgrs::parse_str(text) {
        Ok(_) => None,
        Err(Error::InvalidMgrs(message)) => Some(reading_number(&message)),
        Err(other) => panic!("the Rust has an error that no rule has: {other:?}"),
    }
}

fn letter(rng: &mut Rng) -> char {
    (b'A' + rng.below(26) as u8) as char
}

fn digits(rng: &mut Rng, n: usize) -> String {
    (0..n).map(|_| (b'0' + rng.below(10) as u8) as char).collect()
}

/// The shape of a reference with p digits an axis: any letters, so that few are sound.
fn shape(rng: &mut Rng, ups: bool, p: usize) -> String {
    let zone = if ups { String::new() } else { format!("{:02}", rng.from_to(1, 60)) };
    let letters: String = (0..3).map(|_| letter(rng)).collect();
    zone + &letters + &digits(rng, 2 * p)
}

fn sound(rng: &mut Rng, ups: bool, p: usize) -> String {
    loop {
        let text = shape(rng, ups, p);
        if number_of(&text).is_none() {
            return text;
        }
    }
}

fn bare(rng: &mut Rng) -> String {
    loop {
        let zone = if rng.once_in(16) { String::new() } else { format!("{:02}", rng.from_to(1, 60)) };
        let text = zone + &letter(rng).to_string();
        if number_of(&text).is_none() {
            return text;
        }
    }
}

/// One character exchanged for another.
fn exchanged(text: &str, at: usize, new: char) -> String {
    text.chars().enumerate().map(|(k, c)| if k == at { new } else { c }).collect()
}

/// A sound reference of 5 + 5 digits, altered so that it may be refused by this number. 5 and 7 have no digits by their rules.
fn altered(rng: &mut Rng, number: u32) -> String {
    let text = sound(rng, false, 5);
    match number {
        1 => exchanged(&text, rng.below(15) as usize, 'é'),
        2 => format!("INV{}", &text[3..]),
        3 => format!("{:02}{}", rng.from_to(61, 100) % 100, &text[2..]),
        4 => format!("0{text}"),
        5 => text[..2].to_string(),
        7 => text[..4].to_string(),
        11 => exchanged(&text, rng.from_to(5, 14) as usize, letter(rng)),
        12 => text[..14].to_string(),
        13 => text + &digits(rng, 14),
        // Of any letters most are refused, by one of 6, 8, 9 and 10.
        _ => shape(rng, false, 5),
    }
}

fn refused(rng: &mut Rng, number: u32) -> String {
    loop {
        let text = altered(rng, number);
        if number_of(&text) == Some(number) {
            return text;
        }
    }
}

fn case(name: &str, many: usize, make: impl FnMut(usize) -> String) -> Case {
    Case { name: name.to_string(), texts: (0..many).map(make).collect(), compared: true }
}

/// The sound ones. The Rust reads more than seven digits an axis too, but its 32-bit sums wrap there.
pub fn sound_cases(rng: &mut Rng, many: usize) -> Vec<Case> {
    let mixed = case(MIXED, many, |_| sound(rng, false, 5));
    let small = case("UTM, 5+5, small letters", many, |k| mixed.texts[k].to_ascii_lowercase());
    let mut cases = vec![case(FIXED, many, |_| FIXED.to_string()), mixed, small];
    cases.push(case(POLAR, many, |_| sound(rng, true, 5)));
    for p in [0, 2, 7, 11] {
        cases.push(case(&format!("UTM, {p}+{p}, mixed"), many, |_| sound(rng, false, p)));
    }
    cases.last_mut().unwrap().compared = false;
    cases.push(case(BARE, many, |_| bare(rng)));
    cases
}

/// One case for each refusal, and the mixture of all of them in equal parts.
pub fn refused_cases(rng: &mut Rng, many: usize) -> Vec<Case> {
    const WHY: [&str; REFUSALS as usize] = [
        "a byte of 128 or more", "INV", "the zone's value", "three zone digits", "nothing behind the zone", "the band",
        "no row letter", "the column", "the row", "the block", "a letter among digits", "9 digits", "24 digits",
    ];
    let named = |n: u32| format!("refused {n}: {}", WHY[n as usize - 1]);
    let mut cases: Vec<Case> = (1..=REFUSALS).map(|n| case(&named(n), many, |_| refused(rng, n))).collect();
    cases.push(case(MIXTURE, many, |_| {
        let number = 1 + rng.below(u64::from(REFUSALS)) as u32;
        refused(rng, number)
    }));
    cases
}

/// Cases without texts are filled with those that were drawn before, FEW to a case.
pub fn fill<'a>(cases: impl Iterator<Item = &'a mut Case>, drawn: &str) {
    let mut lines = drawn.lines();
    for case in cases {
        case.texts = lines.by_ref().take(FEW).map(str::to_string).collect();
    }
}

/// Lines for the listing program: of sixteen, ten are UTM with 5 + 5 digits, one of these in small letters.
pub fn line(rng: &mut Rng) -> String {
    match rng.below(16) {
        0 => sound(rng, false, 5).to_ascii_lowercase(),
        1..=9 => sound(rng, false, 5),
        10 => sound(rng, true, 5),
        11 | 12 => {
            let p = rng.below(12) as usize;
            sound(rng, false, p)
        }
        13 => bare(rng),
        _ => {
            let number = 1 + rng.below(u64::from(REFUSALS)) as u32;
            refused(rng, number)
        }
    }
}
