//! Texts to read: every short one, every block of letters, and sound, damaged and wild ones at random.
use crate::ask::Sheet;
use crate::rng::Rng;
use std::io::Write;

pub const UTM_BANDS: &[u8] = b"CDEFGHJKLMNPQRSTUVWX";
pub const UPS_BANDS: &[u8] = b"ABYZ";
pub const UTM_COLUMNS: [&[u8]; 3] = [b"ABCDEFGH", b"JKLMNPQR", b"STUVWXYZ"];
pub const UTM_ROWS: &[u8] = b"ABCDEFGHJKLMNPQRSTUV";
pub const UPS_COLUMNS: [&[u8]; 4] = [b"JKLPQRSTUXYZ", b"ABCFGHJKLPQR", b"RSTUXYZ", b"ABCFGHJ"];
pub const UPS_ROWS: [&[u8]; 2] = [b"ABCDEFGHJKLMNPQRSTUVWXYZ", b"ABCDEFGHJKLMNP"];

/// Characters of two, three and four bytes, among them two whose lower or upper case is an ASCII letter.
const HIGH: [&str; 7] = ["é", "ſ", "\u{212A}", "€", "１", "𝄞", "\u{80}"];

/// All texts of up to three ASCII bytes: 2,113,665.
pub fn short<W: Write>(sheet: &mut Sheet<W>) {
    for length in 0..=3 {
        for number in 0..128_u32.pow(length) {
            let text: String = (0..length).map(|k| (number >> (7 * k) & 127) as u8 as char).collect();
            sheet.read(&text);
        }
    }
}

/// Every zone as a text: none, one digit, two digits, and some that are no zone.
pub fn zone_texts() -> Vec<String> {
    let mut all = vec![String::new()];
    all.extend((0..10).map(|z| format!("{z}")));
    all.extend((0..62).map(|z| format!("{z:02}")));
    all.extend(["99", "018", "100"].iter().map(|z| z.to_string()));
    all
}

/// Every zone text with every three letters from A to Z: band, column, row.
pub fn blocks<W: Write>(sheet: &mut Sheet<W>) {
    for zone in zone_texts() {
        for n in 0..26 * 26 * 26_u32 {
            let letter = |n: u32| (b'A' + (n % 26) as u8) as char;
            let text: String = zone.chars().chain([letter(n / 676), letter(n / 26), letter(n)]).collect();
            sheet.read(&text);
        }
    }
}

/// n digits of one of a few kinds: many squares begin or end at such ones.
pub fn digits(rng: &mut Rng, n: usize) -> String {
    let kind = rng.below(8);
    (0..n)
        .map(|k| match kind {
            0 => '0',
            1 => '9',
            2 if k == 0 => '5',
            2 => '0',
            3 if k == 0 => '4',
            3 => '9',
            _ => (b'0' + rng.below(10) as u8) as char,
        })
        .collect()
}

/// Letters of the right sets, which an allowed row may still not have.
pub fn block(rng: &mut Rng) -> String {
    let mut text = String::new();
    let letters = if rng.once_in(6) {
        let band = rng.below(4) as usize;
        [UPS_BANDS[band], rng.pick(UPS_COLUMNS[band]), rng.pick(UPS_ROWS[band / 2])]
    } else {
        let zone = 1 + rng.below(60) as usize;
        text = if rng.once_in(4) { format!("{zone}") } else { format!("{zone:02}") };
        [rng.pick(UTM_BANDS), rng.pick(UTM_COLUMNS[(zone - 1) % 3]), rng.pick(UTM_ROWS)]
    };
    text.extend(letters.iter().map(|b| *b as char));
    text
}

/// Some letters made small.
fn cased(rng: &mut Rng, text: String) -> String {
    match rng.below(4) {
        0 => text.to_ascii_lowercase(),
        1 => text.chars().map(|c| if rng.once_in(2) { c.to_ascii_lowercase() } else { c }).collect(),
        _ => text,
    }
}

/// A block with digits for p from 0 to 7, more than seven being past the domain.
pub fn sound(rng: &mut Rng) -> String {
    let p = rng.below(8) as usize;
    let text = block(rng) + &digits(rng, p) + &digits(rng, p);
    cased(rng, text)
}

/// One byte, ASCII letter, digit or character of many bytes put in, taken out or exchanged.
fn damaged(rng: &mut Rng, text: &str) -> String {
    let mut chars: Vec<char> = text.chars().collect();
    let at = rng.below(chars.len() as u64 + 1) as usize;
    let new = match rng.below(8) {
        0 => rng.pick(&HIGH).chars().next().unwrap(),
        1 | 2 => (b'0' + rng.below(10) as u8) as char,
        3 | 4 => (b'A' + rng.below(26) as u8) as char,
        _ => rng.below(128) as u8 as char,
    };
    match rng.below(5) {
        0 => chars.insert(at, new),
        1 if at < chars.len() => drop(chars.remove(at)),
        2 if at + 1 < chars.len() => chars.swap(at, at + 1),
        3 => chars.truncate(at),
        _ if at < chars.len() => chars[at] = new,
        _ => chars.push(new),
    }
    chars.into_iter().collect()
}

/// Up to nine leading digits before what may follow a zone.
fn leading(rng: &mut Rng) -> String {
    let n = 1 + rng.below(9) as usize;
    let zeros = rng.below(3) as usize;
    let lead: String = "00".chars().take(zeros).collect::<String>() + &digits(rng, n - n.min(zeros));
    let rest: String = sound(rng).chars().skip_while(char::is_ascii_digit).collect();
    lead + &rest
}

/// Bytes of any kind, or of the kinds that references have.
fn wild(rng: &mut Rng) -> String {
    const LIKELY: &[u8] = b"0123456789ABCDEFGHIJKLMNOPQRSTUVWXYZabcdefghijklmnopqrstuvwxyz";
    let n = rng.below(19);
    let any = rng.once_in(2);
    (0..n).map(|_| if any { rng.below(128) as u8 } else { rng.pick(LIKELY) } as char).collect()
}

pub fn random<W: Write>(sheet: &mut Sheet<W>, rng: &mut Rng, times: u64) {
    for _ in 0..times {
        let text = match rng.below(16) {
            0..=6 => sound(rng),
            7..=10 => {
                let text = sound(rng);
                damaged(rng, &text)
            }
            11 => {
                let text = sound(rng);
                let once = damaged(rng, &text);
                damaged(rng, &once)
            }
            12 => leading(rng),
            13 => rng.pick(&["INV", "inv", "iNv", "IN", "NV"]).to_string() + &wild(rng),
            14 => sound(rng) + &wild(rng),
            _ => wild(rng),
        };
        sheet.read(&text);
    }
}
