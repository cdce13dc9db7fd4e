//! Latitudes and longitudes, in billionths of a degree, and the rows of every band, column and letter.
use crate::ask::Sheet;
use crate::rng::Rng;
use std::io::Write;

pub const DEGREE: i64 = 1_000_000_000;

/// Whole degrees from lowest to highest, and a billionth to each side of each.
pub fn around(lowest: i64, highest: i64) -> Vec<i64> {
    (lowest..=highest).flat_map(|d| [d * DEGREE - 1, d * DEGREE, d * DEGREE + 1]).collect()
}

pub fn bands<W: Write>(sheet: &mut Sheet<W>, rng: &mut Rng, times: u64) {
    for latitude in around(-200, 200) {
        sheet.band(latitude);
    }
    for _ in 0..times {
        sheet.band(rng.from_to(-90 * DEGREE, 90 * DEGREE));
        // Above 2,147,483,568 degrees the Rust's sum wraps, as listed.
        sheet.band(rng.from_to(i64::MIN / 4, 2_147_483_567 * DEGREE));
    }
}

/// Inside the compared domain: latitude -90..90, longitude -180..180.
fn zone<W: Write>(sheet: &mut Sheet<W>, latitude: i64, longitude: i64) {
    if latitude.abs() <= 90 * DEGREE && longitude.abs() <= 180 * DEGREE {
        sheet.zone(latitude, longitude);
    }
}

/// At every whole degree of both, where `all`; otherwise where a rule changes, at every whole longitude.
pub fn zones<W: Write>(sheet: &mut Sheet<W>, rng: &mut Rng, all: bool, times: u64) {
    let latitudes: Vec<i64> = if all {
        around(-90, 90)
    } else {
        [-90, -80, -72, 0, 56, 64, 72, 84, 90].iter().flat_map(|d| around(*d, *d)).collect()
    };
    for latitude in latitudes {
        for longitude in around(-180, 180) {
            zone(sheet, latitude, longitude);
        }
    }
    for _ in 0..times {
        let latitude = rng.from_to(-90 * DEGREE, 90 * DEGREE);
        zone(sheet, latitude, rng.from_to(-180 * DEGREE, 180 * DEGREE));
        // Norway and Svalbard.
        zone(sheet, rng.from_to(55 * DEGREE, 85 * DEGREE), rng.from_to(-DEGREE, 43 * DEGREE));
    }
}

/// All 3,200 questions that utm_row is ever asked.
pub fn rows<W: Write>(sheet: &mut Sheet<W>) {
    for band in -10..10 {
        for column in 0..8 {
            for letter in 0..20 {
                sheet.row(band, column, letter);
            }
        }
    }
}
