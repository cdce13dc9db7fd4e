//! The fixed list of some 5,000 lines that the gate replays: each rule of document 01 from both sides, where the Rust has an
//! answer of its own. Points where it asks the projection are left out.
use crate::ask::{ends, Point, Sheet, TILE};
use crate::degrees::{around, DEGREE};
use crate::points::point;
use crate::rng::Rng;
use crate::texts::{self, UPS_BANDS, UPS_COLUMNS, UTM_BANDS, UTM_COLUMNS, UTM_ROWS};
use std::io::Write;

/// Lowest and highest row of the bands 0 to 9.
const LIMITS: [(i32, i32); 10] =
    [(0, 8), (8, 17), (17, 26), (26, 35), (35, 44), (44, 53), (53, 62), (62, 70), (71, 79), (80, 94)];

fn limits(band: i32) -> (i32, i32) {
    match band {
        -10 => (-90, -81),
        b if b < 0 => {
            let (low, high) = LIMITS[(-b - 1) as usize];
            (-high - 1, -low - 1)
        }
        b => LIMITS[b as usize],
    }
}

/// Document 01's own, and those of the source's documentation that need no projection.
fn examples<W: Write>(sheet: &mut Sheet<W>) {
    const TEXTS: &str = "18TWL856641113154 27UXQ0314512982 YXL6143481146 4qfj 04QFJ 18T 31V Z 31WCL 31WBL 31WFL 31WGL 31VCM \
        31VDM 31XBV 31XAV 31WBA 31WCA 31WCK 18 0 61C 018T inv 18I 18TW 18TAL 18TWW 18TWA 18TWAX 18TWLX 18TWL8 18TWL8: 18TWL/8 \
        100T 060T 32X 32XNG 34XDM 36XVS 4QFJ12345678 18TWL1234567 18TWL123456781234567 A B Y";
    sheet.read("");
    for text in TEXTS.split_whitespace() {
        sheet.read(text);
    }
    // Past the compared domain: 22 digits are the most, and the Rust tells 12 and 13 after sums that wrap.
    sheet.everywhere = true;
    sheet.read("18TWL01234567890123456789012");
    sheet.read("18TWL012345678901234567890123");
    sheet.everywhere = false;
    for zone in [18, -10, 70] {
        let at = Point { zone, north: true, easting: 1_171_328_242_000, northing: 9_022_630_844_000 };
        sheet.write(at, 6, true);
        sheet.mgrs(at);
        sheet.utm(at);
    }
}

/// Each letter from A to Z in each place, for each set.
fn letters<W: Write>(sheet: &mut Sheet<W>) {
    for letter in (b'A'..=b'Z').map(char::from) {
        sheet.read(&format!("18{letter}"));
        sheet.read(&format!("{letter}"));
        for zone in ["1", "2", "03"] {
            sheet.read(&format!("{zone}N{letter}A"));
        }
        for block in ["1NA", "2NJ", "59MS", "60MS"] {
            sheet.read(&format!("{block}{letter}"));
        }
        for (band, columns) in UPS_BANDS.iter().zip(UPS_COLUMNS) {
            let (band, column) = (*band as char, columns[0] as char);
            sheet.read(&format!("{band}{letter}N"));
            sheet.read(&format!("{band}{column}{letter}"));
        }
    }
}

/// A reference of a band, column and row in some zone, allowed or not, with digits for some p; and what the row is resolved to.
fn reference<W: Write>(sheet: &mut Sheet<W>, rng: &mut Rng, band: i32, column: i32, row: i32) {
    let zone = rng.from_to(1, 60) as i32;
    let letter = row + if zone % 2 == 0 { 5 } else { 0 };
    let block = [
        UTM_BANDS[(band + 10) as usize],
        UTM_COLUMNS[((zone - 1) % 3) as usize][column as usize],
        UTM_ROWS[letter.rem_euclid(20) as usize],
    ];
    let block: String = block.iter().map(|b| *b as char).collect();
    let p = rng.below(8) as usize;
    sheet.read(&format!("{zone:02}{block}{}", texts::digits(rng, 2 * p)));
    sheet.row(band, column, row.rem_euclid(20));
}

/// Both sides of both limits for every band and column; and every row, read, and written at its lower and its upper edge.
fn rows<W: Write>(sheet: &mut Sheet<W>, rng: &mut Rng) {
    for band in -10..10 {
        let (low, high) = limits(band);
        for column in 0..8 {
            for row in [low - 1, low, high, high + 1] {
                reference(sheet, rng, band, column, row);
            }
        }
        for row in low + 1..high {
            let column = rng.below(8) as i32;
            reference(sheet, rng, band, column, row);
        }
        for row in low..=high {
            let p = rng.from_to(1, 10) as i32;
            for inside in [2, TILE - 2] {
                let (zone, north) = (rng.from_to(1, 60) as i32, rng.once_in(2));
                let easting = rng.from_to(1, 8) * TILE + corner(rng, p);
                let northing = i64::from(row + if north { 0 } else { 100 }) * TILE + inside;
                sheet.write(Point { zone, north, easting, northing }, p, true);
            }
        }
    }
}

/// Texts that break no rule, one or several: the first in document 01's order is told.
fn refusals<W: Write>(sheet: &mut Sheet<W>) {
    for zone in ["18", "61", "018", "0"] {
        sheet.read(zone);
        for band in ["T", "I"] {
            sheet.read(&format!("{zone}{band}"));
            for column in ["W", "A"] {
                sheet.read(&format!("{zone}{band}{column}"));
                for row in ["L", "W", "A"] {
                    for digits in ["", "85", "8", "8X", "X8", "X", "é5"] {
                        sheet.read(&format!("{zone}{band}{column}{row}{digits}"));
                    }
                }
            }
        }
    }
    for text in ["INV", "inv18T", "INVé", "IN", "INW", "inu1", "IMV", "JNV", "18INV", "é", "18Té"] {
        sheet.read(text);
    }
    for text in ["\n", " 18T", "18T ", "18T\r", "18T WL", "\0", "\u{7f}18T"] {
        sheet.read(text);
    }
}

/// Bare zones and zones as texts, and digits at each p in each hemisphere of both grids.
fn zones_and_digits<W: Write>(sheet: &mut Sheet<W>, rng: &mut Rng) {
    for zone in 1..=60_usize {
        sheet.read(&format!("{zone}{}", UTM_BANDS[zone % 20] as char));
    }
    for band in UTM_BANDS {
        sheet.read(&format!("31{}", (*band as char).to_ascii_lowercase()));
    }
    for zone in texts::zone_texts() {
        let set = zone.parse::<usize>().map_or(2, |z| (z + 2) % 3);
        sheet.read(&format!("{zone}N{}A", UTM_COLUMNS[set][0] as char));
    }
    for p in 0..8 {
        for block in ["18TWL", "33MVV", "AZN", "BAN", "YZN", "zan"] {
            for axis in ["0000000", "9999999", "5000000", "4999999", "1234567"] {
                let other = texts::digits(rng, p);
                sheet.read(&format!("{block}{}{other}", &axis[..p]));
            }
        }
    }
}

/// Each band at each p, by both names of its hemisphere, a micrometre inside one corner of its square.
fn written<W: Write>(sheet: &mut Sheet<W>, rng: &mut Rng) {
    for band in -10..10 {
        let (low, high) = limits(band);
        let row = i64::from((low + high).div_euclid(2));
        for p in 0..11 {
            for north in [false, true] {
                let zone = rng.from_to(1, 60) as i32;
                let easting = rng.from_to(1, 8) * TILE + corner(rng, p);
                let northing = (row + if north { 0 } else { 100 }) * TILE + corner(rng, p);
                sheet.write(Point { zone, north, easting, northing }, p, true);
            }
        }
    }
    for north in [false, true] {
        let [w, e, _, _] = ends(0, north);
        for tile in w..e {
            for p in [0, 5, 10] {
                let easting = tile * TILE + corner(rng, p);
                let northing = (w + e - 1 - tile) * TILE + corner(rng, p);
                sheet.write(Point { zone: 0, north, easting, northing }, p, true);
            }
        }
    }
}

/// Some square of p digits in a tile, and a micrometre inside its lower or its upper edge.
fn corner(rng: &mut Rng, p: i32) -> i64 {
    let side = 2 * 10_i64.pow((11 - p) as u32);
    rng.from_to(0, TILE / side - 1) * side + rng.pick(&[2, side - 2])
}

/// Both sides of each end and of the equator, by a micrometre and more: written, and tested by both ranges.
fn edges<W: Write>(sheet: &mut Sheet<W>) {
    for (zone, north) in [(0, false), (0, true), (18, false), (31, true)] {
        let [w, e, s, n] = ends(zone, north);
        let equator = if north { 0 } else { 100 };
        let inside = Point { zone, north, easting: (w + 3) * TILE + 7_000, northing: (s + 4) * TILE + 9_000 };
        for off in [-TILE, -2_000_000, -3, -2, 2, 3, 2_000_000, TILE - 2] {
            for end in [w, e] {
                edge(sheet, Point { easting: end * TILE + off, ..inside }, end == w);
            }
            for end in if zone == 0 { vec![s, n] } else { vec![s, n, equator] } {
                edge(sheet, Point { northing: end * TILE + off, ..inside }, end == s);
            }
        }
    }
    for zone in [-4, -1, 61, 100] {
        let at = Point { zone, north: true, easting: 5 * TILE + 4, northing: 50 * TILE + 4 };
        sheet.write(at, 5, true);
        sheet.mgrs(at);
        sheet.utm(at);
    }
}

/// Numbers of digits that there are not.
fn precisions<W: Write>(sheet: &mut Sheet<W>) {
    for zone in [0, 18] {
        let at = Point { zone, north: true, easting: (if zone == 0 { 20 } else { 5 }) * TILE + 4, northing: 20 * TILE + 4 };
        for p in [i32::MIN, -5, -2, 12, 13, i32::MAX] {
            sheet.precision(at, p);
        }
    }
}

/// The range of UTM is one tile wider, outward.
fn edge<W: Write>(sheet: &mut Sheet<W>, at: Point, lower: bool) {
    for p in [0, 5, 10] {
        sheet.write(at, p, true);
    }
    sheet.mgrs(at);
    sheet.utm(at);
    let out = if lower { -TILE } else { TILE };
    sheet.utm(Point { easting: at.easting + out, ..at });
    sheet.utm(Point { northing: at.northing + out, ..at });
}

/// Bands of latitudes, and zones where a rule changes, a billionth of a degree to each side; and the middle of each zone.
fn degrees<W: Write>(sheet: &mut Sheet<W>) {
    for zone in 1..=60 {
        sheet.zone(0, (6 * zone - 183) * DEGREE);
    }
    for latitude in [-90, 90] {
        sheet.zone(latitude * DEGREE, 0);
    }
    for eight in -12..=12 {
        for latitude in around(8 * eight, 8 * eight) {
            sheet.band(latitude);
        }
    }
    for latitude in [-80, 56, 64, 72, 84].iter().flat_map(|d| around(*d, *d)) {
        for degrees in [-174, 0, 3, 6, 9, 12, 21, 33, 42] {
            for longitude in around(degrees, degrees) {
                sheet.zone(latitude, longitude);
            }
        }
        for longitude in [-180, 180] {
            sheet.zone(latitude, longitude * DEGREE);
        }
    }
}

pub fn list<W: Write>(sheet: &mut Sheet<W>, rng: &mut Rng) {
    examples(sheet);
    refusals(sheet);
    letters(sheet);
    zones_and_digits(sheet, rng);
    rows(sheet, rng);
    written(sheet, rng);
    edges(sheet);
    precisions(sheet);
    degrees(sheet);
    texts::random(sheet, rng, 100);
    for p in (0..11).cycle().take(150) {
        let at = point(rng, p);
        sheet.write(at, p, true);
        sheet.mgrs(at);
    }
}
