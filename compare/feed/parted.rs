//! Inputs outside the compared domain where docs/DIFFERENCES.md says that the Rust parts from document 01, and has an answer.
use crate::ask::{Point, Sheet, TILE};
use crate::degrees::DEGREE;
use std::io::Write;

const METRE: i64 = 2_000_000;

fn at(zone: i32, north: bool, easting: i64, northing: i64) -> Point {
    Point { zone, north, easting, northing }
}

/// The upper ends, the equator and the northern tiles below 1,000,000 m.
fn edges() -> [Point; 8] {
    [
        at(18, true, 9 * TILE, 45 * TILE),
        at(18, false, 5 * TILE, 100 * TILE),
        at(18, true, 5 * TILE, 0),
        at(18, true, 5 * TILE, 999_999 * METRE),
        at(18, true, 5 * TILE, 95 * TILE),
        at(18, false, 5 * TILE, 195 * TILE),
        at(0, false, 32 * TILE, 20 * TILE),
        at(0, true, 27 * TILE, 20 * TILE),
    ]
}

pub fn parted<W: Write>(sheet: &mut Sheet<W>) {
    sheet.everywhere = true;
    for text in ["18TWL1234567812345678", "1CEM0000000000000000", "18TWL1234567890112345678901", "4294967314TWL"] {
        sheet.read(text);
    }
    for edge in [0, 1, 4, 6, 7] {
        sheet.write(edges()[edge], 5, true);
    }
    // Bare zones, at the points that reading them gives.
    for bare in [at(18, true, 5 * TILE, 49 * TILE), at(31, true, 4 * TILE, 67 * TILE), at(0, true, 24 * TILE, 20 * TILE)] {
        sheet.write(bare, -1, true);
    }
    sheet.write(at(18, true, 585_664 * METRE, 4_511_315 * METRE), -5, true);
    sheet.write(at(18, true, 131_114_396_758 * 2, 45 * TILE), 11, true);
    for edge in edges() {
        sheet.mgrs(edge);
    }
    sheet.zone(90 * DEGREE + 1, 0);
    sheet.band(2_147_483_568 * DEGREE);
}
