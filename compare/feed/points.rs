//! Points to write and to test: anywhere, and dense at tiles, squares, ends, the equator and the edges of bands.
use crate::ask::{ends, Point, Sheet, TILE};
use crate::rng::Rng;
use std::io::Write;

/// A few units beside an edge, on either side.
fn beside(rng: &mut Rng) -> i64 {
    let off = match rng.below(4) {
        0 => rng.from_to(2, 4),
        1 => rng.from_to(2, 200),
        2 => rng.from_to(2, 2_000_000_000),
        _ => 2,
    };
    if rng.once_in(2) { off } else { -off }
}

/// One axis between two ends, in tiles; now and then past them.
fn axis(rng: &mut Rng, lowest: i64, highest: i64, p: i32) -> i64 {
    let side = 2 * 10_i64.pow((11 - p) as u32);
    let anywhere = rng.from_to(lowest * TILE, highest * TILE - 1);
    match rng.below(16) {
        0..=4 => anywhere,
        5..=7 => rng.from_to(lowest, highest) * TILE + beside(rng),
        8..=10 => anywhere.div_euclid(side) * side + beside(rng),
        11 => anywhere.div_euclid(side) * side + side / 2,
        12 => lowest * TILE + beside(rng),
        13 => highest * TILE + beside(rng),
        14 => rng.pick(&[lowest - 1, highest + 1]) * TILE + beside(rng),
        _ if rng.once_in(8) => rng.next() as i64 >> rng.below(24),
        _ => anywhere,
    }
}

/// The edges of the bands, every 8 degrees, lie less than a tile from these northings.
fn near_band_edge(rng: &mut Rng, north: bool) -> i64 {
    let degrees = 8 * rng.from_to(-9, 9);
    degrees * (TILE / 9 * 10) + rng.from_to(-TILE, TILE) + if north { 0 } else { 100 * TILE }
}

fn zone(rng: &mut Rng) -> i32 {
    if rng.once_in(6) { 0 } else { rng.from_to(1, 60) as i32 }
}

pub fn point(rng: &mut Rng, p: i32) -> Point {
    let zone = zone(rng);
    let north = rng.once_in(2);
    let [w, e, s, n] = ends(zone, north);
    let easting = axis(rng, w, e, p);
    let northing = match rng.below(12) {
        0..=2 if zone != 0 => near_band_edge(rng, north),
        3 if zone != 0 => beside(rng) + if north { 0 } else { 100 * TILE },
        _ => axis(rng, s, n, p),
    };
    Point { zone, north, easting, northing }
}

pub fn write<W: Write>(sheet: &mut Sheet<W>, rng: &mut Rng, times: u64) {
    for _ in 0..times {
        let p = rng.below(11) as i32;
        let at = point(rng, p);
        sheet.write(at, p, false);
    }
}

/// Zones that do not exist are among these.
pub fn ranges<W: Write>(sheet: &mut Sheet<W>, rng: &mut Rng, times: u64) {
    for _ in 0..times {
        let mut at = point(rng, 5);
        if rng.once_in(50) {
            at.zone = rng.pick(&[-4, -3, -2, -1, 61, 62, 100, i32::MAX, i32::MIN]);
        }
        sheet.mgrs(at);
        let [w, e, s, n] = ends(at.zone, at.north);
        if rng.once_in(3) {
            at.easting = axis(rng, w - 1, e + 1, 5);
            at.northing = axis(rng, s - 1, n + 1, 5);
        }
        sheet.utm(at);
    }
}

/// The middle of every tile in range, in every zone, at one p: with both names of each point of UTM.
pub fn tiles<W: Write>(sheet: &mut Sheet<W>) {
    for zone in 0..=60 {
        for north in [false, true] {
            let [w, e, s, n] = ends(zone, north);
            for column in w..e {
                for row in s..n {
                    let (easting, northing) = (column * TILE + TILE / 2 - 3, row * TILE + TILE / 2 + 5);
                    sheet.write(Point { zone, north, easting, northing }, (row + column).rem_euclid(11) as i32, false);
                }
            }
        }
    }
}
