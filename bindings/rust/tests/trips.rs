//! Round trips of many references: what is read is printed as it was, in capitals, and what is created reads back.
use std::str::FromStr;
use tsintovehy::*;

/// A small generator, so that a failing run can be repeated.
struct Numbers(u64);

impl Numbers {
    /// A number below `n`.
    fn below(&mut self, n: u64) -> i64 {
        self.0 = self.0.wrapping_mul(6364136223846793005).wrapping_add(1442695040888963407);
        ((self.0 >> 33) % n) as i64
    }
}

/// Every tile of zones 30 and 31 and of UPS, by its letters.
fn tiles() -> Vec<Square> {
    let mut texts = Vec::new();
    for column in 'A'..='Z' {
        for row in 'A'..='Z' {
            for band in 'A'..='Z' {
                texts.push(format!("30{}{}{}", band, column, row));
                texts.push(format!("31{}{}{}", band, column, row));
                texts.push(format!("{}{}{}", band, column, row));
            }
        }
    }
    texts.iter().filter_map(|text| text.parse().ok()).collect()
}

#[test]
fn tiles_return() {
    let all = tiles();
    // Of each UTM zone 1,632 tiles by letters; of UPS 12 x 24 twice and 7 x 14 twice.
    assert_eq!(all.len(), 2 * 1632 + 2 * 288 + 2 * 98);
    for tile in all {
        assert_eq!(Square::from_str(&tile.to_string()), Ok(tile));
        let corner = tile.south_west();
        let again = Square::create(tile.zone(), corner.north, tile.band(), corner.easting, corner.northing, 0);
        assert_eq!(again, Ok(tile));
        assert_eq!(check_coords(tile.zone(), corner.north, corner.easting, corner.northing), Ok(corner));
    }
}

#[test]
fn digits_return() {
    let tiles = tiles();
    let mut numbers = Numbers(20261115);
    for _ in 0..20_000 {
        let tile = tiles[numbers.below(tiles.len() as u64) as usize];
        let p = numbers.below(12) as usize;
        let digits: String = (0..2 * p).map(|_| char::from(b'0' + numbers.below(10) as u8)).collect();
        let text = format!("{}{}", tile, digits);
        let square: Square = text.to_lowercase().parse().unwrap();
        assert_eq!(square.to_string(), text);
        assert_eq!(square.precision(), p as i64);
        assert!(tile.covers(&square) && square.covers(&tile) == (p == 0));
        assert_eq!(square.shorten(0), Ok(tile));
    }
}

/// Any point of a square, its corner and the last unit before its far corner, gives that square again.
#[test]
fn points_return() {
    let tiles = tiles();
    let mut numbers = Numbers(1511);
    for _ in 0..20_000 {
        let tile = tiles[numbers.below(tiles.len() as u64) as usize];
        let p = numbers.below(12);
        let Point { north, easting, northing } = tile.south_west();
        let inside = |numbers: &mut Numbers| (numbers.below(1 << 31) << 31 | numbers.below(1 << 31)) % tile.side_units();
        let (e, n) = (easting + inside(&mut numbers), northing + inside(&mut numbers));
        let square = Square::create(tile.zone(), north, tile.band(), e, n, p).unwrap();
        let corner = square.south_west();
        let last = square.side_units() - 1;
        assert!((0..=last).contains(&(e - corner.easting)) && (0..=last).contains(&(n - corner.northing)));
        for (x, y) in [(0, 0), (last, last), (0, last)] {
            let (x, y) = (corner.easting + x, corner.northing + y);
            assert_eq!(Square::create(tile.zone(), north, tile.band(), x, y, p), Ok(square));
        }
        assert_eq!(corner.easting + square.side_units() / 2, square.easting_units());
        assert_eq!(corner.northing + square.side_units() / 2, square.northing_units());
    }
}

#[test]
fn metres_return_to_their_units() {
    let mut numbers = Numbers(7);
    for _ in 0..200_000 {
        let units = (numbers.below(1 << 31) << 31 | numbers.below(1 << 31)) % 39_000_000_000_001;
        for units in [units, -units] {
            assert_eq!(units_of_metres(units as f64 / 2_000_000.0), Some(units));
        }
    }
}
