//! Questions to the Rust, each written with its answer as one line: what the program `vectors` reads.
//! Lengths are whole units of half a micrometre; the Rust gets them as f64 metres, rounded once.
use crate::numbers::{range_number, reading_number};
use geoconvert::mgrs::doors;
use geoconvert::utm::doors as utm_doors;
use geoconvert::{Error, Mgrs, UtmUps};
use std::collections::BTreeMap;
use std::io::Write;
use std::panic::catch_unwind;

pub const TILE: i64 = 200_000_000_000;
const EQUATOR: i64 = 100 * TILE;
pub const KINDS: [&str; 7] = ["read", "write", "mgrs", "utm", "band", "zone", "row"];

/// A point as both sides take it.
#[derive(Clone, Copy, Debug)]
pub struct Point {
    pub zone: i32,
    pub north: bool,
    pub easting: i64,
    pub northing: i64,
}

/// The lines written, the questions that were not asked or not written and why, and what the Rust did that no list explains.
/// `everywhere` asks outside the compared domain too.
pub struct Sheet<W: Write> {
    out: W,
    line: Vec<u8>,
    pub everywhere: bool,
    pub lines: BTreeMap<&'static str, u64>,
    pub apart: BTreeMap<&'static str, u64>,
    pub strange: Vec<String>,
}

fn metres(units: i64) -> f64 {
    units as f64 / 2_000_000.0
}

fn side(north: bool) -> char {
    if north { 'N' } else { 'S' }
}

/// The leading digits and what follows the row letter are few enough for the compared domain.
pub fn is_compared(text: &str) -> bool {
    let lead = text.bytes().take_while(u8::is_ascii_digit).count();
    lead <= 9 && text.len() <= lead + 3 + 15
}

/// At least one micrometre inside the square of p digits that holds it, on one axis.
fn is_inside(units: i64, p: i32) -> bool {
    let side = 2 * 10_i64.pow((11 - p) as u32);
    let at = units.rem_euclid(side);
    2 <= at && at <= side - 2
}

/// The number of tiles at the ends: easting from and to, northing from and to.
pub fn ends(zone: i32, north: bool) -> [i64; 4] {
    match (zone == 0, north) {
        (true, false) => [8, 32, 8, 32],
        (true, true) => [13, 27, 13, 27],
        (false, false) => [1, 9, 10, 195],
        (false, true) => [1, 9, -90, 95],
    }
}

/// One micrometre or more from every end, of ranges that are `wider` tiles wider, and from the equator.
fn is_off_ends(at: Point, wider: i64) -> bool {
    let [w, e, s, n] = ends(at.zone, at.north);
    let off = |x: i64, end: i64| (x - end * TILE).abs() >= 2;
    let equator = if at.north { 0 } else { 100 };
    off(at.easting, w - wider)
        && off(at.easting, e + wider)
        && off(at.northing, s - wider)
        && off(at.northing, n + wider)
        && (at.zone == 0 || off(at.northing, equator))
}

impl<W: Write> Sheet<W> {
    pub fn new(out: W) -> Self {
        let (lines, apart) = (BTreeMap::new(), BTreeMap::new());
        Sheet { out, line: Vec::new(), everywhere: false, lines, apart, strange: Vec::new() }
    }

    pub fn flush(&mut self) {
        self.out.flush().expect("the lines can be written");
    }

    fn put(&mut self, kind: &'static str) {
        self.line.push(b'\n');
        self.out.write_all(&self.line).expect("the lines can be written");
        *self.lines.entry(kind).or_insert(0) += 1;
    }

    fn apart(&mut self, why: &'static str) {
        *self.apart.entry(why).or_insert(0) += 1;
    }

    fn strange(&mut self, what: String) {
        if self.strange.len() < 50 {
            self.strange.push(what);
        }
        self.apart("strange: what no list explains");
    }

    /// Bytes `!` to `~` but the backslash stand for themselves, every other byte is a backslash and two hex digits.
    fn put_text(&mut self, text: &str) {
        for b in text.bytes() {
            if (b'!'..=b'~').contains(&b) && b != b'\\' {
                self.line.push(b);
            } else {
                write!(self.line, "\\{b:02x}").unwrap();
            }
        }
    }

    pub fn read(&mut self, text: &str) {
        if !self.everywhere && !is_compared(text) {
            return self.apart("read: beyond the compared domain");
        }
        self.line.clear();
        self.line.extend_from_slice(b"read ");
        self.put_text(text);
        match Mgrs::parse_str(text) {
            Ok(m) => {
                let (zone, h, x, y) = (m.zone(), side(m.is_north()), m.easting(), m.northing());
                let (p, case) = (m.precision(), if m.precision() < 0 { "bare" } else { "square" });
                write!(self.line, " {case} {zone} {h} {p} {x} {y}").unwrap();
            }
            Err(Error::InvalidMgrs(s)) => write!(self.line, " refused {}", reading_number(&s)).unwrap(),
            Err(other) => panic!("the Rust has an error that no rule has: {other:?}"),
        }
        self.put("read");
    }

    /// The Rust chooses the band. `alone`: a point is left out where it asks the projection, whoever lends a latitude.
    pub fn write(&mut self, at: Point, p: i32, alone: bool) {
        let made = Mgrs::create(at.zone, at.north, metres(at.easting), metres(at.northing), p);
        let made = match made {
            Ok(made) if self.everywhere || is_inside(at.easting, p) && is_inside(at.northing, p) => made,
            Ok(_) => return self.apart("write: less than a micrometre inside its square"),
            Err(error) if is_off_ends(at, 0) => {
                let band = if at.zone == 0 { 'A' } else { 'N' };
                return self.put_write(at, band, p, &format!("refused {}", range_number(&error)));
            }
            Err(_) => return self.apart("write: less than a micrometre from an end"),
        };
        let asked = doors::ASKED.with(|n| n.get());
        let text = catch_unwind(|| made.to_string());
        let asked = doors::ASKED.with(|n| n.get()) > asked;
        match text {
            _ if asked && (alone || !is_lending()) => self.apart("write: the projection was asked, nothing lent"),
            Ok(text) => {
                if asked {
                    self.apart("write: of them with a latitude lent by GeographicLib");
                }
                let band = text.as_bytes()[if at.zone == 0 { 0 } else { 2 }] as char;
                self.put_write(at, band, p, &format!("text {text}"));
            }
            Err(_) => self.strange(format!("Display panics at {at:?}, p {p}")),
        }
    }

    /// A precision that is none, asked of `set_precision`, since `create` takes any. It also refuses 0 and -1, as listed.
    pub fn precision(&mut self, at: Point, p: i32) {
        let made = Mgrs::create(at.zone, at.north, metres(at.easting), metres(at.northing), 5);
        match made.expect("a point in range").set_precision(p) {
            Err(Error::InvalidPrecision(_)) if !(-1..=11).contains(&p) => {
                self.put_write(at, if at.zone == 0 { 'A' } else { 'N' }, p, "refused 15");
            }
            other => self.strange(format!("set_precision {p} answers {other:?}")),
        }
    }

    fn put_write(&mut self, at: Point, band: char, p: i32, answer: &str) {
        let (zone, h, x, y) = (at.zone, side(at.north), at.easting, at.northing);
        self.line.clear();
        write!(self.line, "write {zone} {h} {band} {p} {x} {y} {answer}").unwrap();
        self.put("write");
    }

    /// A zone that does not exist is asked of `create`, since check_coords is not told the zone.
    pub fn mgrs(&mut self, at: Point) {
        let (x, y) = (metres(at.easting), metres(at.northing));
        if !self.everywhere && !is_off_ends(at, 0) {
            return self.apart("mgrs: less than a micrometre from an end");
        }
        let answer = match Mgrs::create(at.zone, at.north, x, y, 5) {
            Err(error @ Error::InvalidZone(_)) => Err(error),
            _ => doors::check_coords(at.zone != 0, at.north, x, y),
        };
        let answer = match answer {
            Ok((north, x, y)) => {
                let (east, high) = ((x * 2_000_000.0).round() as i64, (y * 2_000_000.0).round() as i64);
                // f64 metres are within two nanometres of the point, which is a hundredth of half a unit.
                if (metres(east) - x).abs() > 2e-9 || (metres(high) - y).abs() > 2e-9 {
                    return self.strange(format!("check_coords answers no whole unit at {at:?}: {x} {y}"));
                }
                if !self.everywhere && at.zone != 0 && at.north && (0..10 * TILE).contains(&at.northing) {
                    if (north, east, high) == (false, at.easting, at.northing + EQUATOR) {
                        return self.apart("mgrs: north from 0 to 1,000,000 m, which the Rust calls south, as listed");
                    }
                    return self.strange(format!("check_coords is not as listed at {at:?}: {north} {x} {y}"));
                }
                format!("moved {} {east} {high}", side(north))
            }
            Err(error) => format!("refused {}", range_number(&error)),
        };
        self.put_range("mgrs", at, &answer);
    }

    pub fn utm(&mut self, at: Point) {
        if !is_off_ends(at, 1) {
            return self.apart("utm: less than a micrometre from an end");
        }
        match UtmUps::create(at.zone, at.north, metres(at.easting), metres(at.northing)) {
            Ok(_) => self.put_range("utm", at, "within"),
            Err(error) => self.put_range("utm", at, &format!("refused {}", range_number(&error))),
        }
    }

    fn put_range(&mut self, kind: &'static str, at: Point, answer: &str) {
        let (zone, h, x, y) = (at.zone, side(at.north), at.easting, at.northing);
        self.line.clear();
        write!(self.line, "{kind} {zone} {h} {x} {y} {answer}").unwrap();
        self.put(kind);
    }

    /// Billionths of a degree.
    pub fn band(&mut self, latitude: i64) {
        let band = doors::to_latitude_band(latitude as f64 / 1e9);
        self.line.clear();
        write!(self.line, "band {latitude} is {band}").unwrap();
        self.put("band");
    }

    /// Billionths of a degree.
    pub fn zone(&mut self, latitude: i64, longitude: i64) {
        let zone = utm_doors::standard_zone(latitude as f64 / 1e9, longitude as f64 / 1e9);
        self.line.clear();
        write!(self.line, "zone {latitude} {longitude} is {zone}").unwrap();
        self.put("zone");
    }

    pub fn row(&mut self, band: i32, column: i32, letter: i32) {
        self.line.clear();
        match doors::utm_row(band, column, letter) {
            100 => write!(self.line, "row {band} {column} {letter} is none").unwrap(),
            row => write!(self.line, "row {band} {column} {letter} is {row}").unwrap(),
        }
        self.put("row");
    }
}

fn is_lending() -> bool {
    doors::LENDER.with(|l| l.get()).is_some()
}
