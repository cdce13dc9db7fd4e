//! Squares: what a full reference names.
use crate::error::{Error, NotASquare};
use crate::held::{Position, Text};
use crate::units::metres_of;
use crate::{raw, Point, Reading};
use std::fmt;
use std::str::FromStr;

/// The p of a bare zone, which no square has.
const BARE: i64 = -1;
/// A p that rule 15 refuses.
const NO_PRECISION: i64 = -2;

/// The square that a full reference names. It holds its west and south edges and not the other two.
///
/// One is got by reading a full reference, by [`Square::create`] from a point, or by [`Square::shorten`] from another one. A
/// [`BareZone`](crate::BareZone) never becomes one.
///
/// ```
/// use tsintovehy::Square;
///
/// let square: Square = "18TWL856641113154".parse()?;
/// assert_eq!((square.zone(), square.band(), square.precision()), (18, b'T', 6));
/// assert_eq!((square.easting(), square.northing()), (585664.15, 4511315.45));
/// assert_eq!(square.to_string(), "18TWL856641113154");
/// # Ok::<(), tsintovehy::NotASquare>(())
/// ```
///
/// Its fields are private, so no other code can make one up:
///
/// ```compile_fail,E0451
/// let square: tsintovehy::Square = "18TWL".parse().unwrap();
/// let made_up = tsintovehy::Square { ..square };
/// ```
///
/// and a bare zone does not turn into one:
///
/// ```compile_fail,E0277
/// use tsintovehy::{BareZone, Square};
///
/// fn point_of(zone: BareZone) -> Square { zone.into() }
/// ```
#[derive(Clone, Copy, PartialEq, Eq, Hash)]
pub struct Square {
    at: Position,
}

impl Square {
    /// Only reading calls this, for an answer that is a square.
    pub(crate) fn at(at: Position) -> Square {
        Square { at }
    }

    /// The square with `precision` digits per axis, 0 to 11, that holds a point. `easting` and `northing` are in units; see
    /// [`units_of_metres`](crate::units_of_metres). `band` is a capital, and has to fit the point: a latitude settles it, by
    /// [`latitude_band`](crate::latitude_band).
    ///
    /// The library writes the reference and reads it back, so what is held is the square of the point after the edge rules: an
    /// upper end is lowered by one unit, and a UTM point beyond the equator changes its hemisphere. Digits are cut, not rounded.
    ///
    /// # Errors
    ///
    /// 14 to 19. A precision of -1 is a bare zone's and gets 15 here: see [`BareZone::create`](crate::BareZone::create).
    ///
    /// ```
    /// use tsintovehy::{Square, UNITS_PER_METRE};
    ///
    /// let square = Square::create(18, true, b'T', 900_000 * UNITS_PER_METRE, 4_500_000 * UNITS_PER_METRE, 5)?;
    /// assert_eq!(square.to_string(), "18TZL9999900000");
    /// assert_eq!(Square::create(18, true, b'T', 0, 0, 5).unwrap_err().number(), 16);
    /// assert_eq!(Square::create(18, true, b'T', 0, 0, -1).unwrap_err().number(), 15);
    /// # Ok::<(), tsintovehy::Error>(())
    /// ```
    pub fn create(zone: i64, north: bool, band: u8, easting: i64, northing: i64, precision: i64) -> Result<Square, Error> {
        // The writer takes -1 and writes a bare zone; handed on as -2, it is refused in the writer's own order.
        let p = if precision == BARE { NO_PRECISION } else { precision };
        read_back(&Text::written(zone, north, band, p, easting, northing)?)
    }

    /// The zone: 1 to 60, or 0 for UPS.
    pub fn zone(&self) -> i64 {
        i64::from(self.at.zone)
    }

    /// Whether it lies in a UTM zone, and not in UPS.
    pub fn is_utm(&self) -> bool {
        self.at.zone != 0
    }

    /// Whether it lies in the northern hemisphere.
    pub fn is_north(&self) -> bool {
        self.at.north
    }

    /// The band letter, a capital; `char::from` makes it a char.
    pub fn band(&self) -> u8 {
        self.at.band
    }

    /// Digits per axis, 0 to 11.
    pub fn precision(&self) -> i64 {
        i64::from(self.at.p)
    }

    /// Metres east, of the centre.
    pub fn easting(&self) -> f64 {
        metres_of(self.at.easting)
    }

    /// Metres north, of the centre.
    pub fn northing(&self) -> f64 {
        metres_of(self.at.northing)
    }

    /// Units east, of the centre.
    pub fn easting_units(&self) -> i64 {
        self.at.easting
    }

    /// Units north, of the centre.
    pub fn northing_units(&self) -> i64 {
        self.at.northing
    }

    /// The south-west corner, which the square holds.
    ///
    /// ```
    /// use tsintovehy::{Square, UNITS_PER_METRE};
    ///
    /// let tile: Square = "18TWL".parse()?;
    /// assert_eq!(tile.south_west().easting, 500_000 * UNITS_PER_METRE);
    /// assert_eq!(tile.side_units(), 100_000 * UNITS_PER_METRE);
    /// # Ok::<(), tsintovehy::NotASquare>(())
    /// ```
    pub fn south_west(&self) -> Point {
        let half = self.at.half_side();
        Point { north: self.at.north, easting: self.at.easting - half, northing: self.at.northing - half }
    }

    /// The length of a side.
    pub fn side_units(&self) -> i64 {
        2 * self.at.half_side()
    }

    /// The square with `q` digits per axis that this one lies in.
    ///
    /// # Errors
    ///
    /// 21 if `q` is not 0 to [`precision`](Square::precision): digits that nobody recorded cannot be added.
    ///
    /// ```
    /// use tsintovehy::Square;
    ///
    /// let square: Square = "18TWL856641113154".parse()?;
    /// let wider = square.shorten(2).unwrap();
    /// assert_eq!(wider.to_string(), "18TWL8511");
    /// assert!(wider.covers(&square) && !square.covers(&wider));
    /// assert_eq!(square.shorten(7).unwrap_err().number(), 21);
    /// # Ok::<(), tsintovehy::NotASquare>(())
    /// ```
    pub fn shorten(&self, q: i64) -> Result<Square, Error> {
        read_back(&Text::shortened(self.at.text()?.as_bytes(), q)?)
    }

    /// Whether `other` lies within this square, in the same zone and band.
    pub fn covers(&self, other: &Square) -> bool {
        match (self.at.text(), other.at.text()) {
            (Ok(a), Ok(b)) => raw::covers(a.as_bytes(), b.as_bytes()) == 1,
            // What was read is always written again, which is proved: `square-returns`.
            _ => false,
        }
    }
}

/// Reads what the library wrote for a p of 0 to 11. That this is a square is proved, `written-back`; the last arm is for no input.
fn read_back(text: &Text) -> Result<Square, Error> {
    match Reading::read(text.as_bytes())? {
        Reading::Square(square) => Ok(square),
        Reading::BareZone(_) => Err(Error::PRECISION),
    }
}

/// The canonical reference: capitals, and a UTM zone of two digits. Width and precision of the format are ignored, since cut
/// to three characters a square would look like a bare zone.
impl fmt::Display for Square {
    fn fmt(&self, f: &mut fmt::Formatter<'_>) -> fmt::Result {
        // What was read is always written again, which is proved: `square-returns`.
        f.write_str(self.at.text().map_err(|_| fmt::Error)?.as_str())
    }
}

impl fmt::Debug for Square {
    fn fmt(&self, f: &mut fmt::Formatter<'_>) -> fmt::Result {
        write!(f, "Square({})", self)
    }
}

impl FromStr for Square {
    type Err = NotASquare;

    fn from_str(text: &str) -> Result<Square, NotASquare> {
        match Reading::parse_str(text) {
            Ok(Reading::Square(square)) => Ok(square),
            Ok(Reading::BareZone(zone)) => Err(NotASquare::BareZone(zone)),
            Err(error) => Err(NotASquare::Refused(error)),
        }
    }
}
