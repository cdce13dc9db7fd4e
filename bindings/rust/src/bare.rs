//! Bare zones: what a reference names that ends at its band.
use crate::error::{Error, NotABareZone};
use crate::held::Position;
use crate::units::metres_of;
use crate::Reading;
use std::fmt;
use std::str::FromStr;

/// A bare zone, as `18T`: a zone and a band, and no square.
///
/// It has no easting and no northing, since nobody recorded any.
///
/// ```
/// use tsintovehy::BareZone;
///
/// let zone: BareZone = "18t".parse()?;
/// assert_eq!((zone.zone(), zone.band(), zone.is_north()), (18, b'T', true));
/// assert_eq!(zone.to_string(), "18T");
/// # Ok::<(), tsintovehy::NotABareZone>(())
/// ```
///
/// ```compile_fail,E0599
/// fn east(zone: tsintovehy::BareZone) -> f64 { zone.easting() }
/// ```
#[derive(Clone, Copy, PartialEq, Eq, Hash)]
pub struct BareZone {
    at: Position,
}

/// The point that software supplies for a bare zone. **Nobody recorded it.** It stands somewhere amid the zone's band, by
/// document 01's formulas, and says nothing of where anything is.
///
/// ```
/// use tsintovehy::BareZone;
///
/// let supplied = BareZone::create(18, b'T')?.supplied_point();
/// assert_eq!((supplied.easting(), supplied.northing()), (500_000.0, 4_900_000.0));
/// # Ok::<(), tsintovehy::Error>(())
/// ```
#[derive(Clone, Copy, Debug, PartialEq, Eq, Hash)]
pub struct SuppliedPoint {
    easting: i64,
    northing: i64,
}

impl SuppliedPoint {
    /// Metres east, supplied and not recorded.
    pub fn easting(&self) -> f64 {
        metres_of(self.easting)
    }

    /// Metres north, supplied and not recorded.
    pub fn northing(&self) -> f64 {
        metres_of(self.northing)
    }

    /// Units east, supplied and not recorded.
    pub fn easting_units(&self) -> i64 {
        self.easting
    }

    /// Units north, supplied and not recorded.
    pub fn northing_units(&self) -> i64 {
        self.northing
    }
}

impl BareZone {
    /// Only reading calls this, for an answer that is a bare zone.
    pub(crate) fn at(at: Position) -> BareZone {
        BareZone { at }
    }

    /// The bare zone of a zone, 0 for UPS, and a band letter, a capital.
    ///
    /// # Errors
    ///
    /// 14 if the zone is not 0..60, 18 if the band is not a capital of its set, as in writing.
    ///
    /// ```
    /// use tsintovehy::BareZone;
    ///
    /// assert_eq!(BareZone::create(4, b'Q')?.to_string(), "04Q");
    /// assert_eq!(BareZone::create(0, b'Z')?.to_string(), "Z");
    /// assert_eq!(BareZone::create(61, b'Q').unwrap_err().number(), 14);
    /// assert_eq!(BareZone::create(0, b'Q').unwrap_err().number(), 18);
    /// # Ok::<(), tsintovehy::Error>(())
    /// ```
    pub fn create(zone: i64, band: u8) -> Result<BareZone, Error> {
        if !(0..=60).contains(&zone) {
            return Err(Error::ZONE);
        }
        if !band.is_ascii_uppercase() {
            return Err(Error::BAND);
        }
        // Two digits and a capital, or the capital alone: read, this is a bare zone, or 6 where the set lacks the letter.
        let text = [b'0' + zone as u8 / 10, b'0' + zone as u8 % 10, band];
        let text = if zone == 0 { &text[2..] } else { &text[..] };
        match Reading::read(text) {
            Ok(Reading::BareZone(bare)) => Ok(bare),
            _ => Err(Error::BAND),
        }
    }

    /// The zone: 1 to 60, or 0 for UPS.
    pub fn zone(&self) -> i64 {
        i64::from(self.at.zone)
    }

    /// Whether it is a UTM zone, and not UPS.
    pub fn is_utm(&self) -> bool {
        self.at.zone != 0
    }

    /// Whether its band lies in the northern hemisphere.
    pub fn is_north(&self) -> bool {
        self.at.north
    }

    /// The band letter, a capital; `char::from` makes it a char.
    pub fn band(&self) -> u8 {
        self.at.band
    }

    /// The point that software supplies where only a zone and a band were recorded. Nobody recorded this point: do not store it
    /// as one, and do not show it as a fix. It is here for those who have to recognise it in old output.
    pub fn supplied_point(&self) -> SuppliedPoint {
        SuppliedPoint { easting: self.at.easting, northing: self.at.northing }
    }
}

/// The zone and the band, as `18T` or `Z`, and no more. Width and precision of the format are ignored, as for squares.
impl fmt::Display for BareZone {
    fn fmt(&self, f: &mut fmt::Formatter<'_>) -> fmt::Result {
        // What was read is always written again, which is proved: `bare-returns`.
        f.write_str(self.at.text().map_err(|_| fmt::Error)?.as_str())
    }
}

impl fmt::Debug for BareZone {
    fn fmt(&self, f: &mut fmt::Formatter<'_>) -> fmt::Result {
        write!(f, "BareZone({})", self)
    }
}

impl FromStr for BareZone {
    type Err = NotABareZone;

    fn from_str(text: &str) -> Result<BareZone, NotABareZone> {
        match Reading::parse_str(text) {
            Ok(Reading::BareZone(zone)) => Ok(zone),
            Ok(Reading::Square(square)) => Err(NotABareZone::Square(square)),
            Err(error) => Err(NotABareZone::Refused(error)),
        }
    }
}
