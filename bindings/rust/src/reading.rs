//! What a text is read as.
use crate::error::{told, Error};
use crate::held::Position;
use crate::{raw, BareZone, Square};
use std::fmt;
use std::str::FromStr;

/// What a text is read as: a square or a bare zone. Only a `match` gets at either, so neither is taken for the other.
///
/// ```
/// use tsintovehy::Reading;
///
/// let told = |text: &str| match Reading::parse_str(text) {
///     Ok(Reading::Square(square)) => format!("recorded: {} m, {} m", square.easting(), square.northing()),
///     Ok(Reading::BareZone(zone)) => format!("only the zone {} was recorded", zone),
///     Err(error) => error.to_string(),
/// };
/// assert_eq!(told("18TWL8511"), "recorded: 585500 m, 4511500 m");
/// assert_eq!(told("18T"), "only the zone 18T was recorded");
/// assert_eq!(told("18TW"), "refusal 7: exactly one byte follows the band");
/// ```
#[derive(Clone, Copy, Debug, PartialEq, Eq, Hash)]
pub enum Reading {
    /// A full reference: all its coordinates stand in the text.
    Square(Square),
    /// A zone and a band alone.
    BareZone(BareZone),
}

impl Reading {
    /// Reads any bytes; a to z count as A to Z.
    ///
    /// # Errors
    ///
    /// 1 to 13.
    pub fn read(text: &[u8]) -> Result<Reading, Error> {
        let mut position = [0; 6];
        let kind = told(raw::read(text, &mut position))?;
        let at = Position::of(position);
        // Reading answers 0 for a square and 1 for a bare zone, and nothing else that is not refused.
        Ok(if kind == 0 { Reading::Square(Square::at(at)) } else { Reading::BareZone(BareZone::at(at)) })
    }

    /// Reads a str, byte by byte. Nothing is trimmed: a blank is a byte like any other.
    ///
    /// # Errors
    ///
    /// 1 to 13.
    pub fn parse_str(text: &str) -> Result<Reading, Error> {
        Reading::read(text.as_bytes())
    }

    /// The square, if it is one.
    pub fn square(&self) -> Option<Square> {
        match self {
            Reading::Square(square) => Some(*square),
            Reading::BareZone(_) => None,
        }
    }

    /// The bare zone, if it is one.
    pub fn bare_zone(&self) -> Option<BareZone> {
        match self {
            Reading::Square(_) => None,
            Reading::BareZone(zone) => Some(*zone),
        }
    }

    /// The zone: 1 to 60, or 0 for UPS.
    pub fn zone(&self) -> i64 {
        match self {
            Reading::Square(square) => square.zone(),
            Reading::BareZone(zone) => zone.zone(),
        }
    }

    /// The band letter, a capital.
    pub fn band(&self) -> u8 {
        match self {
            Reading::Square(square) => square.band(),
            Reading::BareZone(zone) => zone.band(),
        }
    }

    /// Whether it lies in the northern hemisphere.
    pub fn is_north(&self) -> bool {
        match self {
            Reading::Square(square) => square.is_north(),
            Reading::BareZone(zone) => zone.is_north(),
        }
    }

    /// Whether it lies in a UTM zone, and not in UPS.
    pub fn is_utm(&self) -> bool {
        self.zone() != 0
    }
}

/// The canonical reference. A bare zone is printed as one.
impl fmt::Display for Reading {
    fn fmt(&self, f: &mut fmt::Formatter<'_>) -> fmt::Result {
        match self {
            Reading::Square(square) => square.fmt(f),
            Reading::BareZone(zone) => zone.fmt(f),
        }
    }
}

impl FromStr for Reading {
    type Err = Error;

    fn from_str(text: &str) -> Result<Reading, Error> {
        Reading::parse_str(text)
    }
}
