//! What squares and bare zones hold inside, and the text of a reference on the stack.
use crate::error::{told, Error};
use crate::{raw, LONGEST};

/// The six values that reading answers, as narrow as they are.
#[derive(Clone, Copy, PartialEq, Eq, Hash)]
pub(crate) struct Position {
    pub(crate) easting: i64,
    pub(crate) northing: i64,
    pub(crate) zone: u8,
    pub(crate) band: u8,
    pub(crate) p: i8,
    pub(crate) north: bool,
}

impl Position {
    /// Zones are 0 to 60, a band is a byte and p is -1 to 11: no cast loses anything.
    pub(crate) fn of(values: [i64; 6]) -> Position {
        let [zone, north, band, p, easting, northing] = values;
        Position { easting, northing, zone: zone as u8, band: band as u8, p: p as i8, north: north == 1 }
    }

    /// Half the side of the square, which is how far its edges are from its centre. A bare zone has no side.
    pub(crate) fn half_side(&self) -> i64 {
        match u32::try_from(self.p) {
            Ok(p) => 10i64.pow(11u32.saturating_sub(p)),
            Err(_) => 0,
        }
    }

    /// The canonical reference, written from the square's corner, or from a bare zone's own point.
    pub(crate) fn text(&self) -> Result<Text, Error> {
        let half = self.half_side();
        let (zone, p) = (i64::from(self.zone), i64::from(self.p));
        Text::written(zone, self.north, self.band, p, self.easting - half, self.northing - half)
    }
}

/// A reference on the stack, so that printing one allocates nothing.
pub(crate) struct Text {
    bytes: [u8; LONGEST],
    length: usize,
}

impl Text {
    pub(crate) fn written(zone: i64, north: bool, band: u8, p: i64, easting: i64, northing: i64) -> Result<Text, Error> {
        let mut bytes = [0; LONGEST];
        let length = told(raw::write(zone, north, band, p, easting, northing, &mut bytes))?;
        Ok(Text { bytes, length: length as usize })
    }

    pub(crate) fn shortened(text: &[u8], q: i64) -> Result<Text, Error> {
        let mut bytes = [0; LONGEST];
        let length = told(raw::shorten(text, q, &mut bytes))?;
        Ok(Text { bytes, length: length as usize })
    }

    /// A length that was answered fits the buffer, or the library would have refused by 20.
    pub(crate) fn as_bytes(&self) -> &[u8] {
        self.bytes.get(..self.length).unwrap_or_default()
    }

    /// References are ASCII, so this is never the empty text.
    pub(crate) fn as_str(&self) -> &str {
        std::str::from_utf8(self.as_bytes()).unwrap_or_default()
    }
}
