//! The library's calls one for one, over bytes and whole numbers. None allocates. One that refuses leaves what it was lent.
use crate::error::{told, Error};
use crate::{raw, Reading};

/// What the library answers where a letter has no row.
const NO_ROW: i64 = 100;

/// Reads any bytes; a to z count as A to Z. The same as [`Reading::read`].
///
/// # Errors
///
/// 1 to 13.
pub fn read(text: &[u8]) -> Result<Reading, Error> {
    Reading::read(text)
}

/// What a text is read as, in metres.
#[derive(Clone, Copy, Debug, PartialEq)]
pub enum Metres {
    /// The centre of the square.
    Square {
        /// Metres east.
        easting: f64,
        /// Metres north.
        northing: f64,
    },
    /// The point that software supplies for a bare zone, and that nobody recorded.
    BareZone {
        /// Metres east, supplied.
        supplied_easting: f64,
        /// Metres north, supplied.
        supplied_northing: f64,
    },
}

/// Reads any bytes, and answers in metres, each rounded once.
///
/// # Errors
///
/// 1 to 13.
///
/// ```
/// use tsintovehy::{read_metres, Metres};
///
/// let read = read_metres(b"18TWL856641113154")?;
/// assert_eq!(read, Metres::Square { easting: 585664.15, northing: 4511315.45 });
/// assert!(matches!(read_metres(b"18T")?, Metres::BareZone { .. }));
/// # Ok::<(), tsintovehy::Error>(())
/// ```
pub fn read_metres(text: &[u8]) -> Result<Metres, Error> {
    let mut metres = [0.0; 2];
    let kind = told(raw::read_metres(text, &mut metres))?;
    let [easting, northing] = metres;
    // 0 is a square, 1 a bare zone; there is no third answer.
    Ok(match kind {
        0 => Metres::Square { easting, northing },
        _ => Metres::BareZone { supplied_easting: easting, supplied_northing: northing },
    })
}

/// Writes the reference of a point into `out` and answers its length; p = -1 writes the bare zone. 27 bytes hold every
/// reference. Bytes beyond the length stay.
///
/// # Errors
///
/// 14 to 20.
///
/// ```
/// let mut out = [b'.'; 10];
/// let length = tsintovehy::write(18, true, b'T', 0, 1_000_000_000_000, 9_000_000_000_000, &mut out)?;
/// assert_eq!((&out[..length], &out[length..]), (&b"18TWL"[..], &b"....."[..]));
/// # Ok::<(), tsintovehy::Error>(())
/// ```
pub fn write(zone: i64, north: bool, band: u8, p: i64, easting: i64, northing: i64, out: &mut [u8]) -> Result<usize, Error> {
    told(raw::write(zone, north, band, p, easting, northing, out)).map(|length| length as usize)
}

/// Writes a reference at `q` digits per axis into `out` and answers its length. Bytes beyond it stay.
///
/// # Errors
///
/// 1 to 13 of the text; 21 if it is bare, or `q` is not 0..p; 20.
///
/// ```
/// let mut out = [0; 27];
/// let length = tsintovehy::shorten(b"18twl856641113154", 2, &mut out)?;
/// assert_eq!(&out[..length], b"18TWL8511");
/// assert_eq!(tsintovehy::shorten(b"18T", 0, &mut out).unwrap_err().number(), 21);
/// # Ok::<(), tsintovehy::Error>(())
/// ```
pub fn shorten(text: &[u8], q: i64, out: &mut [u8]) -> Result<usize, Error> {
    told(raw::shorten(text, q, out)).map(|length| length as usize)
}

/// Whether the reference `a` covers the reference `b`. A bare zone covers itself and all squares of its zone and band; a square
/// never covers a bare zone.
///
/// # Errors
///
/// 1 to 13, of `a`, else of `b`.
///
/// ```
/// assert!(tsintovehy::covers(b"18T", b"18TWL")?);
/// assert!(!tsintovehy::covers(b"18TWL", b"18T")?);
/// # Ok::<(), tsintovehy::Error>(())
/// ```
pub fn covers(a: &[u8], b: &[u8]) -> Result<bool, Error> {
    told(raw::covers(a, b)).map(|answer| answer == 1)
}

/// A point in whole units. Its zone is known to whoever asked for it.
#[derive(Clone, Copy, Debug, PartialEq, Eq, Hash)]
pub struct Point {
    /// Whether it lies in the northern hemisphere.
    pub north: bool,
    /// Units east.
    pub easting: i64,
    /// Units north.
    pub northing: i64,
}

/// Whether a point lies in MGRS's range; answers the point after the edge rules.
///
/// # Errors
///
/// 14, 16 and 17.
///
/// ```
/// use tsintovehy::{check_coords, Point};
///
/// let moved = check_coords(18, true, 1_000_000_000_000, -1)?;
/// assert_eq!(moved, Point { north: false, easting: 1_000_000_000_000, northing: 19_999_999_999_999 });
/// # Ok::<(), tsintovehy::Error>(())
/// ```
pub fn check_coords(zone: i64, north: bool, easting: i64, northing: i64) -> Result<Point, Error> {
    let mut moved = [0; 3];
    told(raw::check_coords(zone, north, easting, northing, &mut moved))?;
    let [north, easting, northing] = moved;
    Ok(Point { north: north == 1, easting, northing })
}

/// Whether a point lies in the range of UTM and UPS, which is MGRS's, wider by 100 km on every side.
///
/// # Errors
///
/// 14, 16 and 17.
///
/// ```
/// assert_eq!(tsintovehy::utm_check_coords(18, true, 0, 0), Ok(()));
/// assert_eq!(tsintovehy::utm_check_coords(18, true, -1, 0).unwrap_err().number(), 16);
/// ```
pub fn utm_check_coords(zone: i64, north: bool, easting: i64, northing: i64) -> Result<(), Error> {
    told(raw::check_utm(zone, north, easting, northing)).map(|_| ())
}

/// The band of a latitude in billionths of a degree: -10 for C to 9 for X, also for what lies beyond.
///
/// ```
/// let band = tsintovehy::latitude_band(40_748_333_000);
/// assert_eq!(band, 5);
/// assert_eq!(b"CDEFGHJKLMNPQRSTUVWX"[(band + 10) as usize], b'T');
/// ```
pub fn latitude_band(latitude: i64) -> i64 {
    raw::latitude_band(latitude)
}

/// The zone of a latitude and a longitude in billionths of a degree; 0, UPS, below -80 degrees and from 84 up.
///
/// # Errors
///
/// 22 if the latitude is outside -90..90.
///
/// ```
/// assert_eq!(tsintovehy::standard_zone(40_748_333_000, -73_985_278_000), Ok(18));
/// assert_eq!(tsintovehy::standard_zone(60_000_000_000, 3_000_000_000), Ok(32));
/// ```
pub fn standard_zone(latitude: i64, longitude: i64) -> Result<i64, Error> {
    told(raw::standard_zone(latitude, longitude))
}

/// The row of a row letter, in tiles north of the equator, negative in the south. Band -10 to 9, column 0 to 7, the letter's
/// place among `ABCDEFGHJKLMNPQRSTUV` in an odd zone. `None` where the band and the column allow no such row.
///
/// ```
/// assert_eq!(tsintovehy::utm_row(8, 2, 10), Some(70));
/// assert_eq!(tsintovehy::utm_row(8, 1, 10), None);
/// ```
pub fn utm_row(band: i64, column: i64, letter: i64) -> Option<i64> {
    Some(raw::utm_row(band, column, letter)).filter(|&row| row != NO_ROW)
}
