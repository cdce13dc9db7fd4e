//! Our side: the calls of the library `export`.
use crate::calls::Point;

side!(mgrs_read, mgrs_read_metres, mgrs_write);

/// The point of a sound text.
pub fn point(text: &str) -> Point {
    let mut q = [0; 6];
    assert!(read(text.as_bytes(), &mut q) >= 0, "not read: {text}");
    Point { zone: q[0], north: q[1] == 1, band: q[2] as u8, p: q[3], easting: q[4], northing: q[5] }
}
