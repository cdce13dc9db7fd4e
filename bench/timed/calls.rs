//! The three calls that our library and plain C have in the same form, over the boundary of C.

/// A point as it is handed to a writer.
#[derive(Clone, Copy, Debug, PartialEq)]
pub struct Point {
    pub zone: i64,
    pub north: bool,
    pub band: u8,
    pub p: i64,
    pub easting: i64,
    pub northing: i64,
}

/// Makes `read`, `read_metres` and `write` of a side's calls. Reading answers 0 for a square and 1 for a bare zone, writing the length;
/// below 0 is minus the refusal's number.
macro_rules! side {
    ($read:ident, $read_metres:ident, $write:ident) => {
        extern "C" {
            fn $read(text: *const u8, length: usize, position: *mut [i64; 6]) -> i64;
            fn $read_metres(text: *const u8, length: usize, metres: *mut [f64; 2]) -> i64;
            fn $write(zone: i64, north: bool, band: u8, p: i64, x: i64, y: i64, out: *mut u8, room: usize) -> i64;
        }

        #[inline(always)]
        pub fn read(text: &[u8], position: &mut [i64; 6]) -> i64 {
            unsafe { $read(text.as_ptr(), text.len(), position) }
        }

        #[inline(always)]
        pub fn read_metres(text: &[u8], metres: &mut [f64; 2]) -> i64 {
            unsafe { $read_metres(text.as_ptr(), text.len(), metres) }
        }

        #[inline(always)]
        pub fn write(at: &$crate::calls::Point, out: &mut [u8]) -> i64 {
            unsafe { $write(at.zone, at.north, at.band, at.p, at.easting, at.northing, out.as_mut_ptr(), out.len()) }
        }
    };
}
