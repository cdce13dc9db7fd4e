//! The calls of libexport.a as C has them, and over each one a safe function that only takes slices apart. This is the one
//! file with unsafe code.
//!
//! Each block is sound for the same reasons. A slice gives a pointer to its length of initialised bytes, and an empty one may
//! have any. An array gives a pointer to all its elements. `&mut` keeps what is written apart from what is read. A Rust bool is
//! 0 or 1. That no call reads or writes outside what it was lent is proved of the archive, which has no state of its own.
#![allow(unsafe_code)]

#[link(name = "export", kind = "static")]
extern "C" {
    fn mgrs_read(text: *const u8, length: usize, position: *mut i64) -> i64;
    fn mgrs_read_metres(text: *const u8, length: usize, metres: *mut f64) -> i64;
    fn mgrs_write(zone: i64, north: bool, band: u8, p: i64, easting: i64, northing: i64, out: *mut u8, length: usize) -> i64;
    fn mgrs_shorten(text: *const u8, length: usize, q: i64, out: *mut u8, out_length: usize) -> i64;
    fn mgrs_covers(a: *const u8, a_length: usize, b: *const u8, b_length: usize) -> i64;
    fn mgrs_check_coords(zone: i64, north: bool, easting: i64, northing: i64, moved: *mut i64) -> i64;
    fn utm_check_coords(zone: i64, north: bool, easting: i64, northing: i64) -> i64;
    fn mgrs_latitude_band(latitude: i64) -> i64;
    fn mgrs_standard_zone(latitude: i64, longitude: i64) -> i64;
    fn mgrs_utm_row(band: i64, column: i64, letter: i64) -> i64;
}

pub(crate) fn read(text: &[u8], position: &mut [i64; 6]) -> i64 {
    unsafe { mgrs_read(text.as_ptr(), text.len(), position.as_mut_ptr()) }
}

pub(crate) fn read_metres(text: &[u8], metres: &mut [f64; 2]) -> i64 {
    unsafe { mgrs_read_metres(text.as_ptr(), text.len(), metres.as_mut_ptr()) }
}

pub(crate) fn write(zone: i64, north: bool, band: u8, p: i64, easting: i64, northing: i64, out: &mut [u8]) -> i64 {
    unsafe { mgrs_write(zone, north, band, p, easting, northing, out.as_mut_ptr(), out.len()) }
}

pub(crate) fn shorten(text: &[u8], q: i64, out: &mut [u8]) -> i64 {
    unsafe { mgrs_shorten(text.as_ptr(), text.len(), q, out.as_mut_ptr(), out.len()) }
}

pub(crate) fn covers(a: &[u8], b: &[u8]) -> i64 {
    unsafe { mgrs_covers(a.as_ptr(), a.len(), b.as_ptr(), b.len()) }
}

pub(crate) fn check_coords(zone: i64, north: bool, easting: i64, northing: i64, moved: &mut [i64; 3]) -> i64 {
    unsafe { mgrs_check_coords(zone, north, easting, northing, moved.as_mut_ptr()) }
}

pub(crate) fn check_utm(zone: i64, north: bool, easting: i64, northing: i64) -> i64 {
    unsafe { utm_check_coords(zone, north, easting, northing) }
}

pub(crate) fn latitude_band(latitude: i64) -> i64 {
    unsafe { mgrs_latitude_band(latitude) }
}

pub(crate) fn standard_zone(latitude: i64, longitude: i64) -> i64 {
    unsafe { mgrs_standard_zone(latitude, longitude) }
}

pub(crate) fn utm_row(band: i64, column: i64, letter: i64) -> i64 {
    unsafe { mgrs_utm_row(band, column, letter) }
}
