//! GeographicLib's side, by the calls of geographiclib.cc; where it is not installed, nothing is asked of it.
use std::os::raw::{c_char, c_int};

/// A text as GeographicLib takes it.
#[derive(Clone, Copy)]
pub struct Text(*const u8);

/// A point as GeographicLib takes it: a latitude amid the band says which band is meant.
#[derive(Clone, Copy)]
pub struct Point {
    pub zone: c_int,
    pub north: bool,
    pub easting: f64,
    pub northing: f64,
    pub latitude: f64,
    pub p: c_int,
}

#[cfg(geographiclib)]
extern "C" {
    fn theirs_version() -> *const c_char;
    fn theirs_text(bytes: *const u8, length: usize) -> *const u8;
    fn theirs_read(text: *const u8, metres: *mut [f64; 2]) -> c_int;
    fn theirs_write(zone: c_int, north: bool, x: f64, y: f64, latitude: f64, p: c_int, text: *mut *const c_char) -> c_int;
}

pub fn is_here() -> bool {
    cfg!(geographiclib)
}

/// Every latitude of a band but its ends names it. UPS needs none.
pub fn latitude_amid(band: u8) -> f64 {
    b"CDEFGHJKLMNPQRSTUVWX".iter().position(|b| *b == band).map_or(0.0, |place| -76.0 + 8.0 * place as f64)
}

#[cfg(geographiclib)]
mod calls {
    use super::*;

    pub fn version() -> String {
        unsafe { std::ffi::CStr::from_ptr(theirs_version()) }.to_string_lossy().into_owned()
    }

    /// Kept until the end of the run.
    pub fn text(text: &str) -> Text {
        Text(unsafe { theirs_text(text.as_ptr(), text.len()) })
    }

    /// The precision, or -2 for a refusal.
    #[inline(always)]
    pub fn read(text: Text, metres: &mut [f64; 2]) -> c_int {
        unsafe { theirs_read(text.0, metres) }
    }

    /// The length, or -2 for a refusal; the text stands at `text`.
    #[inline(always)]
    pub fn write(at: &Point, text: &mut *const c_char) -> c_int {
        unsafe { theirs_write(at.zone, at.north, at.easting, at.northing, at.latitude, at.p, text) }
    }
}

#[cfg(not(geographiclib))]
mod calls {
    use super::*;

    pub fn version() -> String {
        String::new()
    }

    pub fn text(_: &str) -> Text {
        Text(std::ptr::null())
    }

    pub fn read(_: Text, _: &mut [f64; 2]) -> c_int {
        unreachable!("GeographicLib is not here")
    }

    pub fn write(_: &Point, _: &mut *const c_char) -> c_int {
        unreachable!("GeographicLib is not here")
    }
}

pub use calls::{read, text, version, write};

/// What was written last.
pub fn written(text: *const c_char, length: c_int) -> String {
    let bytes = unsafe { std::slice::from_raw_parts(text as *const u8, length as usize) };
    String::from_utf8_lossy(bytes).into_owned()
}
