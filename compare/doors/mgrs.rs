// The source's own file, whole and unchanged; what follows it are doors to what it keeps private.
include!("../../unchanged/src/coords/mgrs.rs");

pub mod doors {
    pub use crate::projections::transverse_mercator::{Lender, ASKED, LENDER};

    pub fn utm_row(band: i32, column: i32, letter: i32) -> i32 {
        super::utm_row(band, column, letter)
    }

    pub fn to_latitude_band(lat: f64) -> i32 {
        super::to_latitude_band(lat)
    }

    pub fn check_coords(utmp: bool, northp: bool, x: f64, y: f64) -> Result<(bool, f64, f64), crate::Error> {
        super::check_coords(utmp, northp, x, y)
    }
}
