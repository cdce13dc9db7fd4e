//! Stands in for the projection of UTM, which the source at hand does not have. It says that it was asked. It makes up no
//! latitude: it hands on the one that was lent, or panics.
use crate::latlon::LatLon;
use std::cell::Cell;

/// The latitude, in degrees, of a point: the zone's middle meridian, then metres from it and from the equator.
pub type Lender = fn(f64, f64, f64) -> f64;

thread_local! {
    pub static ASKED: Cell<u64> = Cell::new(0);
    pub static LENDER: Cell<Option<Lender>> = Cell::new(None);
}

pub struct TransverseMercator;

impl TransverseMercator {
    pub fn utm() -> Self {
        TransverseMercator
    }

    pub fn to_latlon(&self, lon0: f64, x: f64, y: f64) -> LatLon {
        ASKED.with(|n| n.set(n.get() + 1));
        match LENDER.with(Cell::get) {
            Some(lent) => LatLon { latitude: lent(lon0, x, y), longitude: f64::NAN },
            None => panic!("the projection was asked, and nothing is lent"),
        }
    }

    pub fn from_latlon(&self, _lon0: f64, _lat: f64, _lon: f64) -> (f64, f64) {
        panic!("the projection was asked for a point: there is none here")
    }
}
