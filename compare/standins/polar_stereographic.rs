//! Stands in for the projection of UPS, which the source at hand does not have. Nothing that is compared asks it.
use crate::latlon::LatLon;

pub struct PolarStereographic;

impl PolarStereographic {
    pub fn ups() -> Self {
        PolarStereographic
    }

    pub fn to_latlon(&self, _northp: bool, _x: f64, _y: f64) -> LatLon {
        panic!("the polar projection was asked: there is none here")
    }

    pub fn from_latlon(&self, _northp: bool, _lat: f64, _lon: f64) -> (f64, f64) {
        panic!("the polar projection was asked for a point: there is none here")
    }
}
