//! Stands in for the file coords/latlon.rs, which the source at hand does not have: only what utm.rs and mgrs.rs name.

#[derive(Clone, Copy, Debug)]
pub struct LatLon {
    pub(crate) latitude: f64,
    pub(crate) longitude: f64,
}

impl LatLon {
    pub(crate) fn is_north(&self) -> bool {
        self.latitude.is_sign_positive()
    }
}
