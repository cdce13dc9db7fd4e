// The source's own file, whole and unchanged; what follows it are doors to what it keeps private.
include!("../../unchanged/src/coords/utm.rs");

pub mod doors {
    /// As the source's only caller of it asks: by the standard, with no zone set.
    pub fn standard_zone(lat: f64, lon: f64) -> i32 {
        super::standard_zone(lat, lon, super::zonespec::STANDARD)
    }

    pub fn set_zone(lat: f64, lon: f64, zone: i32) -> i32 {
        super::standard_zone(lat, lon, zone)
    }
}
