//! What the types promise: that a bare zone is never a square, sizes, traits, and the words of the rules.
use std::collections::HashSet;
use std::fmt::{Debug, Display};
use std::hash::Hash;
use std::mem::size_of;
use tsintovehy::*;

/// All texts that are bare zones: 60 zones of 20 bands, and four bands of UPS.
fn bare_zones() -> Vec<String> {
    let bands = "CDEFGHJKLMNPQRSTUVWX";
    let utm = (1..=60).flat_map(|zone| bands.chars().map(move |band| format!("{:02}{}", zone, band)));
    utm.chain("ABYZ".chars().map(String::from)).collect()
}

#[test]
fn no_bare_zone_is_a_square() {
    assert_eq!(bare_zones().len(), 1204);
    for text in bare_zones() {
        let zone: BareZone = text.parse().unwrap();
        assert_eq!(text.parse::<Square>(), Err(NotASquare::BareZone(zone)));
        let reading = Reading::parse_str(&text).unwrap();
        assert_eq!((reading.square(), reading.bare_zone()), (None, Some(zone)));
        assert_eq!(BareZone::create(zone.zone(), zone.band()), Ok(zone));
        assert_eq!((zone.to_string(), reading.to_string()), (text.clone(), text.clone()));
        // Its supplied point, created with a bare zone's p, gives no square either; nor does shortening.
        let point = zone.supplied_point();
        let (e, n) = (point.easting_units(), point.northing_units());
        let created = Square::create(zone.zone(), zone.is_north(), zone.band(), e, n, -1);
        assert_eq!(created.unwrap_err().number(), 15);
        assert_eq!(shorten(text.as_bytes(), 0, &mut [0; 27]).unwrap_err().number(), 21);
        // The writer takes that p, and writes the bare zone.
        let mut out = [0; 27];
        let length = write(zone.zone(), zone.is_north(), zone.band(), -1, e, n, &mut out).unwrap();
        assert_eq!(&out[..length], text.as_bytes());
    }
}

#[test]
fn no_square_is_a_bare_zone() {
    let square: Square = "18TWQ".parse().unwrap();
    assert_eq!("18TWQ".parse::<BareZone>(), Err(NotABareZone::Square(square)));
    assert_eq!(Reading::parse_str("18TWQ").unwrap().bare_zone(), None);
    assert_ne!(Reading::parse_str("18TWQ"), Reading::parse_str("18T"));
}

fn plain<T: Copy + Eq + Hash + Debug + Send + Sync + 'static>() {}
fn error<T: std::error::Error + Copy + Eq + Hash + Send + Sync + 'static>() {}
fn printed<T: Display + std::str::FromStr>() {}

#[test]
fn traits_and_sizes() {
    plain::<Square>();
    plain::<BareZone>();
    plain::<Reading>();
    plain::<SuppliedPoint>();
    plain::<Point>();
    error::<Error>();
    error::<NotASquare>();
    error::<NotABareZone>();
    printed::<Square>();
    printed::<BareZone>();
    printed::<Reading>();
    assert_eq!((size_of::<Square>(), size_of::<BareZone>(), size_of::<Error>()), (24, 24, 1));
    assert!(size_of::<Reading>() <= 32);
}

#[test]
fn formats_do_not_cut_a_square_down_to_a_bare_zone() {
    let square: Square = "18TWL85".parse().unwrap();
    assert_eq!(format!("{:.3}|{:12}|{:?}", square, square, square), "18TWL85|18TWL85|Square(18TWL85)");
    assert_eq!(format!("{:?}", Reading::parse_str("18T").unwrap()), "BareZone(BareZone(18T))");
}

/// An input for every rule, in the rules' order.
fn every_refusal() -> Vec<Error> {
    #[rustfmt::skip]
    let texts: [&[u8]; 13] = [
        b"\x80", b"INV", b"0", b"018", b"", b"18I", b"18TW", b"18TAL", b"18TWW", b"18TWA", b"18TWLX", b"18TWL8",
        b"18TWL123456789012345678901234",
    ];
    let (e, n) = (1_000_000_000_000, 9_000_000_000_000);
    let mut all: Vec<Error> = texts.iter().map(|text| read(text).unwrap_err()).collect();
    all.push(write(61, true, b'T', 0, e, n, &mut [0; 27]).unwrap_err());
    all.push(write(18, true, b'T', 12, e, n, &mut [0; 27]).unwrap_err());
    all.push(write(18, true, b'T', 0, 0, n, &mut [0; 27]).unwrap_err());
    all.push(write(18, true, b'T', 0, e, i64::MAX, &mut [0; 27]).unwrap_err());
    all.push(write(18, true, b'I', 0, e, n, &mut [0; 27]).unwrap_err());
    all.push(write(18, true, b'U', 0, e, n, &mut [0; 27]).unwrap_err());
    all.push(write(18, true, b'T', 0, e, n, &mut []).unwrap_err());
    all.push(shorten(b"18T", 0, &mut []).unwrap_err());
    all.push(standard_zone(i64::MAX, 0).unwrap_err());
    all
}

/// C's header gives every rule the same words.
#[test]
fn every_rule_has_its_words() {
    let header = include_str!("../../c/tsintovehy.h");
    let mut words = HashSet::new();
    for (number, error) in (1..=22).zip(every_refusal()) {
        assert_eq!(error.number(), number);
        assert!(words.insert(error.rule()));
        assert_eq!(error.to_string(), format!("refusal {}: {}", number, error.rule()));
        assert!(header.contains(&format!("case {}: return \"{}\";", number, error.rule())), "{}", error);
    }
    assert_eq!(words.len(), 22);
}

#[test]
fn constants_are_those_of_the_header() {
    let header = include_str!("../../c/tsintovehy.h");
    assert!(header.contains(&format!("TSINTOVEHY_UNITS_PER_METRE ((int64_t){})", UNITS_PER_METRE)));
    assert!(header.contains(&format!("TSINTOVEHY_LONGEST {} ", LONGEST)));
}
