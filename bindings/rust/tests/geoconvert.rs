//! The examples in geoconvert 1.0.2's documentation of `Mgrs`, as far as they need no projection, told in this crate's words.
use tsintovehy::{units_of_metres, Error, Square};

/// geoconvert's `create` takes metres, and no band; New York lies in band T.
fn create(zone: i64, north: bool, easting: f64, northing: f64, precision: i64) -> Result<Square, Error> {
    let (e, n) = (units_of_metres(easting).unwrap(), units_of_metres(northing).unwrap());
    Square::create(zone, north, b'T', e, n, precision)
}

#[test]
fn mgrs_create() {
    // At p 6 a square has sides of 10 cm and its centre is held, so coordinates agree to 5 cm; at 8 digits to half a millimetre.
    let coord = create(18, true, 585664.121, 4511315.422, 6).unwrap();
    assert_eq!((coord.zone(), coord.is_north(), coord.precision()), (18, true, 6));
    assert!((coord.easting() - 585664.121).abs() <= 0.05 && (coord.northing() - 4511315.422).abs() <= 0.05);
    let fine = create(18, true, 585664.121, 4511315.422, 8).unwrap();
    assert!((fine.easting() - 585664.121).abs() < 1e-3 && (fine.northing() - 4511315.422).abs() < 1e-3);
    assert_eq!(create(-10, true, 585664.121, 4511315.422, 6).unwrap_err().number(), 14);
    assert_eq!(create(70, true, 585664.121, 4511315.422, 6).unwrap_err().number(), 14);
}

#[test]
fn mgrs_getters() {
    let coord: Square = "18TWL856641113154".parse().unwrap();
    assert!(coord.is_utm());
    assert_eq!(coord.zone(), 18);
    assert!(coord.is_north());
    assert!((coord.easting() - 585664.15).abs() < 1e-2);
    assert!((coord.northing() - 4511315.45).abs() < 1e-2);
    assert_eq!(coord.precision(), 6);
}

#[test]
fn mgrs_set_precision() {
    // Its example lengthens 6 digits to 7, which nobody recorded: here that is refused, and fewer are a square of their own.
    let coord: Square = "18TWL856641113154".parse().unwrap();
    assert_eq!(coord.shorten(7).unwrap_err().number(), 21);
    assert_eq!(coord.shorten(5).unwrap().precision(), 5);
}

#[test]
fn mgrs_parse_str() {
    for text in ["27UXQ0314512982", "YXL6143481146"] {
        assert_eq!(text.parse::<Square>().unwrap().to_string(), text);
    }
}

#[test]
fn mgrs_from_and_to_utmups() {
    let coord: Square = "18TWL856641113154".parse().unwrap();
    let converted = create(18, true, 585664.15, 4511315.45, 6).unwrap();
    assert_eq!(coord, converted);
    assert!((converted.easting() - 585664.15).abs() < 1e-2 && (converted.northing() - 4511315.45).abs() < 1e-2);
}
