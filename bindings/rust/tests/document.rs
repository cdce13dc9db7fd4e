//! Document 01's examples, "References on each side of a rule", and the neighbours of each rule.
use tsintovehy::*;

const M: i64 = UNITS_PER_METRE;

fn square(text: &str) -> Square {
    text.parse().unwrap_or_else(|error| panic!("{}: {}", text, error))
}

fn number(text: &str) -> u8 {
    match Reading::parse_str(text) {
        Ok(reading) => panic!("{} is read as {:?}", text, reading),
        Err(error) => error.number(),
    }
}

/// Both ways to read agree, in the kind and in every bit of the metres.
fn metres(text: &str) -> (f64, f64) {
    let s = square(text);
    let read = read_metres(text.as_bytes()).unwrap();
    assert_eq!(read, Metres::Square { easting: s.easting(), northing: s.northing() }, "{}", text);
    (s.easting(), s.northing())
}

fn supplied(text: &str) -> (f64, f64) {
    let point = text.parse::<BareZone>().unwrap().supplied_point();
    let (supplied_easting, supplied_northing) = (point.easting(), point.northing());
    assert_eq!(read_metres(text.as_bytes()), Ok(Metres::BareZone { supplied_easting, supplied_northing }), "{}", text);
    (supplied_easting, supplied_northing)
}

#[test]
fn squares_are_read() {
    assert_eq!(metres("18TWL856641113154"), (585664.15, 4511315.45));
    assert_eq!(metres("27UXQ0314512982"), (603145.5, 5412982.5));
    assert_eq!(metres("YXL6143481146"), (1761434.5, 2381146.5));
    assert!(square("YXL6143481146").is_north() && !square("YXL6143481146").is_utm());
    assert_eq!(metres("4qfj"), (650000.0, 2350000.0));
    assert_eq!((square("4qfj").zone(), square("4qfj").to_string()), (4, "04QFJ".to_string()));
}

#[test]
fn bare_zones_are_read_and_printed_as_bare() {
    assert_eq!(supplied("18T"), (500000.0, 4900000.0));
    assert_eq!(supplied("31V"), (400000.0, 6700000.0));
    assert_eq!(supplied("Z"), (2400000.0, 2000000.0));
    for text in ["18T", "31V", "Z", "04q", "4Q", "a"] {
        let zone: BareZone = text.parse().unwrap();
        let canonical = if text == "4Q" { "04Q".to_string() } else { text.to_uppercase() };
        assert_eq!(zone.to_string(), canonical);
    }
}

#[test]
fn folded_cases() {
    for (text, row) in [("31WCL", 70), ("31WFL", 70), ("31VCM", 71), ("31XBV", 79), ("31WBA", 80)] {
        assert_eq!(square(text).south_west().northing, row * 100_000 * M, "{}", text);
    }
    for text in ["31WBL", "31WGL", "31VDM", "31XAV", "31WCA"] {
        assert_eq!(number(text), 10, "{}", text);
    }
}

#[test]
fn refusals_of_reading() {
    #[rustfmt::skip]
    let expected = [
        ("", 5), ("18", 5), ("0", 3), ("61C", 3), ("018T", 4), ("inv", 2), ("18I", 6), ("18TW", 7), ("18TAL", 8), ("18TWW", 9),
        ("18TWA", 10), ("18TWLX", 11), ("18TWL8", 12), ("18TWL123456789012345678901234", 13), ("18TWAX", 10), ("é", 1),
        ("4294967314TWL", 3), ("18T ", 7), (" 18T", 6),
    ];
    for (text, rule) in expected {
        assert_eq!(number(text), rule, "{}", text);
        assert_eq!(text.parse::<Square>(), Err(NotASquare::Refused(read(text.as_bytes()).unwrap_err())));
        assert_eq!(text.parse::<BareZone>(), Err(NotABareZone::Refused(read(text.as_bytes()).unwrap_err())));
    }
}

#[test]
fn writing() {
    let written = |north, band, e, n| Square::create(18, north, band, e * M, n * M, 5).unwrap().to_string();
    assert_eq!(written(true, b'T', 900_000, 4_500_000), "18TZL9999900000");
    assert_eq!(written(false, b'M', 500_000, 10_000_000), "18MWE0000099999");
    assert_eq!(written(true, b'N', 500_000, 0), "18NWF0000000000");
    assert_eq!(Square::create(18, true, b'T', 500_000 * M, 4_500_000 * M, 0).unwrap().to_string(), "18TWL");
}

#[test]
fn what_is_created_is_the_square_after_the_edge_rules() {
    // One unit south of the equator, given as north.
    let s = Square::create(18, true, b'M', 500_000 * M, -1, 11).unwrap();
    assert!(!s.is_north());
    assert_eq!(s.south_west(), Point { north: false, easting: 500_000 * M, northing: 10_000_000 * M - 2 });
    assert_eq!(s.side_units(), 2);
    assert_eq!(s.to_string(), "18MWE0000000000099999999999");
}

#[test]
fn refusals_of_writing() {
    let (e, n) = (500_000 * M, 4_500_000 * M);
    let refused = |zone, band, e, n, p| Square::create(zone, true, band, e, n, p).unwrap_err().number();
    assert_eq!(refused(61, b'T', e, n, 12), 14);
    assert_eq!(refused(-1, b'T', e, n, -1), 14);
    assert_eq!(refused(18, b'T', e, n, 12), 15);
    assert_eq!(refused(18, b'T', e, n, -1), 15);
    assert_eq!(refused(18, b'T', 900_000 * M + 1, n, 5), 16);
    assert_eq!(refused(18, b'T', e, 9_500_000 * M + 1, 5), 17);
    assert_eq!(refused(18, b't', e, n, 5), 18);
    assert_eq!(refused(0, b'T', 2_000_000 * M, 2_000_000 * M, 5), 18);
    assert_eq!(refused(18, b'U', e, n, 5), 19);
    assert_eq!(write(18, true, b'T', 0, e, n, &mut [0; 4]).unwrap_err().number(), 20);
}

#[test]
fn shortening_and_covering() {
    let fine = square("18twl856641113154");
    let names = ["18TWL", "18TWL81", "18TWL8511", "18TWL856113", "18TWL85661131", "18TWL8566411315", "18TWL856641113154"];
    for (q, name) in (0..).zip(names) {
        let wider = fine.shorten(q).unwrap();
        assert_eq!(wider.to_string(), name);
        assert!(wider.covers(&fine) && wider.covers(&wider));
        assert_eq!(fine.covers(&wider), q == 6);
    }
    assert_eq!(fine.shorten(7).unwrap_err().number(), 21);
    assert_eq!(fine.shorten(-1).unwrap_err().number(), 21);
    assert_eq!(covers(b"18TWL85", b"18TWL8050"), Ok(true));
    assert_eq!(covers(b"18T", b"18TWL"), Ok(true));
    assert_eq!(covers(b"18TWL", b"18T"), Ok(false));
    assert_eq!(covers(b"18TW", b"18I").unwrap_err().number(), 7);
    assert_eq!(covers(b"18TWL", b"18I").unwrap_err().number(), 6);
}

#[test]
fn range_tests() {
    let (e, n) = (500_000 * M, 4_500_000 * M);
    assert_eq!(check_coords(18, true, 900_000 * M, n), Ok(Point { north: true, easting: 900_000 * M - 1, northing: n }));
    let turned = Point { north: true, easting: e, northing: 9_500_000 * M - 1 };
    assert_eq!(check_coords(18, false, e, 19_500_000 * M), Ok(turned));
    assert_eq!(check_coords(18, true, 900_000 * M + 1, n).unwrap_err().number(), 16);
    assert_eq!(utm_check_coords(18, true, 1_000_000 * M, n), Ok(()));
    assert_eq!(utm_check_coords(18, true, 1_000_000 * M + 1, n).unwrap_err().number(), 16);
    assert_eq!(utm_check_coords(61, true, e, n).unwrap_err().number(), 14);
    assert_eq!(utm_check_coords(18, true, e, 9_600_000 * M + 1).unwrap_err().number(), 17);
}

#[test]
fn zones_and_bands_of_latitudes() {
    const DEGREE: i64 = 1_000_000_000;
    assert_eq!(standard_zone(60 * DEGREE, 3 * DEGREE), Ok(32));
    assert_eq!(standard_zone(60 * DEGREE, 3 * DEGREE - 1), Ok(31));
    assert_eq!(standard_zone(72 * DEGREE, 9 * DEGREE - 1), Ok(31));
    assert_eq!(standard_zone(72 * DEGREE, 9 * DEGREE), Ok(33));
    assert_eq!(standard_zone(84 * DEGREE, 0), Ok(0));
    assert_eq!(standard_zone(0, 180 * DEGREE), Ok(1));
    assert_eq!(standard_zone(0, -51 * DEGREE), Ok(22));
    assert_eq!(standard_zone(90 * DEGREE + 1, 0).unwrap_err().number(), 22);
    for band in -10..10 {
        assert_eq!(latitude_band(8 * band * DEGREE), band);
        assert_eq!(latitude_band(8 * (band + 1) * DEGREE - 1), band);
    }
}

/// Every band, column and row letter of zone 31: the row answered is the one that its text is read in.
#[test]
fn rows_as_read() {
    let mut found = 0;
    for (band, b) in (-10..).zip("CDEFGHJKLMNPQRSTUVWX".chars()) {
        for (column, c) in (0..).zip("ABCDEFGH".chars()) {
            for (letter, l) in (0..).zip("ABCDEFGHJKLMNPQRSTUV".chars()) {
                let read = Reading::parse_str(&format!("31{}{}{}", b, c, l)).ok().and_then(|reading| reading.square());
                let row = read.map(|s| s.south_west().northing / (100_000 * M) - if s.is_north() { 0 } else { 100 });
                assert_eq!(utm_row(band, column, letter), row, "31{}{}{}", b, c, l);
                found += u32::from(row.is_some());
            }
        }
    }
    assert_eq!(found, 1632);
}
