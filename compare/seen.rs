//! What the Rust does where docs/DIFFERENCES.md says that it parts from document 01: each input with its answer, as it is
//! seen by running. The files `seen.released` and `seen.checked` keep what was seen.
use geoconvert::mgrs::doors;
use geoconvert::utm::doors as utm_doors;
use geoconvert::{Error, Mgrs, UtmUps};
use std::panic::{catch_unwind, UnwindSafe};

/// An answer, or what a panic says.
fn show(asked: &str, ask: impl FnOnce() -> String + UnwindSafe) {
    let answer = catch_unwind(ask).unwrap_or_else(|panic| {
        let said = panic.downcast_ref::<&str>().map(|s| s.to_string());
        let said = said.or_else(|| panic.downcast_ref::<String>().cloned());
        format!("panics: {}", said.unwrap_or_default().lines().next().unwrap_or(""))
    });
    println!("{asked}: {answer}");
}

fn told(m: Result<Mgrs, Error>) -> String {
    match m {
        Ok(m) => {
            let side = if m.is_north() { "N" } else { "S" };
            format!("{} {side} p {} {} {}", m.zone(), m.precision(), m.easting(), m.northing())
        }
        Err(error) => format!("{error:?}"),
    }
}

fn read(text: &str) {
    show(&format!("read {text:?}"), || told(Mgrs::parse_str(text)));
}

fn print_again(text: &str) {
    show(&format!("read {text:?} and print"), || Mgrs::parse_str(text).unwrap().to_string());
}

fn print(zone: i32, north: bool, x: f64, y: f64, p: i32) {
    let side = if north { "N" } else { "S" };
    show(&format!("print zone {zone} {side} {x} {y} p {p}"), || Mgrs::create(zone, north, x, y, p).unwrap().to_string());
}

fn check(utm: bool, north: bool, x: f64, y: f64) {
    let (grid, side) = (if utm { "UTM" } else { "UPS" }, if north { "N" } else { "S" });
    show(&format!("mgrs::check_coords {grid} {side} {x} {y}"), || match doors::check_coords(utm, north, x, y) {
        Ok((north, x, y)) => format!("{} {x} {y}", if north { "N" } else { "S" }),
        Err(error) => format!("{error:?}"),
    });
}

fn readings() {
    read("18TWL12345671234567");
    read("18TWL1234567812345678");
    read("1CEM0000000000000000");
    read("18TWL1234567890112345678901");
    read("18TWL012345678901234567890123");
    read("999999999T");
    read("4294967314TWL");
    read("18T");
    read("18TWA");
    read("é");
}

fn bare_zones() {
    for text in ["18T", "31V", "60C", "A", "Z"] {
        print_again(text);
    }
}

fn ends() {
    print(18, true, 900_000.0, 4_500_000.0, 5);
    print(18, false, 500_000.0, 10_000_000.0, 5);
    print(18, true, 500_000.0, 0.0, 5);
    print(18, true, 500_000.0, 0.000_000_5, 5);
    print(18, false, 500_000.0, 19_500_000.0, 5);
    print(18, true, 500_000.0, 9_500_000.0, 5);
    print(0, true, 2_700_000.0, 2_000_000.0, 5);
    check(true, true, 900_000.0, 4_500_000.0);
    check(true, false, 500_000.0, 10_000_000.0);
    check(true, true, 500_000.0, 0.0);
    check(true, true, 500_000.0, 999_999.0);
    check(true, true, 500_000.0, 1_000_000.0);
    check(true, true, 500_000.0, -1.0);
    check(true, true, 500_000.0, 9_500_000.0);
    check(true, false, 500_000.0, 19_500_000.0);
    check(false, false, 3_200_000.0, 2_000_000.0);
    // The next f64 after the end: `eps_eq` is plain equality there.
    check(true, true, 900_000.000_000_000_1, 4_500_000.0);
}

fn precisions() {
    print(18, true, 131_114.396_758, 4_500_000.0, 11);
    print(18, true, 131_114.396_758, 4_500_000.0, 10);
    for p in [0, -1, -5, 12] {
        print(18, true, 585_664.15, 4_511_315.45, p);
    }
    for p in [-1, 0, 1, 11, 12] {
        show(&format!("set_precision {p}"), || {
            let mut m = Mgrs::parse_str("18TWL").unwrap();
            format!("{:?}", m.set_precision(p))
        });
    }
    for (axis, lowest, highest) in [("eastings", 100_000, 900_000), ("northings", 1_000_000, 9_400_000)] {
        show(&format!("of 100,000 {axis} in whole micrometres, one low at p 11"), || low(axis, lowest, highest).to_string());
    }
}

/// How many whole micrometres from lowest to highest, in metres, lose one when they are printed with 11 digits.
fn low(axis: &str, lowest: i64, highest: i64) -> usize {
    let step = (highest - lowest) * 10 - 17;
    let is_low = |micrometres: &i64| {
        let at = *micrometres as f64 / 1e6;
        let (x, y, from) = if axis == "eastings" { (at, 4_550_000.0, 5) } else { (450_000.0, at, 16) };
        // Near the edges of bands it asks the projection.
        let text = catch_unwind(|| Mgrs::create(18, true, x, y, 11).unwrap().to_string());
        text.map_or(false, |t| t[from..from + 11].parse::<i64>().unwrap() + 1 == micrometres % 100_000_000_000)
    };
    (0..100_000).map(|k| lowest * 1_000_000 + k * step).filter(is_low).count()
}

fn no_numbers() {
    let nan = f64::NAN;
    show("create with a northing that is no number", || told(Mgrs::create(18, true, 500_000.0, nan, 5)));
    show("create with an easting that is no number", || told(Mgrs::create(18, true, nan, 4_500_000.0, 5)));
    show("UtmUps::create with both no numbers", || format!("{:?}", UtmUps::create(18, true, nan, nan).is_ok()));
}

fn degrees() {
    for lat in [90.000_000_001, -90.000_000_001, 1000.0] {
        show(&format!("standard_zone {lat} 0"), || utm_doors::standard_zone(lat, 0.0).to_string());
    }
    for lon in [180.0, 180.000_000_001, 539.0, -180.000_000_001] {
        show(&format!("standard_zone 0 {lon}"), || utm_doors::standard_zone(0.0, lon).to_string());
    }
    for lat in [2_147_483_567.0, 2_147_483_568.0, -3_000_000_000.0] {
        show(&format!("to_latitude_band {lat}"), || doors::to_latitude_band(lat).to_string());
    }
    for zone in [5, -2, -4] {
        show(&format!("standard_zone 60 3 with the zone set to {zone}"), || utm_doors::set_zone(60.0, 3.0, zone).to_string());
    }
    show("utm_row 8 1 10", || doors::utm_row(8, 1, 10).to_string());
    show("utm_row 8 2 9", || doors::utm_row(8, 2, 9).to_string());
}

fn main() {
    std::panic::set_hook(Box::new(|_| {}));
    readings();
    bare_zones();
    ends();
    precisions();
    no_numbers();
    degrees();
}
