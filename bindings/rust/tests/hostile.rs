//! Any bytes and any numbers: each call answers, and a refusal leaves what was lent.
use tsintovehy::*;

const ENDS: [i64; 6] = [i64::MIN, i64::MIN + 1, -1, 0, i64::MAX - 1, i64::MAX];

fn refused(text: &[u8], rule: u8) {
    assert_eq!(read(text).unwrap_err().number(), rule);
    assert_eq!(read_metres(text).unwrap_err().number(), rule);
    let mut out = [b'.'; 40];
    assert_eq!(shorten(text, 0, &mut out).unwrap_err().number(), rule);
    assert_eq!(out, [b'.'; 40]);
    assert_eq!(covers(text, b"18TWL").unwrap_err().number(), rule);
    assert_eq!(covers(b"18TWL", text).unwrap_err().number(), rule);
}

#[test]
fn every_single_byte() {
    for byte in 0..=255u8 {
        match byte {
            128..=255 => refused(&[byte], 1),
            b'0' => refused(&[byte], 3),
            b'1'..=b'9' => refused(&[byte], 5),
            b'A' | b'B' | b'Y' | b'Z' | b'a' | b'b' | b'y' | b'z' => assert!(read(&[byte]).unwrap().bare_zone().is_some()),
            _ => refused(&[byte], 6),
        }
    }
}

/// Each byte at each place of a sound reference: where it is read, its text names the same square, or it is a bare zone.
#[test]
fn every_byte_at_every_place() {
    for place in 0..9 {
        for byte in 0..=255u8 {
            let mut text = *b"18TWL8511";
            text[place] = byte;
            if let Ok(Reading::Square(s)) = read(&text) {
                assert_eq!(s.to_string().as_bytes(), text.to_ascii_uppercase());
            }
            assert!(byte < 128 || read(&text).unwrap_err().number() == 1);
        }
    }
}

#[test]
fn empty_and_long_texts() {
    refused(b"", 5);
    let mut long = vec![b'7'; 1 << 20];
    refused(&long, 3);
    long[..5].copy_from_slice(b"18TWL");
    refused(&long, 12);
    long.pop();
    refused(&long, 13);
    *long.last_mut().unwrap() = 0xff;
    refused(&long, 1);
}

#[test]
fn ends_of_numbers() {
    const M: i64 = UNITS_PER_METRE;
    let (e, n) = (500_000 * M, 4_500_000 * M);
    for x in ENDS {
        let far = !(-1..=0).contains(&x);
        let refusal = |r: Result<Square, Error>| r.map_err(|error| error.number());
        if far {
            assert_eq!(refusal(Square::create(x, true, b'T', e, n, 5)), Err(14));
            assert_eq!(refusal(Square::create(18, true, b'T', e, n, x)), Err(15));
            assert_eq!(refusal(Square::create(18, true, b'T', e, x, 5)), Err(17));
            assert_eq!(BareZone::create(x, b'T').unwrap_err().number(), 14);
            assert_eq!(standard_zone(x, 0).unwrap_err().number(), 22);
            assert_eq!(utm_check_coords(18, true, x, n).unwrap_err().number(), 16);
            assert_eq!(utm_row(x, 2, 10), None);
            assert_eq!(utm_row(8, x, 10), None);
            assert_eq!(utm_row(8, 2, x), None);
        }
        assert_eq!(refusal(Square::create(18, true, b'T', x, n, 5)), Err(16));
        assert_eq!(check_coords(18, true, x, x).unwrap_err().number(), 16);
        assert_eq!("18TWL".parse::<Square>().unwrap().shorten(x).is_ok(), x == 0);
        assert!((-10..=9).contains(&latitude_band(x)));
        assert!((1..=60).contains(&standard_zone(0, x).unwrap()));
    }
}

#[test]
fn every_band_byte() {
    for band in 0..=255u8 {
        assert_eq!(BareZone::create(18, band).is_ok(), b"CDEFGHJKLMNPQRSTUVWX".contains(&band));
        assert_eq!(BareZone::create(0, band).is_ok(), b"ABYZ".contains(&band));
        let refused = write(18, true, band, 0, 1_000_000_000_000, 9_000_000_000_000, &mut [0; 27]).map_err(|e| e.number());
        let expected = match band {
            b'T' => Ok(5),
            _ if b"CDEFGHJKLMNPQRSTUVWX".contains(&band) => Err(19),
            _ => Err(18),
        };
        assert_eq!(refused, expected, "band {}", band);
    }
}

/// One refusal of each rule of writing, and of shortening, into a buffer with room.
#[test]
fn refusals_leave_the_buffer() {
    const M: i64 = UNITS_PER_METRE;
    let (e, n) = (500_000 * M, 4_500_000 * M);
    let mut out = [b'.'; 40];
    let mut refused = |zone, band, p, e, n| write(zone, true, band, p, e, n, &mut out).unwrap_err().number();
    assert_eq!(refused(61, b'T', 5, e, n), 14);
    assert_eq!(refused(18, b'T', 12, e, n), 15);
    assert_eq!(refused(18, b'T', 5, 0, n), 16);
    assert_eq!(refused(18, b'T', 5, e, 9_500_000 * M + 1), 17);
    assert_eq!(refused(18, b't', 5, e, n), 18);
    assert_eq!(refused(18, b'U', 5, e, n), 19);
    assert_eq!(refused(18, b'U', -1, e, n), 19);
    assert_eq!(shorten(b"18T", 0, &mut out).unwrap_err().number(), 21);
    assert_eq!(shorten(b"18TWL85", 2, &mut out).unwrap_err().number(), 21);
    assert_eq!(out, [b'.'; 40]);
}

#[test]
fn rows_that_do_not_exist() {
    assert_eq!(utm_row(8, 2, 10), Some(70));
    for (band, column, letter) in [(10, 2, 10), (-11, 2, 10), (8, 8, 10), (8, -1, 10), (8, 2, 20), (8, 2, 30), (8, 2, -10)] {
        assert_eq!(utm_row(band, column, letter), None);
    }
}

#[test]
fn buffers_of_every_length() {
    for length in 0..40 {
        let mut out = [b'.'; 40];
        let written = write(18, true, b'T', 5, 1_000_000_000_000, 9_000_000_000_000, &mut out[..length]);
        let shortened = shorten(b"18TWL0000000000", 5, &mut [0; 40][..length]);
        if length < 15 {
            assert_eq!(written.unwrap_err().number(), 20);
            assert_eq!(out, [b'.'; 40]);
        } else {
            assert_eq!(written, Ok(15));
            assert_eq!(out[..15], *b"18TWL0000000000");
            assert_eq!(out[15..], [b'.'; 25]);
        }
        assert_eq!(shortened, written);
    }
}

#[test]
fn metres_that_are_no_units() {
    for metres in [f64::NAN, f64::INFINITY, f64::NEG_INFINITY, f64::MAX, f64::MIN, 4_611_686_018_427.388, -4_611_686_018_427.39] {
        assert_eq!(units_of_metres(metres), None, "{}", metres);
    }
    assert_eq!(units_of_metres(-4_611_686_018_427.388), Some(i64::MIN));
    assert_eq!(units_of_metres(-0.0), Some(0));
    assert_eq!(units_of_metres(f64::MIN_POSITIVE), Some(0));
}
