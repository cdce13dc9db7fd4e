//! The number of the refusal that an answer of the Rust stands for: its messages have document 01's order.
use geoconvert::Error;

/// The refusal that a message of the reader stands for.
pub fn reading_number(message: &str) -> u32 {
    const STARTS: [&str; 13] = [
        "String contains unicode characters", "Starts with 'INV'", "Zone ", "More than 2 digits at start", "Too short: ",
        "Band letter ", "Missing row letter", "Column letter ", "Row letter ", "Block ", "Encountered a non-digit",
        "Not an even number of digits", "More than 22 digits",
    ];
    match STARTS.iter().position(|s| message.starts_with(s)) {
        Some(place) => place as u32 + 1,
        None => panic!("the Rust has a message that no rule has: {message}"),
    }
}

/// The refusal that an error of a range test stands for.
pub fn range_number(error: &Error) -> u32 {
    match error {
        Error::InvalidZone(_) => 14,
        Error::InvalidMgrs(s) | Error::InvalidUtmCoords(s) if s.starts_with("Easting ") => 16,
        Error::InvalidMgrs(s) | Error::InvalidUtmCoords(s) if s.starts_with("Northing ") => 17,
        other => panic!("the Rust has an error that no rule has: {other:?}"),
    }
}
