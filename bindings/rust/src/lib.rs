//! Reads and writes MGRS grid references by the proved library Tsintovehy.
//!
//! A text is read as a [`Square`], whose coordinates all stand in it, as a [`BareZone`], for which nobody recorded a point, or it
//! is refused by the number of a rule, an [`Error`]. The first two are different types, and neither becomes the other.
//!
//! ```
//! use tsintovehy::Reading;
//!
//! match "18TWL856641113154".parse()? {
//!     Reading::Square(square) => assert_eq!(square.easting(), 585664.15),
//!     Reading::BareZone(zone) => println!("{} names no square", zone),
//! }
//! # Ok::<(), tsintovehy::Error>(())
//! ```
//!
//! One unit is half a micrometre, [`UNITS_PER_METRE`] to the metre. Latitudes and longitudes are billionths of a degree. Any
//! number and any bytes may be handed to any call: nothing here panics or wraps.
//!
//! What is proved is the library behind these calls. This crate adds the types, the words of the rules and
//! [`units_of_metres`], which are tested and not proved.
//!
//! The library is code for x86-64 Linux, in `libexport.a`; `build.rs` looks for it in the folder that the environment
//! variable `TSINTOVEHY_LIB` names, else in the repository's `target/staticlib`, where `./archive` writes it.
#![deny(missing_docs)]
#![deny(unsafe_code)]

mod bare;
mod calls;
mod error;
mod held;
mod raw;
mod reading;
mod square;
mod units;

pub use bare::{BareZone, SuppliedPoint};
pub use calls::{
    check_coords, covers, latitude_band, read, read_metres, shorten, standard_zone, utm_check_coords, utm_row, write, Metres,
    Point,
};
pub use error::{Error, NotABareZone, NotASquare};
pub use reading::Reading;
pub use square::Square;
pub use units::{units_of_metres, UNITS_PER_METRE};

/// Bytes that hold every reference.
pub const LONGEST: usize = 27;
