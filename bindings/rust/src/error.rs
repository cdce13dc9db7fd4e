//! What is refused, and by what rule.
use crate::{BareZone, Square};
use std::fmt;

/// The words of the rules, the first one's at 0.
const RULES: [&str; 22] = [
    "a byte of 128 or more stands anywhere",
    "the first three bytes are INV",
    "there are leading digits and their value is not 1..60",
    "there are more than two leading digits",
    "nothing follows the zone",
    "the band letter is not in its set",
    "exactly one byte follows the band",
    "the column letter is not in its set",
    "the row letter is not in its set",
    "no allowed row has this row letter",
    "any byte after the row letter is not a digit",
    "the number of digits is odd",
    "there are more than 22 digits",
    "the zone is not 0..60",
    "p is not -1..11",
    "the easting is out of range",
    "the northing is out of range",
    "the band letter is not a capital of that kind's set",
    "the band does not fit",
    "the output is too short",
    "the reference is bare or q is not 0..p",
    "the latitude is outside -90..90",
];

/// A refusal: the number of the first rule that the input breaks, 1 to 22.
///
/// ```
/// let error = tsintovehy::read(b"18TW").unwrap_err();
/// assert_eq!(error.number(), 7);
/// assert_eq!(error.rule(), "exactly one byte follows the band");
/// assert_eq!(error.to_string(), "refusal 7: exactly one byte follows the band");
/// ```
#[derive(Clone, Copy, Debug, PartialEq, Eq, Hash)]
pub struct Error {
    number: u8,
}

impl Error {
    /// The two rules that [`BareZone::create`] tests by itself.
    pub(crate) const ZONE: Error = Error { number: 14 };
    pub(crate) const BAND: Error = Error { number: 18 };
    /// The rule that a bare zone's p breaks, where a square is asked for.
    pub(crate) const PRECISION: Error = Error { number: 15 };

    /// The number of the rule, as docs/REFUSALS.md counts them.
    pub fn number(&self) -> u8 {
        self.number
    }

    /// The rule in words.
    pub fn rule(&self) -> &'static str {
        let place = usize::from(self.number).wrapping_sub(1);
        // Every number is 1 to 22, since the library gives no other; the last words are for no input.
        RULES.get(place).copied().unwrap_or("no rule has this number")
    }
}

impl fmt::Display for Error {
    fn fmt(&self, f: &mut fmt::Formatter<'_>) -> fmt::Result {
        write!(f, "refusal {}: {}", self.number, self.rule())
    }
}

impl std::error::Error for Error {}

/// Takes an answer of the library apart: 0 or more is the answer, below 0 is minus a refusal's number.
pub(crate) fn told(answer: i64) -> Result<i64, Error> {
    if answer < 0 {
        // Refusals are 1 to 22, so the cast loses nothing.
        return Err(Error { number: answer.unsigned_abs() as u8 });
    }
    Ok(answer)
}

/// Why a text is not a [`Square`]: it is refused, or it is a bare zone, which is read but is no square.
///
/// ```
/// use tsintovehy::{NotASquare, Square};
///
/// let shown = |text: &str| match text.parse::<Square>() {
///     Ok(square) => format!("the square {}", square),
///     Err(NotASquare::BareZone(zone)) => format!("the bare zone {}", zone),
///     Err(NotASquare::Refused(error)) => format!("rule {}", error.number()),
/// };
/// assert_eq!(shown("18twl"), "the square 18TWL");
/// assert_eq!(shown("18t"), "the bare zone 18T");
/// assert_eq!(shown("18TW"), "rule 7");
/// ```
#[derive(Clone, Copy, Debug, PartialEq, Eq, Hash)]
pub enum NotASquare {
    /// No rule lets the text pass.
    Refused(Error),
    /// The text is a bare zone: it names no square, and nobody recorded a point.
    BareZone(BareZone),
}

impl fmt::Display for NotASquare {
    fn fmt(&self, f: &mut fmt::Formatter<'_>) -> fmt::Result {
        match self {
            NotASquare::Refused(error) => error.fmt(f),
            NotASquare::BareZone(zone) => write!(f, "{} is a bare zone and no square", zone),
        }
    }
}

impl std::error::Error for NotASquare {}

/// Why a text is not a [`BareZone`]: it is refused, or it is a square.
#[derive(Clone, Copy, Debug, PartialEq, Eq, Hash)]
pub enum NotABareZone {
    /// No rule lets the text pass.
    Refused(Error),
    /// The text names a square.
    Square(Square),
}

impl fmt::Display for NotABareZone {
    fn fmt(&self, f: &mut fmt::Formatter<'_>) -> fmt::Result {
        match self {
            NotABareZone::Refused(error) => error.fmt(f),
            NotABareZone::Square(square) => write!(f, "{} is a square and no bare zone", square),
        }
    }
}

impl std::error::Error for NotABareZone {}
