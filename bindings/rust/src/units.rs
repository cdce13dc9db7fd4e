//! Units and metres.

/// Units in a metre: one unit is half a micrometre.
pub const UNITS_PER_METRE: i64 = 2_000_000;

/// The metres of a unit count, as the library computes them: the count as f64, divided by 2,000,000.0. For every position that
/// is read the count is an exact f64, so the metres are rounded once.
pub(crate) fn metres_of(units: i64) -> f64 {
    units as f64 / UNITS_PER_METRE as f64
}

/// The units of a number of metres: the product with 2,000,000.0, rounded to a whole number, halves away from zero. `None` if
/// `metres` is not finite, or the units are beyond an i64.
///
/// This rounding is outside what is proved: the library itself takes whole units. The metres of every point in range come back
/// to the units that they were made from.
///
/// ```
/// use tsintovehy::units_of_metres;
///
/// assert_eq!(units_of_metres(585664.15), Some(1_171_328_300_000));
/// assert_eq!(units_of_metres(-0.0000005), Some(-1));
/// assert_eq!(units_of_metres(f64::NAN), None);
/// assert_eq!(units_of_metres(1e13), None);
/// ```
pub fn units_of_metres(metres: f64) -> Option<i64> {
    // 2^63 and its negative are exact f64s, and no range holds NaN: the cast changes nothing.
    const END: f64 = 9_223_372_036_854_775_808.0;
    let units = (metres * UNITS_PER_METRE as f64).round();
    Some(units).filter(|units| (-END..END).contains(units)).map(|units| units as i64)
}
