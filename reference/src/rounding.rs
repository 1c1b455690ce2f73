//! Rounding to the nearest whole number, a half going up.

/// The whole number nearest to `dividend / divisor`, the upper one of two that are equally near.
///
/// # Panics
///
/// If `divisor` is 0.
pub const fn nearest(dividend: u64, divisor: u64) -> u64 {
    let quotient = dividend / divisor;
    let remainder = dividend % divisor;
    if remainder >= divisor - remainder {
        quotient + 1
    } else {
        quotient
    }
}
