//! Ways to round that are not the rule's, for the tests that take wrong ways.

#[derive(Clone, Copy, Debug, PartialEq, Eq)]
pub enum Rounding {
    Down,
    Up,
    HalfDown,
    HalfToEven,
}

/// A quotient rounded in this way; by the rule, a half going up, where there is none.
pub fn rounded(rounding: Option<Rounding>, dividend: u64, divisor: u64) -> u64 {
    let down = dividend / divisor;
    let twice_rest = 2 * (dividend % divisor);
    let up = down + u64::from(twice_rest > 0);
    match rounding {
        Some(Rounding::Down) => down,
        Some(Rounding::Up) => up,
        Some(Rounding::HalfDown) if twice_rest == divisor => down,
        Some(Rounding::HalfToEven) if twice_rest == divisor => down + down % 2,
        _ if twice_rest >= divisor => up,
        _ => down,
    }
}
