//! Halves of a tenth: floats of k quarters, k odd, and the floats beside each.

use super::{by_turns, Group, Vector};

/// Below 10, in quarters.
const NEAR_ZERO: std::ops::Range<u32> = 0..40;

/// Exponents of two from 16 on whose floats have quarters.
const EXPONENTS: std::ops::RangeInclusive<u32> = 4..=21;

pub fn groups() -> Vec<Group<Vector>> {
    vec![
        Group {
            about: "Halves of a tenth below 10, which go up, and the floats beside them",
            vectors: around(NEAR_ZERO.filter(|quarters| quarters % 2 == 1)),
        },
        Group {
            about:
                "Halves at each power of two: the first, one between and the last before the next",
            vectors: around(EXPONENTS.flat_map(of_exponent)),
        },
    ]
}

/// The first half from a power of two on, one between and the last, in quarters.
fn of_exponent(exponent: u32) -> [u32; 3] {
    let power = 4 << exponent;
    [power + 1, (power + power / 3) | 1, 2 * power - 1]
}

/// Each half with the float below and above it.
fn around(quarters: impl Iterator<Item = u32>) -> Vec<Vector> {
    by_turns(quarters.flat_map(|quarters| {
        let half = quarters as f32 / 4.0;
        let exact = f64::from(half);
        [
            (format!("short-of-half-{exact}"), half.next_down()),
            (format!("half-{exact}"), half),
            (format!("past-half-{exact}"), half.next_up()),
        ]
    }))
}
