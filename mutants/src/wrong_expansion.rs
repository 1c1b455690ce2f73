//! The longer wrong ways to hold B in a list, which the edits name.

use reference::rounding::nearest;
use reference::thermal::{coefficient, density_at_20, Density15};

/// B of a density by the rule, in 10⁻⁹ per °C.
pub fn of(density: u64) -> u64 {
    coefficient(Density15(density as u32))
}

/// B by the formula with other numbers in it.
pub fn by(density: u64, constant: u64, factor: u64) -> u64 {
    nearest(constant + factor * density, density * density)
}

/// B on a line between the entries of two densities so far apart, rounded.
pub fn linear(density: u64, step: u64) -> u64 {
    let past = (density - 9_000) % step;
    let low = density - past;
    nearest(of(low) * (step - past) + of(low + step) * past, step)
}

/// B of the density at 20 °C.
pub fn at_20(density: u64) -> u64 {
    coefficient(Density15(density_at_20(Density15(density as u32)).0))
}
