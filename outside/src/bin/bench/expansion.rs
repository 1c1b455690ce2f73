//! B, E and the density at 20 °C of one density at 15 °C by the proved code and the reference.

use std::hint::black_box;

use reference::operations;

use crate::calls;

/// Densities for B, in 0.1 kg/m³: both ends of those that are answered and two between them, and one that is
/// refused by 19.
const DENSITIES: [u32; 5] = [9_000, 9_500, 9_600, 9_900, 8_999];

/// The density for E and for that at 20 °C, in 0.1 kg/m³, and the temperature for E, in 0.1 °C.
const DENSITY: u32 = 9_500;
const TEMPERATURE: u32 = 600;

/// Prints a line for each density of B, one for E and one for the density at 20 °C.
pub fn compare_all() {
    calls::head(
        "Nanoseconds for B, E and the density at 20 °C of one density at 15 °C, which the reference\n\
         tests in a whole car.",
        ["figure, 0.1 kg/m³ and 0.1 °C", "answer"],
    );
    for density in DENSITIES {
        calls::compare_figure(
            &format!("B, {density}"),
            |figure| outside::expansion_of(black_box(density), figure),
            || operations::coefficient(black_box(density)).map(|figure| figure as u32),
        );
    }
    calls::compare_figure(
        &format!("E, {DENSITY} at {TEMPERATURE}"),
        |figure| outside::factor_of(black_box(DENSITY), black_box(TEMPERATURE), figure),
        || operations::contraction(black_box(DENSITY), black_box(TEMPERATURE)),
    );
    calls::compare_figure(
        &format!("density at 20 °C, {DENSITY}"),
        |figure| outside::density_at_20(black_box(DENSITY), figure),
        || operations::density_at_20(black_box(DENSITY)).map(|figure| figure.0),
    );
}
