//! Volume at 15 °C, gross and net mass (steps 7 and 8).

use crate::rounding::nearest;
use crate::thermal::{contraction, Density15, ONE};

/// Step 7: the volume at 15 °C of a volume measured at the oil temperature, both in 0.01 dm³.
pub fn volume_at_15(volume: u64, density: Density15, temperature: u32) -> u64 {
    nearest(volume * contraction(density, temperature - 150), ONE)
}

/// Step 8: the gross mass in kg.
pub fn gross(volume_at_15: u64, Density15(density): Density15) -> u64 {
    nearest(volume_at_15 * u64::from(density), 1_000_000)
}

/// Step 8: the net mass in kg, from the rounded gross; water and impurities in 0.01 %.
pub fn net(gross: u64, water: u32, impurities: u32) -> u64 {
    nearest(gross * u64::from(10_000 - water - impurities), 10_000)
}
