//! The density at 15 °C from the density that a laboratory reports at its own temperature: refusals
//! 26 and 27.
//!
//! Densities are in 0.1 kg/m³, temperatures in 0.1 °C.

use std::ops::RangeInclusive;

use crate::refusal::{ensure, Refusal};
use crate::thermal::{density_at, Density15};

/// Temperatures at which a density may be reported.
const TEMPERATURES: RangeInclusive<u32> = 200..=900;

/// Lowest and highest density at 15 °C that is looked for.
pub const LIGHTEST: u32 = 9_000;
pub const DENSEST: u32 = 9_900;

/// So far the nearest may lie from the report.
const FURTHEST: u32 = 1;

/// The density at 15 °C of oil whose density is reported at a temperature: refusals 26 and 27.
pub fn density_at_15(reported: u32, temperature: u32) -> Result<Density15, Refusal> {
    Column::at(temperature)?.look_up(reported)
}

/// Every density at 15 °C with what it comes to at one temperature.
#[derive(Clone, Debug)]
pub struct Column(Vec<(Density15, u32)>);

impl Column {
    /// The column of a temperature: refusal 26.
    pub fn at(temperature: u32) -> Result<Self, Refusal> {
        ensure(TEMPERATURES.contains(&temperature), Refusal::LaboratoryTemperature)?;
        let tenths = temperature - 150;
        let densities = (LIGHTEST..=DENSEST).map(Density15);
        Ok(Self(densities.map(|density| (density, density_at(density, tenths))).collect()))
    }

    /// The density at 15 °C that comes nearest to the report, the smallest of several: refusal 27.
    pub fn look_up(&self, reported: u32) -> Result<Density15, Refusal> {
        let mut found = Density15(LIGHTEST);
        let mut least = u32::MAX;
        for &(density, comes_to) in &self.0 {
            let apart = comes_to.abs_diff(reported);
            if apart < least {
                least = apart;
                found = density;
            }
        }
        ensure(least <= FURTHEST, Refusal::LaboratoryDensity)?;
        Ok(found)
    }
}
