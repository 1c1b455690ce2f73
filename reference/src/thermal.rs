//! What temperature does to volume and density (steps 3 to 6 and 9).

use crate::rounding::nearest;

/// One, in the unit of exponents and factors, 10⁻¹⁰.
pub const ONE: u64 = 10_000_000_000;

/// Density at 15 °C, in 0.1 kg/m³.
#[derive(Clone, Copy, Debug, PartialEq, Eq, PartialOrd, Ord)]
pub struct Density15(pub u32);

/// Density at 20 °C, in 0.1 kg/m³.
#[derive(Clone, Copy, Debug, PartialEq, Eq, PartialOrd, Ord)]
pub struct Density20(pub u32);

/// The metal of the dip stick.
#[derive(Clone, Copy, Debug, PartialEq, Eq)]
pub enum Stick {
    Steel,
    Aluminium,
}

impl Stick {
    /// The stick with this number on the sheet.
    pub const fn numbered(number: u32) -> Option<Self> {
        match number {
            1 => Some(Self::Steel),
            2 => Some(Self::Aluminium),
            _ => None,
        }
    }

    /// c of step 3: expansion of wall and stick together, in 1/20,000,000 per 0.1 °C.
    const fn expansion(self) -> u64 {
        match self {
            Self::Steel => 100,
            Self::Aluminium => 121,
        }
    }
}

/// Step 3: the volume at the oil temperature, in 0.01 dm³; the temperature is at least 20 °C.
pub fn volume_at_temperature(volume: u64, stick: Stick, temperature: u32) -> u64 {
    const AT_20: u64 = 20_000_000;
    let factor = AT_20 + stick.expansion() * u64::from(temperature - 200);
    nearest(volume * factor, AT_20)
}

/// Step 4: the coefficient of expansion of the oil at 15 °C, in 10⁻⁹ per °C.
pub fn coefficient(Density15(density): Density15) -> u64 {
    let density = u64::from(density);
    nearest(18_696_960_000_000 + 4_861_800_000 * density, density * density)
}

/// Step 5: the exponent for so many tenths of a degree above 15 °C, in 10⁻¹⁰.
pub fn exponent(coefficient: u64, tenths: u32) -> u64 {
    let plain = coefficient * u64::from(tenths);
    plain + nearest(8 * plain * plain, 100_000_000_000)
}

/// Step 6: the exponential of minus the exponent, six terms of its series, in 10⁻¹⁰.
pub fn exponential(exponent: u64) -> u64 {
    let mut term = exponent;
    let mut sum = ONE - term;
    for power in 2..=6 {
        term = nearest(term * exponent, power * ONE);
        if power % 2 == 0 {
            sum += term;
        } else {
            sum -= term;
        }
    }
    sum
}

/// E of step 6: how volume and density shrink over so many tenths of a degree above 15 °C.
pub fn contraction(density: Density15, tenths: u32) -> u64 {
    exponential(exponent(coefficient(density), tenths))
}

/// The density at so many tenths of a degree above 15 °C, in 0.1 kg/m³.
pub fn density_at(density: Density15, tenths: u32) -> u32 {
    nearest(u64::from(density.0) * contraction(density, tenths), ONE) as u32
}

/// Step 9: the density at 20 °C.
pub fn density_at_20(density: Density15) -> Density20 {
    Density20(density_at(density, 50))
}
