//! The portable probe: its readings in tenths, refusals 31 and 32, and a car whose level, temperature
//! and density it took.
//!
//! A reading is a binary number of 32 bits: a sign, an exponent of eight bits and a fraction of 23. It is
//! taken apart into whole numbers, and no floating-point arithmetic is done with it.

use crate::car::{Figures, Measured};
use crate::level::Taken;
use crate::refusal::{ensure, Refusal};
use crate::rounding::nearest;
use crate::table::Tables;
use crate::thermal::Density15;

/// Fields of a probe's car beside its set.
pub const FIELDS: usize = 7;

/// The largest number of tenths.
const LARGEST: u64 = 99_999_999;

/// The sign by itself, which is minus zero; every number below zero lies above it.
const SIGN: u32 = 1 << 31;
/// Infinity, beyond which lies what is not a number.
const INFINITY: u32 = 255 << 23;
/// Fractions of each exponent.
const FRACTIONS: u32 = 1 << 23;

/// The units of a significand of the lowest exponent are 2⁻¹⁴⁹, and so many doublings bring them to 1.
const DOUBLINGS: u32 = 149;
const TWO: u64 = 2;

/// What a probe hands over.
#[derive(Clone, Copy, Debug, PartialEq)]
pub enum Reading {
    /// In mm.
    Level(f32),
    /// In °C.
    Temperature(f32),
    /// In kg/m³, brought to 15 °C.
    Density(f32),
}

impl Reading {
    /// The reading in tenths of its unit, a half going up: refusals 31 and 32.
    pub fn tenths(self) -> Result<u32, Refusal> {
        match self {
            Self::Level(number) | Self::Temperature(number) | Self::Density(number) => {
                tenths(number.to_bits())
            }
        }
    }
}

/// One reading of each kind, held together.
#[derive(Clone, Copy, Debug, Default, PartialEq)]
pub struct Set {
    /// In mm.
    pub level: f32,
    /// In °C.
    pub temperature: f32,
    /// In kg/m³, at 15 °C.
    pub density: f32,
}

/// A set in tenths.
#[derive(Clone, Copy, Debug, PartialEq, Eq)]
pub struct SetTenths {
    /// In 0.1 mm.
    pub level: u32,
    /// In 0.1 °C.
    pub temperature: u32,
    pub density: Density15,
}

impl Set {
    /// The set in tenths: refusals 31 and 32 of the level, then of the temperature, then of the density.
    pub fn tenths(&self) -> Result<SetTenths, Refusal> {
        let level = Reading::Level(self.level).tenths()?;
        let temperature = Reading::Temperature(self.temperature).tenths()?;
        let density = Reading::Density(self.density).tenths()?;
        Ok(SetTenths { level, temperature, density: Density15(density) })
    }
}

/// A car whose level, temperature and density a probe took.
#[derive(Clone, Copy, Debug, Default, PartialEq)]
pub struct ProbeCar {
    pub number: u32,
    pub car_type: u32,
    pub grade: u32,
    pub stick: u32,
    /// Water level, in mm.
    pub water_level: u32,
    /// Water and impurities, in 0.01 %.
    pub water: u32,
    pub impurities: u32,
    pub set: Set,
}

impl ProbeCar {
    /// A car from its fields, in the order above, and its set.
    pub const fn new(fields: [u32; FIELDS], set: Set) -> Self {
        let [number, car_type, grade, stick, water_level, water, impurities] = fields;
        Self { number, car_type, grade, stick, water_level, water, impurities, set }
    }

    /// The car worked out alone: refusals 31 and 32, then 10, 12, 13 and 16 to 21, then its figures.
    pub fn work_out(&self, tables: &Tables) -> Result<Figures, Refusal> {
        self.measured()?.work_out(tables)
    }

    /// The car with its readings in tenths, its level for the mean level: refusals 31 and 32.
    pub(crate) fn measured(&self) -> Result<Measured, Refusal> {
        let SetTenths { level, temperature, density: Density15(density) } = self.set.tenths()?;
        Ok(Measured {
            number: self.number,
            car_type: self.car_type,
            grade: self.grade,
            stick: self.stick,
            level: Taken::Probed(level),
            water_level: self.water_level,
            temperature,
            density,
            water: self.water,
            impurities: self.impurities,
        })
    }
}

/// Ten times the number with these bits, to the nearest whole number, a half going up: refusals 31 and
/// 32.
fn tenths(bits: u32) -> Result<u32, Refusal> {
    let size = bits % SIGN;
    ensure(bits <= SIGN && size < INFINITY, Refusal::ProbeNumber)?;
    let (significand, doublings) = take_apart(size);
    // The number is at least 2²⁴ where there are more.
    ensure(doublings <= DOUBLINGS, Refusal::ProbeTenths)?;
    // Ten times a significand is below 2²⁸, so that 29 halvings or more leave 0.
    let halvings = (DOUBLINGS - doublings).min(63);
    let tenths = nearest(10 * significand, TWO.pow(halvings));
    ensure(tenths <= LARGEST, Refusal::ProbeTenths)?;
    Ok(tenths as u32)
}

/// The significand of a number above or at 0, and how often the units 2⁻¹⁴⁹ in which it is counted are
/// doubled. The lowest exponent has no leading one and the units of the next.
fn take_apart(size: u32) -> (u64, u32) {
    let (exponent, fraction) = (size / FRACTIONS, size % FRACTIONS);
    if exponent == 0 {
        (u64::from(fraction), 0)
    } else {
        (u64::from(FRACTIONS + fraction), exponent - 1)
    }
}
