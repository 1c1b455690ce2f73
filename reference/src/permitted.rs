//! The permitted error beside the mass of a car: formula (20) of GOST R 8.595, refusals 24 and 25.
//!
//! Errors and terms are in 0.0001 % where nothing else is said.

use crate::car::{Car, Figures, Measured};
use crate::probe::ProbeCar;
use crate::refusal::{ensure, Refusal};
use crate::rounding::nearest;
use crate::table::{Row, Tables};
use crate::thermal::{self, Density15, ONE};

/// Errors that are given for a car.
pub const ERRORS: usize = 6;

/// Highest error of capacity, density and processing.
const HIGHEST_RELATIVE: u32 = 10_000;
/// Highest error of a temperature, in 0.1 °C.
const HIGHEST_TEMPERATURE: u32 = 20;
/// Highest error of the level, in 0.1 mm.
const HIGHEST_LEVEL: u32 = 100;

const LARGEST_LEVEL_TERM: u64 = 10_000;

/// One, in the unit of G.
const MILLION: u64 = 1_000_000;

/// From this gross mass on, in kg, the narrower limit holds.
const HEAVY: u32 = 100_000;
const WIDER: u64 = 6_500;
const NARROWER: u64 = 5_000;

/// The errors given for a car.
#[derive(Clone, Copy, Debug, Default, PartialEq, Eq)]
pub struct Errors {
    pub capacity: u32,
    pub density: u32,
    pub processing: u32,
    /// Of the temperature at which the density was taken, and of the oil's, in 0.1 °C.
    pub density_temperature: u32,
    pub oil_temperature: u32,
    /// In 0.1 mm.
    pub level: u32,
}

impl From<[u32; ERRORS]> for Errors {
    fn from(errors: [u32; ERRORS]) -> Self {
        let [capacity, density, processing, density_temperature, oil_temperature, level] = errors;
        Self { capacity, density, processing, density_temperature, oil_temperature, level }
    }
}

impl From<Errors> for [u32; ERRORS] {
    fn from(errors: Errors) -> Self {
        [
            errors.capacity,
            errors.density,
            errors.processing,
            errors.density_temperature,
            errors.oil_temperature,
            errors.level,
        ]
    }
}

/// The terms on the way to the limit.
#[derive(Clone, Copy, Debug, PartialEq, Eq)]
pub struct Terms {
    pub level: u64,
    /// Of the two temperatures, before G.
    pub density_temperature: u64,
    pub oil_temperature: u64,
    /// G of formula (17), in millionths.
    pub factor: u64,
    /// Times G.
    pub density_by_factor: u64,
    pub density_temperature_by_factor: u64,
    /// The sum of the six squares under the root.
    pub squares: u64,
}

/// A car's figures with its permitted error.
#[derive(Clone, Copy, Debug, PartialEq, Eq)]
pub struct PermittedError {
    pub figures: Figures,
    pub terms: Terms,
    pub limit: u64,
    /// Whether the limit is at most what the gross mass allows.
    pub within: bool,
}

/// A car worked out alone, with its permitted error: refusals 10, 12 to 21 and 23, then 24 and 25.
pub fn work_out(car: &Car, tables: &Tables, errors: &Errors) -> Result<PermittedError, Refusal> {
    of(&Measured::from(car), tables, errors)
}

/// A probe's car worked out alone, with its permitted error: refusals 31 and 32, then 10, 12, 13 and 16
/// to 21, then 24 and 25.
pub fn work_out_probe(
    car: &ProbeCar,
    tables: &Tables,
    errors: &Errors,
) -> Result<PermittedError, Refusal> {
    of(&car.measured()?, tables, errors)
}

/// The figures and the permitted error of a car, be it dipped or a probe's.
pub(crate) fn of(
    car: &Measured,
    tables: &Tables,
    errors: &Errors,
) -> Result<PermittedError, Refusal> {
    let figures = car.work_out(tables)?;
    errors.check()?;
    let table = tables.find(car.car_type).ok_or(Refusal::Type)?;
    let steps = table.steps(u64::from(figures.level));
    let level = level_term(errors.level, steps, figures.volume)?;
    let terms = Terms::new(errors, level, Density15(car.density), car.temperature);
    let limit = limit(terms.squares);
    Ok(PermittedError { figures, terms, limit, within: is_within(limit, figures.gross) })
}

impl Errors {
    /// Refusal 24.
    fn check(&self) -> Result<(), Refusal> {
        let relative = self.capacity.max(self.density).max(self.processing);
        let temperature = self.density_temperature.max(self.oil_temperature);
        ensure(relative <= HIGHEST_RELATIVE, Refusal::GivenError)?;
        ensure(temperature <= HIGHEST_TEMPERATURE, Refusal::GivenError)?;
        ensure(self.level <= HIGHEST_LEVEL, Refusal::GivenError)
    }
}

/// The level term, from the level's error, the steps of the rows around the level and V0: refusal
/// 25.
fn level_term(error: u32, steps: Row, volume: u32) -> Result<u64, Refusal> {
    ensure(volume > 0, Refusal::LevelTerm)?;
    let term = nearest(
        10_000_000 * u64::from(error) * u64::from(steps.capacity),
        u64::from(steps.level) * u64::from(volume),
    );
    ensure(term <= LARGEST_LEVEL_TERM, Refusal::LevelTerm)?;
    Ok(term)
}

impl Terms {
    /// The terms beside the level's, which is worked out; the oil temperature is in 0.1 °C.
    fn new(errors: &Errors, level: u64, density: Density15, temperature: u32) -> Self {
        let coefficient = thermal::coefficient(density);
        let density_temperature = temperature_term(coefficient, errors.density_temperature);
        let oil_temperature = temperature_term(coefficient, errors.oil_temperature);
        let factor = factor(coefficient, temperature);
        let density_by_factor = nearest(u64::from(errors.density) * factor, MILLION);
        let density_temperature_by_factor = nearest(density_temperature * factor, MILLION);
        let squares = u64::from(errors.capacity).pow(2)
            + level.pow(2)
            + density_by_factor.pow(2)
            + density_temperature_by_factor.pow(2)
            + oil_temperature.pow(2)
            + u64::from(errors.processing).pow(2);
        Self {
            level,
            density_temperature,
            oil_temperature,
            factor,
            density_by_factor,
            density_temperature_by_factor,
            squares,
        }
    }
}

/// What an error of a temperature, in 0.1 °C, comes to by B of step 4.
fn temperature_term(coefficient: u64, error: u32) -> u64 {
    nearest(coefficient * u64::from(error), 10_000)
}

/// G: the oil temperature, in 0.1 °C, above the line and 15 °C below, in millionths.
fn factor(coefficient: u64, temperature: u32) -> u64 {
    let at = |tenths: u32| ONE + 2 * coefficient * u64::from(tenths);
    nearest(MILLION * at(temperature), at(150))
}

/// The smallest whole n with 100 n² at least 121 times the sum of squares.
pub fn limit(squares: u64) -> u64 {
    let least = (121 * squares).div_ceil(100);
    let root = least.isqrt();
    if root * root < least {
        root + 1
    } else {
        root
    }
}

/// Whether a limit is at most 0.65 %, or 0.50 % from 100 t gross on; the gross mass is in kg.
fn is_within(limit: u64, gross: u32) -> bool {
    let allowed = if gross < HEAVY { WIDER } else { NARROWER };
    limit <= allowed
}
