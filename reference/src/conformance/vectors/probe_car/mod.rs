//! Cars that a probe measured, worked out alone, each of which tries one point.

mod bounds;
mod figures;
mod float_bounds;
mod order;
mod paper;
mod partings;
mod text;

pub use order::{wrong_cars, wrong_tables};

use super::probe::{decimals::around, LARGEST_PAYLOAD, SIGNALLING, WITH_SIGN};
use super::{Group, Written};
use crate::car::Figures;
use crate::operations::{self, HandedIn};
use crate::probe::{ProbeCar, Set};
use crate::refusal::Refusal;
use crate::table::Row;

/// Tables and a probe's car, with a name that says what they try.
#[derive(Clone, Debug)]
pub struct Vector {
    pub name: String,
    pub tables: Vec<HandedIn>,
    pub car: ProbeCar,
}

/// Two vectors are the same where all bits are, also those of what is not a number.
impl PartialEq for Vector {
    fn eq(&self, other: &Self) -> bool {
        (&self.name, self.question()) == (&other.name, other.question())
    }
}

impl Vector {
    /// What this package answers.
    pub fn work_out(&self) -> Result<Figures, Refusal> {
        operations::work_out_probe(&self.tables, &self.car)
    }
}

/// The rack card's rows.
pub const ROWS: [(u32, u32); 4] = [(0, 0), (1_000, 20_000), (2_000, 50_000), (3_000, 70_000)];

/// The rack card's first car as a probe measures it.
pub const CAR: ProbeCar = ProbeCar {
    number: 50_000_001,
    car_type: 1,
    grade: 3,
    stick: 1,
    water_level: 0,
    water: 50,
    impurities: 20,
    set: Set { level: 1500.0, temperature: 60.0, density: 950.0 },
};

/// The same of a grade, with no more water and impurities than every grade has.
pub const fn of_grade(grade: u32) -> ProbeCar {
    ProbeCar { grade, water: 30, impurities: 10, ..CAR }
}

/// The same with a level in mm.
pub const fn at(level: f32) -> ProbeCar {
    with_level(CAR, level)
}

pub const fn with_level(car: ProbeCar, level: f32) -> ProbeCar {
    ProbeCar { set: Set { level, ..car.set }, ..car }
}

/// A car with a temperature in °C.
pub const fn with_temperature(car: ProbeCar, temperature: f32) -> ProbeCar {
    ProbeCar { set: Set { temperature, ..car.set }, ..car }
}

/// A car with a density in kg/m³.
pub const fn with_density(car: ProbeCar, density: f32) -> ProbeCar {
    ProbeCar { set: Set { density, ..car.set }, ..car }
}

/// Levels that are small where their tenths are held in so many bits: there they are 15,000.
pub const IN_16_BITS: f32 = 8_053.6;
pub const IN_24_BITS: f32 = 1_679_221.6;

/// The last float short of 2,048, which its tenths reach.
pub const SHORT_OF_2048: f32 = 2_048.0_f32.next_down();

/// The last float short of so many hundredths, and the first past them.
pub fn short_of(hundredths: u32) -> f32 {
    around(hundredths)[0]
}

pub fn past(hundredths: u32) -> f32 {
    around(hundredths)[1]
}

/// One of 31 and one of 32 for each float of a set, in the order in which they are tested; 31 is given by
/// each kind of float that it turns away.
pub fn faulty_sets(set: Set) -> [(u32, &'static str, Set); 6] {
    let too_large = 10_000_000.0;
    [
        (31, "level-negative", Set { level: -1500.0, ..set }),
        (32, "level", Set { level: too_large, ..set }),
        (31, "temperature-infinite", Set { temperature: f32::INFINITY, ..set }),
        (32, "temperature", Set { temperature: too_large, ..set }),
        (31, "density-not-a-number", Set { density: f32::NAN, ..set }),
        (32, "density", Set { density: too_large, ..set }),
    ]
}

/// A car on one table of type 1.
fn on(name: impl Into<String>, rows: &[(u32, u32)], car: ProbeCar) -> Vector {
    Vector { name: name.into(), tables: vec![table(1, rows)], car }
}

/// A car on the rack card's table.
fn rack(name: impl Into<String>, car: ProbeCar) -> Vector {
    on(name, &ROWS, car)
}

pub fn table(car_type: u32, rows: &[(u32, u32)]) -> HandedIn {
    let rows: Vec<Row> = rows.iter().map(|&(level, capacity)| Row { level, capacity }).collect();
    HandedIn { car_type, announced: rows.len() as u32, rows }
}

fn groups() -> Vec<Group<Vector>> {
    [
        paper::groups(),
        float_bounds::groups(),
        bounds::groups(),
        order::groups(),
        figures::groups(),
        partings::groups(),
    ]
    .into_iter()
    .flatten()
    .collect()
}
