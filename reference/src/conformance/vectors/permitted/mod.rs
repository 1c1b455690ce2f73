//! Cars with given errors that each try one point of the permitted error.

mod limits;
mod order;
mod paper;
mod ranges;
mod tenths;
mod terms;
mod text;
mod words;

use super::Group;
use crate::car::Car;
use crate::conformance::rack;
use crate::operations::{self, HandedIn};
use crate::permitted::{Errors, PermittedError};
use crate::refusal::Refusal;
use crate::table::Row;

/// Tables, a car and its given errors, with a name that says what they try.
#[derive(Clone, Debug, PartialEq)]
pub struct Vector {
    pub name: String,
    pub tables: Vec<HandedIn>,
    pub car: Car,
    pub errors: Errors,
}

impl Vector {
    /// What this package answers.
    pub fn work_out(&self) -> Result<PermittedError, Refusal> {
        operations::permitted_error(&self.tables, &self.car, &self.errors)
    }
}

fn groups() -> Vec<Group<Vector>> {
    [
        paper::groups(),
        terms::groups(),
        tenths::groups(),
        words::groups(),
        limits::groups(),
        ranges::groups(),
        order::groups(),
    ]
    .into_iter()
    .flatten()
    .collect()
}

/// The errors of the paper's vectors.
const ERRORS: Errors = Errors {
    capacity: 5_000,
    density: 1_600,
    processing: 500,
    density_temperature: 5,
    oil_temperature: 5,
    level: 30,
};

/// No errors.
const NONE: Errors = Errors {
    capacity: 0,
    density: 0,
    processing: 0,
    density_temperature: 0,
    oil_temperature: 0,
    level: 0,
};

/// The rack card's table and first car.
fn rack(name: &str, car: Car, errors: Errors) -> Vector {
    on(name, &[(0, 0), (1_000, 20_000), (2_000, 50_000), (3_000, 70_000)], car, errors)
}

/// A car on one table of type 1.
fn on(name: &str, rows: &[(u32, u32)], car: Car, errors: Errors) -> Vector {
    Vector { name: name.to_string(), tables: vec![table(1, rows)], car, errors }
}

fn table(car_type: u32, rows: &[(u32, u32)]) -> HandedIn {
    let rows: Vec<Row> = rows.iter().map(|&(level, capacity)| Row { level, capacity }).collect();
    HandedIn { car_type, announced: rows.len() as u32, rows }
}

/// The rack card's first car at a level, above a water level, both in mm.
const fn above(level: u32, water_level: u32) -> Car {
    Car { readings: [level, level, 0, 0], water_level, ..rack::CAR }
}

/// The rack card's first car with two readings in mm, without water.
const fn between(first: u32, second: u32) -> Car {
    Car { readings: [first, second, 0, 0], ..rack::CAR }
}

/// The rack card's first car with four readings in mm, without water.
const fn of_four(readings: [u32; 4]) -> Car {
    Car { given: 4, readings, ..rack::CAR }
}

/// The rack card's first car at a level in mm, without water.
const fn at(level: u32) -> Car {
    above(level, 0)
}
