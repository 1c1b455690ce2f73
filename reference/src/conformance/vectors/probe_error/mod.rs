//! Cars that a probe measured, with given errors, each of which tries one point of the permitted error.

mod bounds;
mod levels;
mod order;
mod paper;
mod text;

use super::probe_car::{at, table, CAR, ROWS};
use super::{Group, Written};
use crate::operations::{self, HandedIn};
use crate::permitted::{Errors, PermittedError};
use crate::probe::ProbeCar;
use crate::refusal::Refusal;

/// Tables, a probe's car and its given errors, with a name that says what they try.
#[derive(Clone, Debug)]
pub struct Vector {
    pub name: String,
    pub tables: Vec<HandedIn>,
    pub car: ProbeCar,
    pub errors: Errors,
}

/// Two vectors are the same where all bits are, also those of what is not a number.
impl PartialEq for Vector {
    fn eq(&self, other: &Self) -> bool {
        (&self.name, self.question()) == (&other.name, other.question())
    }
}

impl Vector {
    /// What this package answers.
    pub fn work_out(&self) -> Result<PermittedError, Refusal> {
        operations::permitted_error_probe(&self.tables, &self.car, &self.errors)
    }
}

/// The errors of the paper's vectors.
const ERRORS: Errors = Errors {
    capacity: 5_000,
    density: 1_600,
    processing: 500,
    density_temperature: 5,
    oil_temperature: 5,
    level: 30,
};

/// No errors.
const NONE: Errors = Errors {
    capacity: 0,
    density: 0,
    processing: 0,
    density_temperature: 0,
    oil_temperature: 0,
    level: 0,
};

/// An error of the level alone, in 0.1 mm.
const fn level(error: u32) -> Errors {
    Errors { level: error, ..NONE }
}

/// A table so flat that no oil shows below 18 mm.
const FLAT: [(u32, u32); 2] = [(0, 0), (3_600, 1)];

/// A car on the rack card's table.
fn rack(name: impl Into<String>, car: ProbeCar, errors: Errors) -> Vector {
    on(name, &ROWS, car, errors)
}

/// A car on one table of type 1.
fn on(name: impl Into<String>, rows: &[(u32, u32)], car: ProbeCar, errors: Errors) -> Vector {
    Vector { name: name.into(), tables: vec![table(1, rows)], car, errors }
}

fn groups() -> Vec<Group<Vector>> {
    [paper::groups(), levels::groups(), bounds::groups(), order::groups()]
        .into_iter()
        .flatten()
        .collect()
}
