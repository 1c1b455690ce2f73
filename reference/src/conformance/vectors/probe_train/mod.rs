//! Trains that are handed in with a car that a probe measured, each of which tries one point.

mod barred;
mod entered;
mod lists;
mod order;
mod partings;
mod refused;
mod text;
mod turned_away;

use super::probe::{LARGEST_PAYLOAD, SIGNALLING};
use super::probe_car::{
    at, of_grade, short_of, table, with_density, with_temperature, CAR, IN_16_BITS, IN_24_BITS,
    ROWS, SHORT_OF_2048,
};
use super::train::{self, table as rack_table};
use super::{all, Group, Written};
use crate::car::Figures;
use crate::operations::{self, HandedIn};
use crate::probe::ProbeCar;
use crate::refusal::Refusal;
use crate::train::Train;

/// A train, tables and a probe's car, with a name that says what they try.
#[derive(Clone, Debug)]
pub struct Vector {
    pub name: String,
    pub train: Train,
    pub tables: Vec<HandedIn>,
    pub car: ProbeCar,
}

/// Two vectors are the same where all bits are, also those of what is not a number.
impl PartialEq for Vector {
    fn eq(&self, other: &Self) -> bool {
        (&self.name, self.question()) == (&other.name, other.question())
    }
}

impl Vector {
    /// A car on the rack card's table.
    fn new(name: impl Into<String>, train: &Train, car: ProbeCar) -> Self {
        Self { name: name.into(), train: train.clone(), tables: vec![rack_table()], car }
    }

    /// What this package answers, and the train that it hands back.
    pub fn work_out(&self) -> (Result<Figures, Refusal>, Train) {
        let mut train = self.train.clone();
        let answer = operations::enter_probe(&mut train, &self.tables, &self.car);
        (answer, train)
    }
}

/// The train of a case of the trains that are handed in.
fn train_of(name: &str) -> Train {
    let vectors = all::<train::Vector>();
    vectors.into_iter().find(|vector| vector.name == name).expect(name).train
}

/// Six cars, numbered 11 to 16, of grades 1, 2, 3, 4 and 3; 13 is a refused one.
fn six() -> Train {
    train_of("car-number-1")
}

/// Six cars and behind them the rack card's, with this number.
fn six_and(number: u32) -> Train {
    Vector::new("", &six(), numbered(number)).work_out().1
}

/// Six cars with something in the two places behind them and in the last.
fn before_free() -> Train {
    train_of("parting-car-behind-the-free-places-that-are-filled")
}

/// 59 cars, numbered from 101.
fn fifty_nine() -> Train {
    train_of("car-on-59")
}

/// Sixty cars, numbered from 101.
fn sixty() -> Train {
    train_of("refusal-09-car-on-sixty")
}

/// Six cars whose gross of all is not what they make.
fn unsound() -> Train {
    train_of("refusal-09-car-gross-one-more-of-all")
}

/// The rack card's car with another number.
const fn numbered(number: u32) -> ProbeCar {
    ProbeCar { number, ..CAR }
}

fn groups() -> Vec<Group<Vector>> {
    [
        entered::groups(),
        refused::groups(),
        turned_away::groups(),
        barred::groups(),
        order::groups(),
        lists::groups(),
        partings::groups(),
    ]
    .into_iter()
    .flatten()
    .collect()
}
