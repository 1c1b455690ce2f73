//! Trains that are handed in with a strike or a car, each of which tries one point.

mod cars;
mod faults;
mod order;
mod partings;
mod refused;
mod struck;
mod text;

use super::Group;
use crate::car::{Car, Figures};
use crate::conformance::rack::CAR;
use crate::operations::{self, HandedIn};
use crate::refusal::Refusal;
use crate::sheet::Event;
use crate::table::Row;
use crate::train::{Place, Totals, Train};

/// A train, and the strike or the car that is handed in with it, with a name that says what they try.
#[derive(Clone, Debug, PartialEq)]
pub struct Vector {
    pub name: String,
    pub train: Train,
    pub asked: Event,
}

impl Vector {
    fn strike(name: impl Into<String>, train: &Train, number: u32) -> Self {
        Self { name: name.into(), train: train.clone(), asked: Event::Strike(number) }
    }

    /// The rack card's car with a number.
    fn car(name: impl Into<String>, train: &Train, number: u32) -> Self {
        let car = Car { number, ..CAR };
        Self { name: name.into(), train: train.clone(), asked: Event::Enter(car) }
    }

    /// What this package answers, figures for a car, and the train that it hands back.
    pub fn work_out(&self) -> (Result<Option<Figures>, Refusal>, Train) {
        let mut train = self.train.clone();
        let answer = match &self.asked {
            Event::Enter(car) => operations::enter(&mut train, &[table()], car).map(Some),
            Event::Strike(number) => operations::strike(&mut train, *number).map(|()| None),
        };
        (answer, train)
    }
}

/// The rack card's table, on which every car stands.
pub fn table() -> HandedIn {
    let rows = [(0, 0), (1_000, 20_000), (2_000, 50_000), (3_000, 70_000)];
    let rows = rows.map(|(level, capacity)| Row { level, capacity }).to_vec();
    HandedIn { car_type: 1, announced: 4, rows }
}

/// A held car.
const fn held(number: u32, grade: u32, gross: u32, net: u32) -> Place {
    Place { number, grade, gross, net }
}

/// The train that these cars make, of grades 0 to 4.
fn made(cars: &[Place]) -> Train {
    let mut train = Train { held: cars.len(), ..Train::default() };
    train.places[..cars.len()].copy_from_slice(cars);
    for car in cars.iter().filter(|car| car.grade > 0) {
        for totals in [&mut train.all, &mut train.grades[car.grade as usize - 1]] {
            totals.accepted += 1;
            totals.gross += u64::from(car.gross);
            totals.net += u64::from(car.net);
        }
    }
    train
}

/// Six cars: accepted ones of every grade, two of grade 3, and a refused one.
const SIX: [Place; 6] = [
    held(11, 1, 1_000, 900),
    held(12, 2, 20_000, 18_000),
    held(13, 0, 0, 0),
    held(14, 3, 300_000, 270_000),
    held(15, 4, 4_000_000, 3_600_000),
    held(16, 3, 50, 40),
];

/// The train of six cars.
fn six() -> Train {
    made(&SIX)
}

/// So many cars, numbered from 101, of grades 1 to 4 and refused by turns.
fn many(count: u32) -> Train {
    let car = |place: u32| match place % 5 {
        0 => held(100 + place, 0, 0, 0),
        grade => held(100 + place, grade, 1_000 * place, 900 * place + 7),
    };
    made(&(1..=count).map(car).collect::<Vec<_>>())
}

/// Sixty cars, numbered from 101, of grades 1 to 4 by turns, all accepted.
fn sixty_accepted() -> Train {
    let car = |place: u32| held(100 + place, 1 + place % 4, 1_000 * place, 900 * place + 7);
    made(&(1..=60).map(car).collect::<Vec<_>>())
}

/// Two numbers that are alike where only so much of them is looked at, and what that is.
const NEARLY: [(&str, u32, u32); 5] = [
    ("8-bits", 12, 12 + (1 << 8)),
    ("16-bits", 12, 12 + (1 << 16)),
    ("24-bits", 12, 12 + (1 << 24)),
    ("31-bits", 12, 12 + (1 << 31)),
    ("single-floating-point", 16_777_216, 16_777_217),
];

/// The train of two such numbers and another.
fn of_nearly(first: u32, second: u32) -> Train {
    made(&[held(first, 2, 20_000, 18_000), SIX[3], held(second, 4, 7_000, 6_500)])
}

fn totals(accepted: u32, gross: u64, net: u64) -> Totals {
    Totals { accepted, gross, net }
}

/// A train, changed.
fn but(mut train: Train, change: impl FnOnce(&mut Train)) -> Train {
    change(&mut train);
    train
}

/// A train with something in places that are free, counted from 1.
fn with_free(train: Train, places: &[(usize, Place)]) -> Train {
    but(train, |train| places.iter().for_each(|(place, car)| train.places[place - 1] = *car))
}

fn groups() -> Vec<Group<Vector>> {
    [
        struck::groups(),
        refused::groups(),
        cars::groups(),
        faults::groups(),
        order::groups(),
        partings::groups(),
    ]
    .into_iter()
    .flatten()
    .collect()
}
