//! B of a density as the reference and its rewritten copy answer it.

use reference::car::{Car, FIELDS};
use reference::conformance::vectors::{self, expansion::Vector};
use reference::operations::HandedIn;
use reference::table::Row;

use crate::hooks;
use crate::tables;
use crate::turned::car::Car as TurnedCar;
use crate::turned::table::Tables;
use crate::turned::thermal::{coefficient, Density15};

/// How many densities are asked together.
const TOGETHER: usize = 60;

/// A car that no refusal but that of its density turns away.
const SOUND: Car = Car {
    number: 1,
    car_type: 1,
    grade: 3,
    stick: 1,
    given: 2,
    readings: [1, 1, 0, 0],
    water_level: 0,
    temperature: 400,
    density: 9_000,
    water: 0,
    impurities: 0,
};

/// Vectors that are asked together.
pub struct Densities(Vec<Vector>);

/// What a caller sees: 0 and B, or the refusal and none.
macro_rules! seen {
    ($answer:expr) => {
        match $answer {
            Ok(coefficient) => [0, coefficient],
            Err(refusal) => [refusal.number().into(), 0],
        }
        .map(u64::to_ne_bytes)
        .concat()
    };
}

/// The vectors of the kit.
pub fn of_vectors() -> Vec<Densities> {
    vectors::all::<Vector>().chunks(TOGETHER).map(|some| Densities(some.to_vec())).collect()
}

impl Densities {
    pub fn count(&self) -> usize {
        self.0.len()
    }

    pub fn name(&self) -> String {
        format!("B, {} and others", self.0[0].name)
    }

    pub fn right(&self) -> Vec<u8> {
        self.0.iter().flat_map(|vector| seen!(vector.work_out())).collect()
    }

    pub fn turned(&self) -> Vec<u8> {
        let rows = [0, 1].map(|number| Row { level: number, capacity: number }).to_vec();
        let tables = tables::turned(&[HandedIn { car_type: 1, announced: 2, rows }]);
        let answer = |vector: &Vector| match &tables {
            Ok(tables) => seen!(test(vector.density, tables).map(|()| by_itself(vector.density))),
            Err(refusal) => refusal.number().to_ne_bytes().to_vec(),
        };
        self.0.iter().flat_map(answer).collect()
    }
}

/// Refusal 19.
fn test(density: u32, tables: &Tables) -> Result<(), crate::turned::refusal::Refusal> {
    let car = <[u32; FIELDS]>::from(Car { density, ..SOUND });
    TurnedCar::from(car).work_out(tables).map(drop)
}

/// B without a car at hand.
fn by_itself(density: u32) -> u64 {
    [hooks::GRADE, hooks::STICK, hooks::AT].iter().for_each(|key| hooks::place(*key, 0));
    hooks::place(hooks::BY_ITSELF, 1);
    let answer = coefficient(Density15(density));
    hooks::place(hooks::BY_ITSELF, 0);
    answer
}
