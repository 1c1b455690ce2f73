//! A probe's readings, sets and cars as the reference and its rewritten copy answer them.

use reference::conformance::vectors::{self, probe, probe_car, probe_error, probe_train, Written};
use reference::operations::HandedIn;
use reference::permitted::{Errors, ERRORS};
use reference::probe::{ProbeCar, Reading, Set};

use crate::turned::car::Figures;
use crate::turned::permitted::PermittedError;
use crate::turned::refusal::Refusal;
use crate::turned::table::Tables;
use crate::{hooks, permitted, tables, train, turned};

/// What is asked of a probe's numbers.
pub enum Asked {
    /// A reading or a set, in tenths.
    Tenths(probe::Vector),
    /// A car worked out alone.
    Car(probe_car::Vector),
    /// A car that is entered in a train.
    Train(Box<probe_train::Vector>),
    /// A car with its permitted error.
    Error(probe_error::Vector),
}

/// What a caller sees of tenths or of a car's figures, or the refusal.
macro_rules! seen {
    ($answer:expr) => {
        match $answer {
            Ok(answer) => format!("{answer:?}"),
            Err(refusal) => refusal.number().to_string(),
        }
        .into_bytes()
    };
}

/// The vectors of the kit.
pub fn of_vectors() -> Vec<Asked> {
    fn all<V: Written>(of: fn(V) -> Asked) -> impl Iterator<Item = Asked> {
        vectors::all::<V>().into_iter().map(of)
    }
    all(Asked::Tenths)
        .chain(all(Asked::Car))
        .chain(all(|vector| Asked::Train(Box::new(vector))))
        .chain(all(Asked::Error))
        .collect()
}

impl Asked {
    pub fn name(&self) -> String {
        let (file, name) = match self {
            Self::Tenths(vector) => ("probe", &vector.name),
            Self::Car(vector) => ("probe's car", &vector.name),
            Self::Train(vector) => ("probe's car in a train", &vector.name),
            Self::Error(vector) => ("probe's car with errors", &vector.name),
        };
        format!("{file}: {name}")
    }

    /// What the numbers are handed over for: a number of [`hooks::PROBE`].
    pub fn probe(&self) -> u32 {
        match self {
            Self::Tenths(vector) => match vector.asked {
                probe::Asked::One(_) => hooks::ONE,
                probe::Asked::Three(_) => hooks::SET,
            },
            Self::Car(_) => hooks::ALONE,
            Self::Train(_) => hooks::ENTERED,
            Self::Error(_) => hooks::PERMITTED,
        }
    }

    pub fn right(&self) -> Vec<u8> {
        match self {
            Self::Tenths(vector) => seen!(vector.work_out()),
            Self::Car(vector) => seen!(vector.work_out()),
            Self::Train(vector) => train::shown(vector.work_out()),
            Self::Error(vector) => permitted::shown(vector.work_out()),
        }
    }

    pub fn turned(&self) -> Vec<u8> {
        hooks::begin_probe(self.probe());
        match self {
            Self::Tenths(vector) => seen!(hooks::reordered(|| tenths(vector.asked))),
            Self::Car(vector) => {
                seen!(hooks::reordered(|| alone(&vector.tables, &vector.car)))
            }
            Self::Train(vector) => train::shown_turned(&vector.train, |train| {
                let other = hooks::first_overtaken(|| {
                    enter(&mut train.clone(), &vector.tables, &vector.car)
                });
                other.map_or_else(|| enter(train, &vector.tables, &vector.car), Err)
            }),
            Self::Error(vector) => permitted::shown_turned(hooks::reordered(|| {
                with_error(&vector.tables, &vector.car, &vector.errors)
            })),
        }
    }
}

fn tenths(asked: probe::Asked) -> Result<Vec<u32>, Refusal> {
    match asked {
        probe::Asked::One(number) => reading(number).tenths().map(|tenths| vec![tenths]),
        probe::Asked::Three(three) => {
            set(three).tenths().map(|set| vec![set.level, set.temperature, set.density.0])
        }
    }
}

fn reading(reading: Reading) -> turned::probe::Reading {
    match reading {
        Reading::Level(level) => turned::probe::Reading::Level(level),
        Reading::Temperature(temperature) => turned::probe::Reading::Temperature(temperature),
        Reading::Density(density) => turned::probe::Reading::Density(density),
    }
}

fn set(set: Set) -> turned::probe::Set {
    let Set { level, temperature, density } = set;
    turned::probe::Set { level, temperature, density }
}

fn car(car: &ProbeCar) -> turned::probe::ProbeCar {
    let ProbeCar { number, car_type, grade, stick, water_level, water, impurities, .. } = *car;
    let fields = [number, car_type, grade, stick, water_level, water, impurities];
    turned::probe::ProbeCar::new(fields, set(car.set))
}

/// The tables of a car; 31 and 32 come before their refusals.
fn tables_of(handed_in: &[HandedIn], car: &turned::probe::ProbeCar) -> Result<Tables, Refusal> {
    tables::turned(handed_in).or_else(|refusal| car.measured().and(Err(refusal)))
}

fn alone(handed_in: &[HandedIn], asked: &ProbeCar) -> Result<Figures, Refusal> {
    let car = car(asked);
    car.work_out(&tables_of(handed_in, &car)?)
}

fn enter(
    train: &mut turned::train::Train,
    handed_in: &[HandedIn],
    asked: &ProbeCar,
) -> Result<Figures, Refusal> {
    let car = car(asked);
    train.enter_probe(&car, &tables_of(handed_in, &car)?)
}

fn with_error(
    handed_in: &[HandedIn],
    asked: &ProbeCar,
    errors: &Errors,
) -> Result<PermittedError, Refusal> {
    let car = car(asked);
    let errors = turned::permitted::Errors::from(<[u32; ERRORS]>::from(*errors));
    turned::permitted::work_out_probe(&car, &tables_of(handed_in, &car)?, &errors)
}
