//! Two faults, of which the one that is tested first is given: 31 and 32, those of tables and car, 24, 25.

use super::super::probe_car::{
    faulty_sets, of_grade, with_density, with_level, with_temperature, wrong_cars, wrong_tables,
};
use super::{at, level, on, rack, Errors, Group, ProbeCar, Vector, CAR, FLAT, NONE};
use crate::probe::Set;

/// A density error that is out of its range.
const WRONG: Errors = Errors { density: 10_001, ..NONE };

pub fn groups() -> Vec<Group<Vector>> {
    vec![
        Group { about: "31 and 32 before all others", vectors: floats_first() },
        Group { about: "31 and 32 of a float before those of the next", vectors: between_floats() },
        Group { about: "Refusals of tables and car, each before the next", vectors: neighbours() },
        Group { about: "Refusals of tables and car before 24", vectors: before_24() },
        Group { about: "Refusals of tables and car before 25", vectors: before_25() },
        Group { about: "24 before 25", vectors: between() },
    ]
}

fn floats_first() -> Vec<Vector> {
    let mut vectors = Vec::new();
    for (first, fault, set) in faulty_sets(CAR.set) {
        let car = ProbeCar { set, ..CAR };
        let name = |behind: &str| format!("order-{first}-before-{behind}-{fault}");
        for (behind, _, tables) in wrong_tables() {
            vectors.push(Vector { tables, ..rack(name(&format!("{behind:02}")), car, NONE) });
        }
        vectors.extend([
            rack(name("10"), ProbeCar { number: 0, ..car }, NONE),
            rack(name("12"), ProbeCar { car_type: 2, ..car }, NONE),
            rack(name("24"), car, WRONG),
            on(name("25"), &FLAT, ProbeCar { water_level: 1_499, ..car }, NONE),
        ]);
    }
    vectors
}

fn between_floats() -> Vec<Vector> {
    let (by_31, by_32) = (f32::NEG_INFINITY, 1e7);
    let sets = [
        (
            "32-before-31-level-and-temperature",
            Set { level: f32::MAX, temperature: by_31, ..CAR.set },
        ),
        ("31-before-32-level-and-density", Set { level: by_31, density: by_32, ..CAR.set }),
        (
            "31-before-32-temperature-and-density",
            Set { temperature: by_31, density: by_32, ..CAR.set },
        ),
        (
            "32-before-31-temperature-and-density",
            Set { temperature: by_32, density: f32::NAN, ..CAR.set },
        ),
    ];
    sets.map(|(name, set)| rack(format!("order-{name}"), ProbeCar { set, ..CAR }, NONE)).to_vec()
}

fn neighbours() -> Vec<Vector> {
    let unnumbered = ProbeCar { number: 0, ..CAR };
    let tables = wrong_tables().map(|(first, _, tables)| Vector {
        tables,
        ..rack(format!("order-{first:02}-before-10"), unnumbered, NONE)
    });
    let light = |car| with_density(car, 899.9);
    let wet = ProbeCar { water: 31, ..of_grade(1) };
    let cars = [
        ("10-before-12", ProbeCar { car_type: 2, ..unnumbered }),
        ("12-before-13", ProbeCar { car_type: 2, grade: 0, ..CAR }),
        ("13-before-16", ProbeCar { stick: 3, ..at(3000.1) }),
        ("18-before-19", light(with_temperature(CAR, 39.9))),
        ("19-before-20", light(ProbeCar { water: 101, ..CAR })),
        ("20-before-21", with_density(wet, 958.5)),
    ];
    let cars = cars.map(|(name, car)| rack(format!("order-{name}"), car, NONE));
    tables.into_iter().chain(cars).collect()
}

fn before_24() -> Vec<Vector> {
    let tables = wrong_tables().map(|(first, fault, tables)| Vector {
        tables,
        ..rack(format!("order-{first:02}-before-24-{fault}"), CAR, WRONG)
    });
    let cars = wrong_cars()
        .into_iter()
        .map(|(first, fault, car)| rack(format!("order-{first}-before-24-{fault}"), car, WRONG));
    tables.into_iter().chain(cars).collect()
}

/// On a table so flat that V0 is 0 at 6 mm, which a level of 0 and a water level above it are beside.
fn before_25() -> Vec<Vector> {
    let tables = wrong_tables().map(|(first, fault, tables)| Vector {
        tables,
        ..rack(format!("order-{first:02}-before-25-{fault}"), at(6.0), level(100))
    });
    let cars = wrong_cars().into_iter().map(|(first, fault, car)| {
        let low = with_level(car, car.set.level.min(6.0));
        on(format!("order-{first}-before-25-{fault}"), &FLAT, low, level(1))
    });
    tables.into_iter().chain(cars).collect()
}

fn between() -> Vec<Vector> {
    vec![
        on("order-24-before-25-no-volume", &FLAT, at(17.0), WRONG),
        rack("order-24-before-25-level-term", at(999.9), Errors { level: 100, ..WRONG }),
        rack("order-24-before-25-level-error-that-makes-the-term", at(1000.0), level(101)),
    ]
}
