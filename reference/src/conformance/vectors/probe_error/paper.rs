//! The rack card's car and the car of annex Д of GOST R 8.787, with errors that the paper has.

use super::{at, on, rack, table, Errors, Group, ProbeCar, Vector, CAR, ERRORS, NONE};
use crate::probe::Set;

const SMALL: Errors = Errors {
    capacity: 2_500,
    density: 500,
    processing: 500,
    density_temperature: 2,
    oil_temperature: 2,
    level: 20,
};

pub fn groups() -> Vec<Group<Vector>> {
    vec![
        Group {
            about: "The paper's cars: figures and n are those of the dipped ones",
            vectors: paper(),
        },
        Group { about: "One error alone: its term is left, and no other", vectors: alone() },
        Group { about: "Either stick, and oil of any temperature and density", vectors: oils() },
    ]
}

fn paper() -> Vec<Vector> {
    vec![
        rack("rack-car", CAR, ERRORS),
        rack("rack-car-on-a-row", at(1000.0), ERRORS),
        rack("rack-car-above-a-row", at(1001.0), ERRORS),
        rack("rack-car-with-small-errors-on-a-row", at(2000.0), SMALL),
        annex("annex-car", 1_586),
        annex("annex-car-density-error-as-printed", 1_600),
        rack("rack-car-without-errors", CAR, NONE),
        rack("rack-car-1500.5", at(1500.5), ERRORS),
        rack("rack-car-1000.5", at(1000.5), ERRORS),
    ]
}

fn annex(name: &str, density: u32) -> Vector {
    let set = Set { level: 2904.0, temperature: 52.3, density: 963.2 };
    let car = ProbeCar::new([1, 85, 4, 1, 100, 100, 100], set);
    let rows = [(0, 0), (100, 435), (2_900, 72_959), (2_910, 73_080)];
    let errors = Errors { density, ..ERRORS };
    Vector { tables: vec![table(85, &rows)], ..on(name, &rows, car, errors) }
}

fn alone() -> Vec<Vector> {
    let errors = [
        ("capacity", Errors { capacity: 4_999, ..NONE }),
        ("density", Errors { density: 1_600, ..NONE }),
        ("processing", Errors { processing: 501, ..NONE }),
        ("density-temperature", Errors { density_temperature: 5, ..NONE }),
        ("oil-temperature", Errors { oil_temperature: 5, ..NONE }),
        ("level", Errors { level: 30, ..NONE }),
    ];
    errors.map(|(name, errors)| rack(format!("alone-{name}-error"), CAR, errors)).to_vec()
}

/// Temperature and density at their ends, with errors that B and G act on.
fn oils() -> Vec<Vector> {
    let errors = Errors { density: 10_000, density_temperature: 20, oil_temperature: 19, ..NONE };
    let oils = [(40.0, 900.0), (40.0, 990.0), (90.0, 900.0), (90.0, 990.0), (63.8, 900.1)];
    let with = |stick: u32, (temperature, density): (f32, f32)| {
        let set = Set { temperature, density, ..CAR.set };
        let name = format!("stick-{stick}-at-{temperature}-degrees-density-{density}");
        rack(name, ProbeCar { stick, set, ..CAR }, errors)
    };
    [1, 2].into_iter().flat_map(|stick| oils.map(|oil| with(stick, oil))).collect()
}
