//! The rack car and the car of annex Д of GOST R 8.787, and what rounding and the rows around a
//! level do to them.

use super::{at, on, rack, table, Group, Vector, ERRORS, NONE};
use crate::car::Car;
use crate::permitted::Errors;

pub fn groups() -> Vec<Group<Vector>> {
    vec![Group {
        about:
            "The rack card's car, on rows and between them, and the car of annex Д of GOST R 8.787",
        vectors: vec![
            rack("rack-car", at(1_500), ERRORS),
            rack("rack-car-on-a-row", at(1_000), ERRORS),
            rack("rack-car-above-a-row", at(1_001), ERRORS),
            rack("rack-car-with-small-errors-on-a-row", at(2_000), SMALL),
            annex("annex-car", 1_586),
            annex("annex-car-density-error-as-printed", 1_600),
            rack("rack-car-without-errors", at(1_500), NONE),
        ],
    }]
}

const SMALL: Errors = Errors {
    capacity: 2_500,
    density: 500,
    processing: 500,
    density_temperature: 2,
    oil_temperature: 2,
    level: 20,
};

fn annex(name: &str, density: u32) -> Vector {
    let car = Car {
        number: 1,
        car_type: 85,
        grade: 4,
        stick: 1,
        given: 2,
        readings: [2_904, 2_904, 0, 0],
        water_level: 100,
        temperature: 523,
        density: 9_632,
        water: 100,
        impurities: 100,
    };
    let rows = [(0, 0), (100, 435), (2_900, 72_959), (2_910, 73_080)];
    let vector = on(name, &rows, car, Errors { density, ..ERRORS });
    Vector { tables: vec![table(85, &rows)], ..vector }
}
