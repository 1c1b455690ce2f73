//! Two faults, of which the one that is tested first is given: every refusal of the tables and the
//! car before 24 and before 25, and 24 before 25.

use super::ranges::FLAT;
use super::{at, on, rack, table, Group, Vector, NONE};
use crate::car::Car;
use crate::conformance::rack::CAR;
use crate::permitted::{Errors, ERRORS};

pub fn groups() -> Vec<Group<Vector>> {
    vec![
        Group { about: "Refusals of tables and car before 24", vectors: before_24() },
        Group { about: "Refusals of tables and car before 25", vectors: before_25() },
        Group { about: "24 before 25", vectors: between() },
    ]
}

/// A car at a level in mm with each of its faults, by the refusal that they give.
fn faulty(level: u32) -> Vec<(u32, &'static str, Car)> {
    let sound = at(level);
    let low = level - 1;
    let four = |readings| Car { given: 4, readings, ..sound };
    let grade_1 = Car { grade: 1, water: 30, impurities: 10, ..sound };
    vec![
        (10, "number-0", Car { number: 0, ..sound }),
        (10, "number-of-nine-digits", Car { number: 100_000_000, ..sound }),
        (12, "type", Car { car_type: 2, ..sound }),
        (13, "grade", Car { grade: 5, ..sound }),
        (13, "stick", Car { stick: 0, ..sound }),
        (14, "count", Car { given: 3, ..sound }),
        (14, "unused-reading", Car { readings: [level, level, level, 0], ..sound }),
        (15, "readings-apart", Car { readings: [low, level + 1, 0, 0], ..sound }),
        (23, "three-of-four-apart", four([low, level + 7, level + 3, level + 11])),
        (16, "level-0", Car { readings: [0; 4], ..sound }),
        (16, "above-the-table", Car { readings: [3_601, 3_601, 0, 0], ..sound }),
        (17, "water-level", Car { water_level: level, ..sound }),
        (18, "cool", Car { temperature: 399, ..sound }),
        (18, "hot", Car { temperature: 901, ..sound }),
        (19, "light", Car { density: 8_999, ..sound }),
        (19, "dense", Car { density: 9_901, ..sound }),
        (20, "water", Car { water: 101, ..sound }),
        (20, "impurities", Car { impurities: 51, ..sound }),
        (21, "density-at-20", Car { density: 9_585, ..grade_1 }),
    ]
}

fn before_24() -> Vec<Vector> {
    let wrong = Errors { capacity: 10_001, ..NONE };
    let mut vectors = tables_first("24", CAR, wrong);
    let four = (1..=4).map(|car_type| table(car_type, &[(0, 0), (1_500, 1)])).collect();
    let unnumbered = Car { number: 0, car_type: 4, ..CAR };
    vectors.push(Vector {
        tables: four,
        ..rack("order-10-before-24-number-0-on-the-last-of-four-tables", unnumbered, wrong)
    });
    for (first, fault, car) in faulty(1_500) {
        vectors.push(rack(&format!("order-{first}-before-24-{fault}"), car, wrong));
    }
    vectors
}

fn before_25() -> Vec<Vector> {
    let mut vectors = tables_first("25", at(6), Errors { level: 100, ..NONE });
    for (first, fault, car) in faulty(6) {
        vectors.push(on(&format!("order-{first}-before-25-{fault}"), &FLAT, car, NONE));
    }
    vectors
}

/// Tables that are refused by 7 and 8.
fn tables_first(second: &str, car: Car, errors: Errors) -> Vec<Vector> {
    let sound = [(0, 0), (1_500, 1)];
    let of = |first: u32, fault: &str, tables| Vector {
        name: format!("order-{first:02}-before-{second}-{fault}"),
        tables,
        car,
        errors,
    };
    vec![
        of(7, "type-twice", vec![table(1, &sound), table(1, &sound)]),
        of(7, "fifth-table", (1..=5).map(|car_type| table(car_type, &sound)).collect()),
        of(8, "first-row", vec![table(1, &[(0, 1), (1_500, 2)])]),
        of(8, "second-table", vec![table(1, &sound), table(2, &[(0, 0), (5, 5), (5, 6)])]),
    ]
}

fn between() -> Vec<Vector> {
    let mut vectors: Vec<Vector> = ["capacity", "density", "processing", "density-temperature"]
        .into_iter()
        .chain(["oil-temperature", "level"])
        .enumerate()
        .map(|(place, error)| {
            let mut errors = [0; ERRORS];
            errors[place] = 10_001;
            on(&format!("order-24-before-25-{error}-error"), &FLAT, at(17), Errors::from(errors))
        })
        .collect();
    vectors.push(rack(
        "order-24-before-25-level-term",
        at(999),
        Errors { density: 10_001, level: 100, ..NONE },
    ));
    vectors.push(rack(
        "order-24-before-25-level-error-that-makes-the-term",
        at(1_000),
        Errors { level: 101, ..NONE },
    ));
    vectors
}
