//! Refusals by tables and fields from both sides of each bound, and 31 and 32 by every kind of float.

use super::{
    at, on, rack, table, with_density, with_level, with_temperature, Group, HandedIn, ProbeCar,
    Vector, CAR, LARGEST_PAYLOAD, ROWS, SIGNALLING, WITH_SIGN,
};
use crate::table::Row;

pub fn groups() -> Vec<Group<Vector>> {
    vec![
        Group { about: "31 and 32: kinds of float in each place", vectors: floats() },
        Group { about: "31 and 32: further kinds in the level's", vectors: levels() },
        Group { about: "7 and 8: tables", vectors: tables() },
        Group { about: "10: car numbers", vectors: numbers() },
        Group { about: "12 and 13: types, grades and sticks", vectors: kinds() },
        Group { about: "20: water and impurities of each grade", vectors: contents() },
    ]
}

fn floats() -> Vec<Vector> {
    let floats = [
        ("31", "minus-infinity", f32::NEG_INFINITY),
        ("31", "infinity", f32::INFINITY),
        ("31", "not-a-number", f32::NAN),
        ("31", "not-a-number-with-sign", WITH_SIGN),
        ("31", "signalling", SIGNALLING),
        ("31", "minus-1", -1.0),
        ("31", "minus-0.01", -0.01),
        ("31", "minus-smallest-denormal", -1e-45),
        ("32", "largest", f32::MAX),
        ("32", "in-32-bits", 429_497_056.0),
        ("32", "2-to-64", 1.844_674_4e19),
    ];
    let in_each_place = |(refusal, name, float): (&str, &str, f32)| {
        [
            ("level", with_level(CAR, float)),
            ("temperature", with_temperature(CAR, float)),
            ("density", with_density(CAR, float)),
        ]
        .map(|(place, car)| rack(format!("refusal-{refusal}-{place}-{name}"), car))
    };
    floats.into_iter().flat_map(in_each_place).collect()
}

fn levels() -> Vec<Vector> {
    vec![
        rack("refusal-31-level-quiet-largest-payload", at(LARGEST_PAYLOAD)),
        rack("refusal-32-level-20000000", at(20_000_000.0)),
    ]
}

fn tables() -> Vec<Vector> {
    let sound = || table(1, &ROWS);
    let of =
        |name: &str, tables: Vec<HandedIn>| Vector { name: name.to_string(), tables, car: CAR };
    let with_type = |name: &str, car_type| of(name, vec![sound(), table(car_type, &ROWS)]);
    let rows = |count: u32| (0..count).map(|row| Row { level: row, capacity: row }).collect();
    let long = |count| HandedIn { car_type: 2, announced: count, rows: rows(count) };
    let first_row = |row: (u32, u32)| on("", &[row, (2_000, 50_000)], CAR).tables;
    vec![
        with_type("refusal-07-type-0", 0),
        with_type("accepted-type-9999", 9_999),
        with_type("refusal-07-type-10000", 10_000),
        with_type("refusal-07-type-twice", 1),
        of("refusal-07-one-row", vec![sound(), table(2, &[(0, 0)])]),
        of("accepted-400-rows", vec![sound(), long(400)]),
        of("refusal-07-401-rows", vec![sound(), long(401)]),
        of("accepted-four-tables", (1..=4).map(|of| table(of, &ROWS)).collect()),
        of("refusal-07-five-tables", (1..=5).map(|of| table(of, &ROWS)).collect()),
        of("refusal-08-first-row-of-1-mm", first_row((1, 0))),
        of("refusal-08-first-row-of-1-dm3", first_row((0, 1))),
        on("refusal-08-level-alike", &[(0, 0), (2_000, 1), (2_000, 2)], CAR),
        on("refusal-08-capacity-alike", &[(0, 0), (1_000, 1), (2_000, 1)], CAR),
        on("refusal-08-level-3601", &[(0, 0), (3_601, 1)], CAR),
        on("refusal-08-capacity-200001", &[(0, 0), (3_600, 200_001)], CAR),
        of("refusal-08-in-a-table-of-another-type", vec![sound(), table(2, &[(0, 0), (0, 1)])]),
    ]
}

fn numbers() -> Vec<Vector> {
    let refused = [0, 100_000_000, 4_294_967_295]
        .map(|number| rack(format!("refusal-10-number-{number}"), ProbeCar { number, ..CAR }));
    let accepted = [1, 99_999_999]
        .map(|number| rack(format!("accepted-number-{number}"), ProbeCar { number, ..CAR }));
    refused.into_iter().chain(accepted).collect()
}

fn kinds() -> Vec<Vector> {
    let types = [0, 2, 65_537, u32::MAX]
        .map(|car_type| rack(format!("refusal-12-type-{car_type}"), ProbeCar { car_type, ..CAR }));
    let none = Vector { tables: Vec::new(), ..rack("refusal-12-no-tables", CAR) };
    let grades = [0, 5, 259, u32::MAX]
        .map(|grade| rack(format!("refusal-13-grade-{grade}"), ProbeCar { grade, ..CAR }));
    let sticks = [0, 3, 257, 65_538, u32::MAX]
        .map(|stick| rack(format!("refusal-13-stick-{stick}"), ProbeCar { stick, ..CAR }));
    types.into_iter().chain([none]).chain(grades).chain(sticks).collect()
}

fn contents() -> Vec<Vector> {
    let of = |(grade, water, impurities): (u32, u32, u32)| {
        let car = ProbeCar { grade, water, impurities, ..CAR };
        [
            rack(format!("accepted-grade-{grade}-water-{water}-impurities-{impurities}"), car),
            rack(
                format!("refusal-20-grade-{grade}-water-{}", water + 1),
                ProbeCar { water: water + 1, ..car },
            ),
            rack(
                format!("refusal-20-grade-{grade}-impurities-{}", impurities + 1),
                ProbeCar { impurities: impurities + 1, ..car },
            ),
        ]
    };
    let grades = [(1, 30, 10), (2, 30, 12), (3, 100, 50), (4, 100, 100)];
    let largest = ProbeCar { water: u32::MAX, ..CAR };
    let both = ProbeCar { water: 1 << 31, impurities: 1 << 31, ..CAR };
    grades
        .into_iter()
        .flat_map(of)
        .chain([rack("refusal-20-largest-water", largest), rack("refusal-20-sum-in-32-bits", both)])
        .collect()
}
