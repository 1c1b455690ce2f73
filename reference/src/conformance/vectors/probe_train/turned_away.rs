//! A probe's car that 31, 32, 7, 8, 10 or 11 turns away: the train is handed back as it came.

use super::super::probe_car::{faulty_sets, wrong_tables};
use super::{
    at, before_free, fifty_nine, numbered, six, six_and, with_density, with_temperature, Group,
    ProbeCar, Train, Vector, CAR, LARGEST_PAYLOAD, SIGNALLING,
};

pub fn groups() -> Vec<Group<Vector>> {
    vec![
        Group { about: "31 and 32 leave the train as it is", vectors: floats() },
        Group { about: "7 and 8 leave it", vectors: tables() },
        Group { about: "10 and 11 leave it", vectors: numbers() },
    ]
}

fn floats() -> Vec<Vector> {
    let trains = [
        ("on-six", six()),
        ("on-the-empty-train", Train::default()),
        ("on-59", fifty_nine()),
        ("before-free-places-that-are-filled", before_free()),
    ];
    let mut vectors = Vec::new();
    for (on, train) in trains {
        for (refusal, fault, set) in faulty_sets(CAR.set) {
            let name = format!("refusal-{refusal}-car-{fault}-{on}");
            vectors.push(Vector::new(name, &train, ProbeCar { set, ..CAR }));
        }
    }
    let further = [
        ("31-car-level-minus-infinity", at(f32::NEG_INFINITY)),
        ("31-car-level-signalling", at(SIGNALLING)),
        ("31-car-level-quiet-largest-payload", at(LARGEST_PAYLOAD)),
        ("31-car-level-hardly-negative", at(-1e-45)),
        ("31-car-temperature-minus-0.01", with_temperature(CAR, -0.01)),
        ("31-car-density-not-a-number-with-sign", with_density(CAR, f32::from_bits(0xffff_ffff))),
        ("32-car-level-largest", at(f32::MAX)),
        ("32-car-level-20000000", at(20_000_000.0)),
        ("32-car-level-2-to-64", at(1.844_674_4e19)),
        ("32-car-density-in-32-bits", with_density(CAR, 429_497_056.0)),
    ];
    vectors.extend(further.map(|(name, car)| Vector::new(format!("refusal-{name}"), &six(), car)));
    vectors
}

fn tables() -> Vec<Vector> {
    wrong_tables()
        .map(|(refusal, fault, tables)| {
            let name = format!("refusal-{refusal:02}-car-{fault}");
            Vector { tables, ..Vector::new(name, &before_free(), CAR) }
        })
        .to_vec()
}

fn numbers() -> Vec<Vector> {
    let by_10 = [0, 100_000_000, u32::MAX].map(|number| {
        Vector::new(format!("refusal-10-car-number-{number}"), &six(), numbered(number))
    });
    let by_11 = (11..=16).map(|number| {
        Vector::new(format!("refusal-11-car-number-{number}"), &six(), numbered(number))
    });
    let further = [
        Vector::new("refusal-11-car-number-of-the-first-of-59", &fifty_nine(), numbered(101)),
        Vector::new("refusal-11-car-number-of-the-last-of-59", &fifty_nine(), numbered(159)),
        Vector::new("refusal-11-car-number-behind-higher-ones", &six_and(5), numbered(5)),
    ];
    by_10.into_iter().chain(by_11).chain(further).collect()
}
