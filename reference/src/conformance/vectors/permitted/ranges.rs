//! Refusals 24 and 25 from both sides of each bound.

use super::{above, at, on, rack, Group, Vector, NONE};
use crate::permitted::{Errors, ERRORS};

/// A table so flat that no oil shows below 18 mm.
pub const FLAT: [(u32, u32); 2] = [(0, 0), (3_600, 1)];

/// Each error's name and highest value, as they are handed over.
const HIGHEST: [(&str, u32); ERRORS] = [
    ("capacity", 10_000),
    ("density", 10_000),
    ("processing", 10_000),
    ("density-temperature", 20),
    ("oil-temperature", 20),
    ("level", 100),
];

pub fn groups() -> Vec<Group<Vector>> {
    vec![
        Group {
            about: "24: each error at its highest, one above, and far above",
            vectors: of_24(),
        },
        Group { about: "25: V0 is 0, or the level term is above 10,000", vectors: of_25() },
    ]
}

fn of_24() -> Vec<Vector> {
    let mut vectors = Vec::new();
    for (place, (error, highest)) in HIGHEST.into_iter().enumerate() {
        for (name, number) in [
            (format!("accepted-{error}-error-{highest}"), highest),
            (format!("refusal-24-{error}-error-{}", highest + 1), highest + 1),
            (format!("refusal-24-{error}-error-in-16-bits"), 65_536),
            (format!("refusal-24-{error}-error-in-32-bits"), u32::MAX),
        ] {
            let mut errors = [0; ERRORS];
            errors[place] = number;
            vectors.push(rack(&name, at(2_000), Errors::from(errors)));
        }
    }
    vectors
}

fn of_25() -> Vec<Vector> {
    // On the second pair V0 is 2,000,000 at 1,001 mm, and 2,969,900 at 1,989 mm above 971 mm.
    let steep = [(0, 0), (1_000, 19_980), (2_000, 39_981)];
    let even = [(0, 0), (1_000, 19_980), (2_000, 39_980)];
    let late = [(0, 0), (1_000, 1_000), (2_000, 31_000)];
    let level = |error| Errors { level: error, ..NONE };
    vec![
        rack("accepted-level-term-10000", at(1_000), level(100)),
        rack("refusal-25-level-term-10010", at(999), level(100)),
        on("accepted-level-term-10000-between-rows", &even, at(1_001), level(100)),
        on("accepted-level-term-rounded-down-to-10000", &late, above(1_989, 971), level(99)),
        on("refusal-25-level-term-rounded-up-to-10001", &steep, at(1_001), level(100)),
        on("accepted-level-term-8333-of-one-unit", &FLAT, at(18), level(3)),
        on("refusal-25-level-term-11111-of-one-unit", &FLAT, at(18), level(4)),
        rack("refusal-25-level-term-10000000", at(1), level(100)),
        rack("refusal-25-level-term-in-16-bits", at(152), level(100)),
        on("refusal-25-no-volume-at-1-mm", &FLAT, at(1), level(30)),
        on("refusal-25-no-volume-at-17-mm", &FLAT, at(17), level(1)),
        on("accepted-one-unit-at-18-mm", &FLAT, at(18), NONE),
        on("refusal-25-no-volume-and-no-level-error", &FLAT, at(17), NONE),
        on("refusal-25-no-volume-above-water", &FLAT, above(19, 18), level(1)),
        on("refusal-25-no-volume-above-water-and-no-level-error", &FLAT, above(19, 18), NONE),
    ]
}
