//! Reports around what the lightest and the densest oil come to, on both sides of 27.

use super::{Group, Vector};

/// Temperatures with what 9,000 and 9,900 come to.
const ENDS: [(u32, u32, u32); 9] = [
    (200, 8_965, 9_866),
    (201, 8_965, 9_866),
    (350, 8_861, 9_764),
    (400, 8_826, 9_730),
    (500, 8_755, 9_662),
    (650, 8_649, 9_559),
    (777, 8_559, 9_472),
    (899, 8_472, 9_387),
    (900, 8_472, 9_387),
];

pub fn groups() -> Vec<Group<Vector>> {
    vec![
        Group {
            about: "27: two and one below what 9000 comes to, at it and one above",
            vectors: ENDS
                .into_iter()
                .flat_map(|(at, lightest, _)| of_lightest(at, lightest))
                .collect(),
        },
        Group {
            about: "27: one below what 9900 comes to, at it, one and two above",
            vectors: ENDS
                .into_iter()
                .flat_map(|(at, _, densest)| of_densest(at, densest))
                .collect(),
        },
    ]
}

fn of_lightest(temperature: u32, comes_to: u32) -> [Vector; 4] {
    [
        (format!("refusal-27-two-below-9000-at-{temperature}"), comes_to - 2),
        (format!("accepted-one-below-9000-at-{temperature}"), comes_to - 1),
        (format!("accepted-9000-at-{temperature}"), comes_to),
        (format!("accepted-one-above-9000-at-{temperature}"), comes_to + 1),
    ]
    .map(|(name, reported)| Vector::new(name, reported, temperature))
}

fn of_densest(temperature: u32, comes_to: u32) -> [Vector; 4] {
    [
        (format!("accepted-one-below-9900-at-{temperature}"), comes_to - 1),
        (format!("accepted-9900-at-{temperature}"), comes_to),
        (format!("accepted-one-above-9900-at-{temperature}"), comes_to + 1),
        (format!("refusal-27-two-above-9900-at-{temperature}"), comes_to + 2),
    ]
    .map(|(name, reported)| Vector::new(name, reported, temperature))
}
