//! Reports in the middle between what two neighbours come to: the smaller field is the answer.

use super::{Group, Vector};

/// Every tie at some temperatures.
const EVERY: [(u32, &[u32]); 5] = [
    (200, &[9_173]),
    (201, &[9_827]),
    (400, &[8_988, 9_167, 9_354, 9_547]),
    (500, &[8_783, 8_905, 9_031, 9_161, 9_294, 9_430, 9_571]),
    (
        900,
        &[
            8_520, 8_576, 8_632, 8_689, 8_747, 8_806, 8_865, 8_925, 8_986, 9_047, 9_110, 9_173,
            9_237, 9_302, 9_368,
        ],
    ),
];

/// Reports at temperatures between 9,000 and 9,001, and between 9,899 and 9,900.
const FIRST: [(u32, u32); 5] =
    [(8_779, 467), (8_760, 494), (8_729, 538), (8_693, 589), (8_532, 816)];
const LAST: [(u32, u32); 5] =
    [(9_719, 416), (9_523, 702), (9_492, 747), (9_472, 776), (9_443, 818)];

pub fn groups() -> Vec<Group<Vector>> {
    let every = EVERY.into_iter().flat_map(|(temperature, reports)| {
        let named = move |&reported: &u32| {
            Vector::new(format!("tie-{reported}-at-{temperature}"), reported, temperature)
        };
        reports.iter().map(named)
    });
    let named = |name: &str, (reported, temperature)| {
        Vector::new(format!("tie-{name}-at-{temperature}"), reported, temperature)
    };
    let first = FIRST.map(|at| named("of-9000-and-9001", at));
    let last = LAST.map(|at| named("of-9899-and-9900", at));
    vec![
        Group { about: "Every tie at 20.0, 20.1, 40, 50 and 90 °C", vectors: every.collect() },
        Group {
            about: "Every tie of the first two fields and of the last two",
            vectors: first.into_iter().chain(last).collect(),
        },
    ]
}
