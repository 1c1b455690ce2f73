//! A probe's car that is accepted: its place, its grade and its masses.

use super::{
    at, before_free, fifty_nine, numbered, of_grade, short_of, six, six_and, table, train_of,
    with_density, with_temperature, Group, ProbeCar, Train, Vector, CAR, ROWS, SHORT_OF_2048,
};

pub fn groups() -> Vec<Group<Vector>> {
    vec![
        Group { about: "A probe's car is entered, on each of these trains", vectors: on_trains() },
        Group { about: "Cars of every grade, with either stick and any level", vectors: cars() },
        Group { about: "Levels and masses of a car behind others", vectors: behind_six() },
        Group { about: "Numbers that are nearly held ones", vectors: near_held() },
    ]
}

/// Trains of the file of trains that are handed in, all of which take a car.
const TRAINS: [&str; 8] = [
    "car-on-the-empty-train",
    "car-on-58",
    "car-on-59",
    "car-on-totals-of-12000000",
    "car-beside-numbers-that-no-car-can-have",
    "car-beside-a-refused-car-with-masses",
    "car-whose-number-stands-in-a-free-place",
    "car-where-the-last-brought-the-total-to-12000000",
];

fn on_trains() -> Vec<Vector> {
    let on = |name: &str| Vector::new(name, &train_of(name), numbered(8));
    TRAINS
        .map(on)
        .into_iter()
        .chain([
            Vector::new("car-number-1", &six(), numbered(1)),
            Vector::new("car-number-99999999", &six(), numbered(99_999_999)),
            Vector::new("car-in-the-first-free-place", &before_free(), numbered(80)),
            Vector::new(
                "car-whose-number-stands-in-the-place-that-it-takes",
                &before_free(),
                numbered(77),
            ),
            Vector::new("car-whose-number-stands-in-the-last-place", &before_free(), numbered(79)),
            Vector::new("car-that-fills-the-train", &fifty_nine(), numbered(160)),
        ])
        .collect()
}

fn cars() -> Vec<Vector> {
    let grades = (1..=4).flat_map(|grade| {
        [(1, "steel"), (2, "aluminium")].map(|(stick, name)| {
            let car = with_density(ProbeCar { stick, ..of_grade(grade) }, 940.0);
            Vector::new(format!("car-of-grade-{grade}-{name}"), &six(), car)
        })
    });
    let levels = [0.05, 0.35, 1499.96, 1500.04, 1500.05, 1500.25, 2999.9, 3000.04];
    let levels = levels.map(|level: f32| {
        Vector::new(format!("car-at-level-{level}"), &Train::default(), at(level))
    });
    let flat = Vector {
        tables: vec![table(1, &[(0, 0), (3_600, 1)])],
        ..Vector::new("car-without-volume", &six(), at(0.1))
    };
    let second = Vector {
        tables: vec![table(2, &[(0, 0), (5, 5)]), table(1, &ROWS)],
        ..Vector::new("car-on-the-second-table", &six(), CAR)
    };
    grades.chain(levels).chain([flat, second]).collect()
}

fn behind_six() -> Vec<Vector> {
    let levels = [
        ("1", 1.0),
        ("short-of-2048", SHORT_OF_2048),
        ("short-of-2999.95", short_of(299_995)),
        ("1500.75", 1500.75),
    ];
    let levels =
        levels.map(|(name, level)| Vector::new(format!("car-at-level-{name}"), &six(), at(level)));
    let heavy = with_temperature(at(3000.0), 52.3);
    let heavy = Vector {
        tables: vec![table(1, &[(0, 0), (3_600, 200_000)])],
        ..Vector::new("car-of-more-than-65535-kg", &six(), heavy)
    };
    levels.into_iter().chain([heavy]).collect()
}

fn near_held() -> Vec<Vector> {
    let of = |takes: &str, train: &Train, number| {
        Vector::new(format!("car-number-that-{takes}-for-a-held-one"), train, numbered(number))
    };
    vec![
        of("24-bits-take", &six(), 12 + (1 << 24)),
        of("seven-digits-take", &six(), 10_000_012),
        of("a-float-takes", &six_and(50_000_001), 50_000_002),
    ]
}
