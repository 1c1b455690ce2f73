//! Differences of every kind: none, the least, by every tenth, at a half and beside one, the largest, and
//! with stick and tape exchanged.

use super::{around, both_ways, least, Group, Vector, LEVEL, STICK};

/// How far the stick lies from 16 readings in all, in tenths of a mm, and the two hundredths whose middle
/// that is.
const HALVES: [(i64, &str); 11] = [
    (4, "2-and-3"),
    (12, "7-and-8"),
    (20, "12-and-13"),
    (60, "37-and-38"),
    (100, "62-and-63"),
    (140, "87-and-88"),
    (180, "112-and-113"),
    (300, "187-and-188"),
    (316, "197-and-198"),
    (324, "202-and-203"),
    (340, "212-and-213"),
];

/// Numbers of readings, and how far the stick lies from them in all, in tenths of a mm: as near short of a
/// half as may be, and as near past one. With 10 and 20 readings every difference is a whole number of
/// 0.01 mm.
const BESIDE_HALVES: [(u32, i64, i64); 9] = [
    (11, 6, 5),
    (12, 4, 2),
    (13, 11, 2),
    (14, 2, 12),
    (15, 5, 10),
    (16, 2, 6),
    (17, 11, 6),
    (18, 8, 10),
    (19, 18, 1),
];

/// Levels in mm of stick and tape that are exchanged.
const EXCHANGED: [(u32, u32); 4] = [(1_500, 1_502), (1_000, 1_001), (2, 1), (3_000, 3_003)];

pub fn groups() -> Vec<Group<Vector>> {
    vec![
        Group { about: "Stick 15000, and readings of one level or two", vectors: examples() },
        Group { about: "Stick levels with tenths", vectors: examples_with_tenths() },
        Group { about: "No difference", vectors: none() },
        Group {
            about: "The least difference with every number of readings, both ways",
            vectors: (10..=20).flat_map(|count| both_ways("least", count, least(count))).collect(),
        },
        Group {
            about: "Ten equal readings: every tenth of the stick level, both ways",
            vectors: (1..=19).flat_map(tenths).collect(),
        },
        Group { about: "Halves, which only 16 readings have, both ways", vectors: halves() },
        Group {
            about: "As near a half as may be with 11 to 19 readings, both ways",
            vectors: beside_halves(),
        },
        Group {
            about: "The largest differences with every number of readings, both ways",
            vectors: (10..=20).flat_map(largest).collect(),
        },
        Group { about: "Stick and tape exchanged: the sign turns", vectors: exchanged() },
    ]
}

/// How many readings of which level.
type Readings<'a> = &'a [(usize, u32)];

fn example(name: &str, stick: u64, readings: Readings) -> Vector {
    let names: Vec<String> =
        readings.iter().map(|(many, reading)| format!("{many}-of-{reading}")).collect();
    let given: Vec<u32> =
        readings.iter().flat_map(|&(many, reading)| vec![reading; many]).collect();
    Vector::new(format!("example-{name}{}", names.join("-and-")), stick, &given)
}

fn examples() -> Vec<Vector> {
    let readings: [Readings; 8] = [
        &[(14, 1_500), (2, 1_501)],
        &[(14, 1_500), (2, 1_499)],
        &[(10, 1_498)],
        &[(10, 1_502)],
        &[(9, 1_498), (1, 1_497)],
        &[(9, 1_502), (1, 1_503)],
        &[(11, 1_500), (1, 1_501)],
        &[(11, 1_500), (1, 1_499)],
    ];
    readings.map(|readings| example("", STICK, readings)).to_vec()
}

fn examples_with_tenths() -> Vec<Vector> {
    let examples: [(u64, Readings); 10] = [
        (15_004, &[(10, 1_500), (6, 1_501)]),
        (14_996, &[(10, 1_500), (6, 1_499)]),
        (15_020, &[(20, 1_500)]),
        (14_980, &[(20, 1_500)]),
        (15_021, &[(20, 1_500)]),
        (14_979, &[(20, 1_500)]),
        (15_021, &[(19, 1_500), (1, 1_501)]),
        (15_005, &[(10, 1_500), (10, 1_501)]),
        (15_003, &[(8, 1_500), (4, 1_501)]),
        (15_007, &[(4, 1_500), (8, 1_501)]),
    ];
    examples.map(|(stick, readings)| example(&format!("stick-{stick}-"), stick, readings)).to_vec()
}

fn none() -> Vec<Vector> {
    let alike = [(10, 10), (15_000, 11), (15_000, 16), (15_005, 20), (15_002, 15), (36_000, 20)]
        .map(|(stick, count)| {
            Vector::new(format!("none-at-{stick}-with-{count}"), stick, &around(stick, count, 0))
        });
    let differing = [
        Vector::new("none-though-readings-differ", STICK, &[1_499, 1_501].repeat(5)),
        Vector::new("none-though-readings-lie-far-apart", 18_010, &[1, 3_600, 1_802].repeat(6)),
    ];
    alike.into_iter().chain(differing).collect()
}

/// The stick so many tenths of a mm above ten readings of 1,500 mm, and below.
fn tenths(tenths: u64) -> [Vector; 2] {
    [("above", STICK + tenths), ("below", STICK - tenths)].map(|(way, stick)| {
        Vector::new(format!("tenths-{tenths}-{way}-with-10"), stick, &[LEVEL; 10])
    })
}

fn halves() -> Vec<Vector> {
    HALVES
        .into_iter()
        .flat_map(|(by, between)| both_ways(&format!("half-of-{between}"), 16, by))
        .collect()
}

fn beside_halves() -> Vec<Vector> {
    BESIDE_HALVES
        .into_iter()
        .flat_map(|(count, down, up)| {
            [both_ways("short-of-a-half", count, down), both_ways("past-a-half", count, up)]
                .concat()
        })
        .collect()
}

fn largest(count: usize) -> [Vector; 2] {
    [("above", 36_000, 1), ("below", 10, 3_600)].map(|(way, stick, reading)| {
        Vector::new(format!("largest-{way}-with-{count}"), stick, &vec![reading; count])
    })
}

fn exchanged() -> Vec<Vector> {
    let named = |stick: u32, reading: u32| {
        let name = format!("exchanged-{stick}-against-{reading}");
        Vector::new(name, 10 * u64::from(stick), &[reading; 10])
    };
    EXCHANGED.into_iter().flat_map(|(low, high)| [named(low, high), named(high, low)]).collect()
}
