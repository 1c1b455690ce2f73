//! Numbers of readings, readings and stick levels at the ends of their ranges, out of them, and both
//! refusals at once.

use super::{apart, around, but, Group, Vector, LEVEL, STICK};
use crate::stick::TAPE_READINGS;

pub fn groups() -> Vec<Group<Vector>> {
    vec![
        Group {
            about: "The ends of the ranges, and of every metre of the stick level",
            vectors: ends(),
        },
        Group {
            about: "A metre begun by tenths of the stick level, with every number of readings",
            vectors: (10..=20).flat_map(metres_begun).collect(),
        },
        Group { about: "28: numbers of readings outside 10 to 20", vectors: of_28() },
        Group { about: "29: stick levels outside 10 to 36000", vectors: of_29_by_the_stick() },
        Group { about: "29: readings outside 1 to 3600", vectors: of_29_by_a_reading() },
        Group { about: "28 before 29", vectors: order() },
    ]
}

/// Readings out of range, and what they are called: also those that are in range where bits are cut off.
const READINGS_OUTSIDE: [(&str, u32); 9] = [
    ("0", 0),
    ("3601", 3_601),
    ("4001", 4_001),
    ("in-tenths", 10 * LEVEL),
    ("in-16-bits", (1 << 16) + LEVEL),
    ("2147483648", 1 << 31),
    ("in-31-bits", (1 << 31) + LEVEL),
    ("that-is-negative-in-32-bits", u32::MAX - (LEVEL - 1)),
    ("4294967295", u32::MAX),
];

/// The same of stick levels, which have 64 bits.
const STICKS_OUTSIDE: [(&str, u64); 18] = [
    ("0", 0),
    ("1", 1),
    ("9", 9),
    ("36001", 36_001),
    ("36009", 36_009),
    ("36010", 36_010),
    ("40001", 40_001),
    ("in-hundredths", 10 * STICK),
    ("in-16-bits", (1 << 16) + STICK),
    ("2147483648", 1 << 31),
    ("in-31-bits", (1 << 31) + STICK),
    ("that-is-negative-in-32-bits", (1 << 32) - STICK),
    ("4294967295", (1 << 32) - 1),
    ("in-32-bits", (1 << 32) + STICK),
    ("in-48-bits", (1 << 48) + STICK),
    ("in-63-bits", (1 << 63) + STICK),
    ("that-is-negative-in-64-bits", u64::MAX - (STICK - 1)),
    ("18446744073709551615", u64::MAX),
];

/// A number of readings with sound ones in all places.
fn counting(name: String, count: u32) -> Vector {
    Vector { count, ..Vector::new(name, STICK, &[LEVEL; TAPE_READINGS]) }
}

fn ends() -> Vec<Vector> {
    let stick =
        |level| Vector::new(format!("accepted-stick-{level}"), level, &around(level, 10, 0));
    let reading = |(name, reading, place): (&str, u32, usize)| {
        but(format!("accepted-{name}-reading-{reading}"), 10, place, reading)
    };
    let sticks = [
        10, 11, 20, 9_999, 10_000, 10_001, 10_010, 19_999, 20_000, 20_001, 29_999, 30_000, 30_001,
        35_990, 35_999, 36_000,
    ]
    .map(stick);
    let readings =
        [("first", 1, 1), ("last", 1, 10), ("first", 3_600, 1), ("last", 3_600, 10)].map(reading);
    let counts = [10, 20].map(|count| apart(format!("accepted-{count}-readings"), count, 70));
    sticks.into_iter().chain(readings).chain(counts).collect()
}

fn metres_begun(count: u32) -> [Vector; 3] {
    [10_001, 20_004, 30_005].map(|stick| {
        let given = around(stick, count, 0);
        Vector::new(format!("accepted-stick-{stick}-with-{count}"), stick, &given)
    })
}

fn of_28() -> Vec<Vector> {
    [
        ("0", 0),
        ("1", 1),
        ("2", 2),
        ("4", 4),
        ("9", 9),
        ("21", 21),
        ("22", 22),
        ("100", 100),
        ("in-8-bits", (1 << 8) + 10),
        ("in-16-bits", (1 << 16) + 10),
        ("2147483648", 1 << 31),
        ("in-31-bits", (1 << 31) + 10),
        ("that-is-negative-in-32-bits", u32::MAX - 9),
        ("4294967295", u32::MAX),
    ]
    .map(|(name, count)| counting(format!("refusal-28-number-{name}"), count))
    .into_iter()
    .chain([0, u32::MAX].map(|unused| {
        apart(format!("refusal-28-number-9-unused-{unused}"), 9, 0).with_unused(unused)
    }))
    .collect()
}

fn of_29_by_the_stick() -> Vec<Vector> {
    let of =
        |name: &str, stick| Vector::new(format!("refusal-29-stick-{name}"), stick, &[LEVEL; 10]);
    // 16 times as much is in 64 bits what it is for 15000.
    let times_16 =
        Vector::new("refusal-29-stick-times-16-in-64-bits", (1 << 60) + STICK, &[LEVEL; 16]);
    let unused = of("0-unused-4294967295", 0).with_unused(u32::MAX);
    let plain = STICKS_OUTSIDE.map(|(name, stick)| of(name, stick));
    plain.into_iter().chain([times_16, unused]).collect()
}

fn of_29_by_a_reading() -> Vec<Vector> {
    let of = |(name, reading)| but(format!("refusal-29-reading-{name}"), 16, 8, reading);
    let summed = Vector::new(
        "refusal-29-readings-whose-sum-is-right-in-32-bits",
        STICK,
        &[[LEVEL; 9].as_slice(), &[(1 << 31) + LEVEL; 2]].concat(),
    );
    READINGS_OUTSIDE.map(of).into_iter().chain([summed]).collect()
}

/// Both faults. A place that is tested in spite of a number of readings out of range is among the
/// first so many, or among all 20 where there are no more.
fn order() -> Vec<Vector> {
    let named = |rest: &str, stick, count, place: usize, reading| {
        let mut vector = counting(format!("order-28-before-29-{rest}"), count);
        vector.readings[place - 1] = reading;
        Vector { stick, ..vector }
    };
    let mut everywhere = named("largest-numbers-everywhere", u64::MAX, u32::MAX, 1, u32::MAX);
    everywhere.readings.fill(u32::MAX);
    vec![
        named("9-readings-and-stick-0", 0, 9, 1, LEVEL),
        named("9-readings-and-stick-9", 9, 9, 1, LEVEL),
        named("9-readings-and-first-0", STICK, 9, 1, 0),
        named("9-readings-and-last-3601", STICK, 9, 9, 3_601),
        named("21-readings-and-stick-36001", 36_001, 21, 1, LEVEL),
        named("21-readings-and-first-4294967295", STICK, 21, 1, u32::MAX),
        named("21-readings-and-last-0", STICK, 21, 20, 0),
        named("0-readings-and-stick-0", 0, 0, 1, 0),
        named("0-readings-and-stick-18446744073709551615", u64::MAX, 0, 1, u32::MAX),
        named("4294967295-readings-and-stick-0", 0, u32::MAX, 1, LEVEL),
        named("4294967295-readings-and-first-0", STICK, u32::MAX, 1, 0),
        everywhere,
    ]
}
