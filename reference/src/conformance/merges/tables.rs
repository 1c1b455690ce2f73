//! The tables of a merged sheet: each type of either sheet once, rising, used or not.

use super::super::rack::events_on;
use super::super::text::columns;
use super::{car, cars, sheet, table, Pair};

pub fn pairs() -> Vec<Pair> {
    [orders(), common(), unused(), odd()].into_iter().flatten().collect()
}

/// A pair of sheets with these types, and a car of each sheet's first type.
fn of(name: &str, first: &[u32], second: &[u32]) -> Pair {
    let one = sheet(first, &[car(11, first[0], 1500)]);
    Pair::new(name, one, sheet(second, &[car(12, second[0], 900)]))
}

fn orders() -> Vec<Pair> {
    vec![
        of("tables-of-two-types", &[1], &[2]),
        of("tables-of-two-types-the-second-lower", &[2], &[1]),
        of("tables-that-rise-on-both", &[1, 2], &[3, 4]),
        of("tables-met-in-falling-order", &[9, 7], &[5, 3]),
        of("tables-that-fall-on-the-first", &[3, 2, 1], &[4]),
        of("tables-that-fall-on-the-second", &[1], &[4, 3, 2]),
        of("tables-interleaved", &[1, 3], &[2, 4]),
        of("tables-interleaved-and-falling", &[4, 2], &[3, 1]),
        of("tables-by-number-and-not-as-text", &[10, 9999], &[2, 100]),
        of("tables-of-types-1-and-9999", &[9999], &[1]),
    ]
}

fn common() -> Vec<Pair> {
    vec![
        of("tables-one-and-the-same", &[1], &[1]),
        of("tables-one-in-common", &[1, 2], &[2, 3]),
        of("tables-one-in-common-and-falling", &[3, 2], &[2, 1]),
        of("tables-first-one-in-common", &[1, 4], &[1, 3]),
        of("tables-last-one-in-common", &[5, 2], &[5, 3]),
        of("tables-two-in-common", &[6, 4, 2], &[2, 6, 9]),
        of("tables-four-in-common", &[1, 2, 3, 4], &[1, 2, 3, 4]),
        of("tables-four-in-common-in-another-order", &[1, 2, 3, 4], &[4, 3, 2, 1]),
        of("tables-four-in-common-in-mixed-order", &[3, 1, 4, 2], &[2, 4, 3, 1]),
        of("tables-all-of-the-second-on-the-first", &[8, 3, 5], &[5]),
        of("tables-all-of-the-first-on-the-second", &[5], &[8, 3, 5]),
    ]
}

/// Tables whose type no car has.
fn unused() -> Vec<Pair> {
    let none = |name: &str, first: &[u32], second: &[u32]| {
        Pair::new(name, sheet(first, &[]), sheet(second, &[]))
    };
    vec![
        none("tables-and-no-cars", &[2], &[1]),
        none("tables-in-common-and-no-cars", &[2, 1], &[1, 3]),
        Pair::new(
            "tables-that-no-car-uses-on-the-first",
            sheet(&[3, 1, 2], &cars([11])),
            sheet(&[1], &cars([12])),
        ),
        Pair::new(
            "tables-that-no-car-uses-on-the-second",
            sheet(&[1], &cars([11])),
            sheet(&[3, 1, 2], &cars([12])),
        ),
        Pair::new(
            "tables-that-only-the-other-sheet-uses",
            sheet(&[2, 1], &cars([11])),
            sheet(&[2, 1], &[car(12, 2, 900)]),
        ),
        Pair::new(
            "tables-whose-cars-are-struck",
            sheet(&[2], &[car(11, 2, 900), super::Event::Strike(11)]),
            sheet(&[1], &cars([12])),
        ),
    ]
}

/// The smallest table, a long one, and types and rows that are alike.
fn odd() -> Vec<Pair> {
    let smallest = columns("T 1 2\nR 0 0\nR 1 1\nE 0");
    let rows = "4\nR 0 0\nR 1000 20000\nR 2000 50000\nR 3000 70000";
    let long: String = (0..400).map(|row| format!("R {} {}\n", 9 * row, 500 * row)).collect();
    let long = format!("T 7 400\n{long}");
    vec![
        Pair::new("tables-smallest-sheets", smallest.clone(), smallest),
        Pair::new(
            "tables-with-the-same-rows-for-two-types",
            events_on(&format!("T 2 {rows}"), &[car(11, 2, 1500)]),
            events_on(&format!("T 1 {rows}"), &cars([12])),
        ),
        Pair::new(
            "tables-of-types-alike-in-8-bits",
            sheet(&[257, 2], &[car(11, 257, 1500)]),
            sheet(&[1, 258], &cars([12])),
        ),
        Pair::new(
            "tables-of-2-and-of-400-rows",
            events_on(&long, &[car(11, 7, 1500)]),
            events_on("T 3 2\nR 0 0\nR 3600 200000", &[car(12, 3, 1500)]),
        ),
        Pair::new(
            "tables-the-longest-with-the-lowest-type",
            events_on("T 9 2\nR 0 0\nR 3600 200000", &[car(11, 9, 1500)]),
            events_on(&format!("{}{long}", table(8)), &[car(12, 8, 1500)]),
        ),
        Pair::new(
            "tables-of-400-rows-in-common",
            events_on(&format!("{long}{}", table(1)), &[car(11, 7, 1500)]),
            events_on(&format!("{}{long}", table(2)), &[car(12, 7, 3591)]),
        ),
    ]
}
