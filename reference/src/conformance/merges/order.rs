//! Pairs with two faults or more, of which the first in the order is given.

use super::super::rack::events_on;
use super::super::text::change;
use super::{car, cars, sheet, table, Pair};
use crate::sheet::Event;

pub fn pairs() -> Vec<Pair> {
    [own(), merges(), types(), several()].into_iter().flatten().collect()
}

fn new(name: &str, first: Vec<u8>, second: Vec<u8>) -> Pair {
    Pair::new(format!("order-{name}"), first, second)
}

/// Tables of these types, and of type 2 with rows that differ from those of the other sheets.
fn with_other_rows(types: &[u32]) -> String {
    let other = table(2).replace("R 3000", "R 2999");
    types.iter().map(|&of| table(of)).chain([other]).collect()
}

/// A sheet of tables and cars that 9 refuses, by the number on its last line.
fn bad(types: &[u32], events: &[Event]) -> Vec<u8> {
    let sheet = sheet(types, events);
    let lines = sheet.iter().filter(|&&byte| byte == b'\n').count();
    let count = format!("{:>9}", events.len());
    change(&sheet, lines, count.as_bytes(), b"      119")
}

/// A sheet's own refusal comes before those of the merge.
fn own() -> Vec<Pair> {
    let rows = || events_on(&with_other_rows(&[1]), &cars([8]));
    vec![
        new("09-of-the-first-before-33", bad(&[1, 2], &cars([7])), rows()),
        new("09-of-the-second-before-33", rows(), bad(&[1, 2], &cars([7]))),
        new("09-of-the-first-before-33-by-12", bad(&[1], &[car(7, 2, 900)]), sheet(&[2], &[])),
        new("09-of-the-second-before-33-by-12", sheet(&[2], &[]), bad(&[1], &[car(7, 2, 900)])),
        new("09-of-the-first-before-34", bad(&[1], &cars([7])), sheet(&[1], &cars([7]))),
        new("09-of-the-second-before-34", sheet(&[1], &cars([7])), bad(&[1], &cars([7]))),
        new("09-of-the-first-before-35-by-types", bad(&[1, 2, 3], &[]), sheet(&[4, 5], &[])),
        new("09-of-the-second-before-35-by-types", sheet(&[4, 5], &[]), bad(&[1, 2, 3], &[])),
        new(
            "09-of-the-first-before-35-by-cars",
            bad(&[1], &cars(1..=31)),
            sheet(&[1], &cars(32..=61)),
        ),
        new(
            "09-of-the-second-before-35-by-cars",
            sheet(&[1], &cars(32..=61)),
            bad(&[1], &cars(1..=31)),
        ),
    ]
}

/// 33 by rows that differ before 34 and 35, then 34 before 35.
fn merges() -> Vec<Pair> {
    let of = |types: &[u32], events: &[Event]| events_on(&with_other_rows(types), events);
    vec![
        new("33-before-34-rows-that-differ", sheet(&[1, 2], &cars([7])), of(&[1], &cars([7]))),
        new(
            "33-before-35-rows-that-differ-and-five-types",
            sheet(&[1, 2, 3], &[]),
            of(&[5, 4], &[]),
        ),
        new(
            "33-before-35-rows-that-differ-and-61-cars",
            sheet(&[1, 2], &cars(1..=31)),
            of(&[1], &cars(32..=61)),
        ),
        new("34-before-35-by-types", sheet(&[1, 2, 3], &cars([7])), sheet(&[1, 4, 5], &cars([7]))),
        new("34-before-35-by-cars", sheet(&[1], &cars(1..=31)), sheet(&[1], &cars(31..=60))),
        new("34-before-35-by-more-cars", sheet(&[1], &cars(1..=60)), sheet(&[1], &cars(60..=119))),
    ]
}

/// 33 by a held car whose type only the other sheet has before 34 and 35.
fn types() -> Vec<Pair> {
    let unknown = |number| car(number, 2, 900);
    let known = || sheet(&[1, 2], &[unknown(7)]);
    let thirty_one = [cars(1..=30), vec![unknown(31)]].concat();
    vec![
        new(
            "33-before-34-unknown-type",
            sheet(&[1], &[car(7, 1, 900), unknown(8)]),
            sheet(&[1, 2], &cars([7])),
        ),
        new("33-before-34-by-the-same-car", sheet(&[1], &[unknown(7)]), known()),
        new("33-before-34-by-the-same-car-of-the-second", known(), sheet(&[1], &[unknown(7)])),
        new(
            "33-before-35-unknown-type-and-five-types",
            sheet(&[1, 3, 4], &[unknown(7)]),
            sheet(&[2, 5], &[]),
        ),
        new(
            "33-before-35-unknown-type-and-61-cars",
            sheet(&[1], &thirty_one),
            sheet(&[1, 2], &cars(32..=61)),
        ),
    ]
}

/// Three faults, and two of one number.
fn several() -> Vec<Pair> {
    vec![
        new(
            "33-before-34-and-35",
            sheet(&[1, 2, 3], &cars(1..=31)),
            events_on(&with_other_rows(&[1, 4, 5]), &cars(31..=61)),
        ),
        new(
            "34-before-35-by-types-and-by-cars",
            sheet(&[1, 2, 3], &cars(1..=31)),
            sheet(&[1, 4, 5], &cars(31..=61)),
        ),
        new(
            "33-twice-rows-that-differ-and-unknown-type",
            sheet(&[2, 3], &[car(7, 1, 900)]),
            events_on(&with_other_rows(&[1]), &cars([8])),
        ),
        new(
            "35-by-types-and-by-cars",
            sheet(&[1, 2, 3], &cars(1..=31)),
            sheet(&[1, 4, 5], &cars(32..=62)),
        ),
    ]
}
