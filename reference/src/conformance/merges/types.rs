//! Refusal 33 by a held car that 12 refuses and whose type is on the other sheet, and lines that vanish and
//! do not count for it.

use super::{car, cars, sheet, Pair};
use crate::sheet::Event::{self, Strike};

pub fn pairs() -> Vec<Pair> {
    [held(), places(), vanished()].into_iter().flatten().collect()
}

/// A car of type 2, which only the other sheet has.
fn unknown(number: u32) -> Event {
    car(number, 2, 900)
}

/// Cars and strikes on the first sheet, of type 1, or on the second; the other one has types 3 and 2.
fn on_first(name: &str, events: &[Event]) -> Pair {
    Pair::new(name, sheet(&[1], events), sheet(&[3, 2], &[car(50, 3, 1500)]))
}

fn on_second(name: &str, events: &[Event]) -> Pair {
    Pair::new(name, sheet(&[3, 2], &[car(50, 3, 1500)]), sheet(&[1], events))
}

fn held() -> Vec<Pair> {
    vec![
        on_first("refusal-33-unknown-type-on-the-first", &[unknown(7)]),
        on_second("refusal-33-unknown-type-on-the-second", &[unknown(7)]),
        Pair::new(
            "refusal-33-unknown-types-on-both",
            sheet(&[1], &[unknown(7)]),
            sheet(&[2], &cars([8])),
        ),
        Pair::new(
            "refusal-33-unknown-type-whose-table-no-car-uses",
            sheet(&[1], &[unknown(7)]),
            sheet(&[2], &[]),
        ),
        Pair::new(
            "refusal-33-unknown-type-the-lowest-of-four",
            sheet(&[9], &[car(7, 2, 900)]),
            sheet(&[5, 4, 2, 3], &[]),
        ),
        Pair::new(
            "refusal-33-unknown-type-the-highest-of-four",
            sheet(&[5, 4, 2, 8], &[]),
            sheet(&[1], &[car(7, 8, 900)]),
        ),
        Pair::new(
            "refusal-33-unknown-type-beside-a-table-in-common",
            sheet(&[1], &[unknown(7)]),
            sheet(&[1, 2], &cars([8])),
        ),
    ]
}

/// The car stands anywhere among others.
fn places() -> Vec<Pair> {
    let sixty: Vec<Event> = cars(1..=59).into_iter().chain([unknown(60)]).collect();
    let [known, other] = [8, 9].map(|number| car(number, 1, 1500));
    let elsewhere = car(8, 77, 900);
    vec![
        on_first("refusal-33-unknown-type-first-of-three", &[unknown(7), known, other]),
        on_second("refusal-33-unknown-type-last-of-three", &[known, other, unknown(7)]),
        Pair::new(
            "refusal-33-unknown-type-the-last-of-sixty",
            sheet(&[1], &sixty),
            sheet(&[2], &[]),
        ),
        on_first("refusal-33-first-of-two-unknown-types", &[unknown(7), elsewhere]),
        on_second("refusal-33-second-of-two-unknown-types", &[elsewhere, unknown(7)]),
        on_second("refusal-33-first-of-two-unknown-types-on-the-second", &[unknown(7), elsewhere]),
        on_first("refusal-33-unknown-type-entered-again", &[cars([7])[0], Strike(7), unknown(7)]),
        on_second("refusal-33-unknown-type-typed-twice", &[unknown(7), cars([7])[0]]),
        on_first(
            "refusal-33-unknown-type-beside-one-that-is-struck",
            &[unknown(7), unknown(8), Strike(7)],
        ),
    ]
}

/// The line of the unknown type vanishes, and the sheets are merged.
fn vanished() -> Vec<Pair> {
    let sixty: Vec<Event> = cars(1..=60).into_iter().chain([unknown(61)]).collect();
    let zero = car(0, 2, 900);
    vec![
        on_first("unknown-type-struck-on-the-first", &[unknown(7), cars([8])[0], Strike(7)]),
        on_second("unknown-type-struck-on-the-second", &[unknown(7), cars([8])[0], Strike(7)]),
        on_first(
            "unknown-type-entered-again-with-a-known-one",
            &[unknown(7), Strike(7), cars([7])[0]],
        ),
        on_second("unknown-type-of-a-number-typed-twice", &[cars([7])[0], unknown(7)]),
        on_first("unknown-type-of-an-unnumbered-car", &[zero, cars([7])[0]]),
        on_second("unknown-type-of-an-unnumbered-car-on-the-second", &[cars([7])[0], zero]),
        Pair::new(
            "unknown-type-of-a-car-met-while-sixty-are-held",
            sheet(&[1], &sixty),
            sheet(&[2], &[]),
        ),
        Pair::new(
            "unknown-type-of-a-car-met-while-sixty-are-held-on-the-second",
            sheet(&[2], &[]),
            sheet(&[1], &sixty),
        ),
    ]
}
