//! Strikes: K lines, which take a car out of the train, what becomes of its place and its number, and
//! trains that hold sixty (9 and 30).

mod again;
mod base;
mod full;
mod lines;
mod order;
mod partings;
mod refused;
mod struck;
mod totals;

use std::collections::HashMap;

use super::levels::four;
use super::rack::{events_on, CAR, TABLE};
use super::repeats;
use super::tenths::Named;
use super::Case;
use crate::car::Car;
use crate::sheet::Event::{self, Enter};

pub fn cases() -> Vec<Case> {
    [
        lines::cases(),
        order::cases(),
        struck::cases(),
        again::cases(),
        refused::cases(),
        full::cases(),
        totals::cases(),
        base::cases(),
        partings::cases(),
    ]
    .into_iter()
    .flatten()
    .collect()
}

/// The cases of sheets whose listings stand in a text, each behind its name.
fn named(sheets: Vec<Named>, listings: &str) -> Vec<Case> {
    let parts = listings.split("--\n").filter_map(|part| part.split_once('\n'));
    let listings: HashMap<&str, &str> = parts.collect();
    assert_eq!(listings.len(), sheets.len(), "a listing for each sheet and no other");
    let listing = |name: &str| *listings.get(name).expect(name);
    sheets.into_iter().map(|(name, sheet)| Case::new(name, sheet, listing(name))).collect()
}

/// The paper's car with a number, at a level in mm.
fn car(number: u32, level: u32) -> Event {
    Enter(Car { number, readings: [level, level, 0, 0], ..CAR })
}

/// A car that every grade takes.
fn of(number: u32, grade: u32, level: u32) -> Event {
    Enter(Car { number, ..super::totals::car(grade, level) })
}

/// A car whose type no table has (12).
fn wrong(number: u32) -> Event {
    Enter(Car { number, car_type: 2, ..CAR })
}

/// Cars refused by 12 to 21 and 23, each with its refusal for a number.
pub fn refused_cars() -> Vec<Car> {
    let apart = Car { number: 23, ..four(1500, 1504, 1502, 1600) };
    [repeats::refused(), vec![apart]].concat()
}

/// Cars and strikes on the paper's table.
fn on_rack(events: &[Event]) -> Vec<u8> {
    events_on(TABLE, events)
}

/// The paper's car once for each number.
fn alike(numbers: impl Iterator<Item = u32>) -> Vec<Event> {
    numbers.map(|number| Enter(Car { number, ..CAR })).collect()
}

/// A train that holds the numbers 1 to 60.
fn sixty() -> Vec<Event> {
    alike(1..=60)
}

/// The numbers struck, one after another.
fn strikes(numbers: impl Iterator<Item = u32>) -> Vec<Event> {
    numbers.map(Event::Strike).collect()
}

/// Sixty cars and then so much more.
fn sixty_and(more: &[Event]) -> Vec<u8> {
    on_rack(&[&sixty(), more].concat())
}
