//! The cars of a merged sheet: rising by number, each by its line unchanged, refused ones too.

use super::super::rack::{self, events_on, CAR, TABLE};
use super::super::strikes::refused_cars;
use super::{car, cars, sheet, wrong, Pair};
use crate::car::Car;
use crate::sheet::Event::{self, Enter};

pub fn pairs() -> Vec<Pair> {
    [orders(), lines(), kinds(), refused(), only_refused()].into_iter().flatten().collect()
}

/// Cars of type 1 on both sheets.
fn of(name: &str, first: &[u32], second: &[u32]) -> Pair {
    let on = |numbers: &[u32]| sheet(&[1], &cars(numbers.iter().copied()));
    Pair::new(name, on(first), on(second))
}

fn orders() -> Vec<Pair> {
    vec![
        of("cars-that-rise-on-both", &[1, 2, 3], &[4, 5, 6]),
        of("cars-met-in-falling-order", &[9, 8, 7], &[6, 5, 4]),
        of("cars-of-the-second-before-the-first", &[4, 5, 6], &[1, 2, 3]),
        of("cars-interleaved", &[1, 3, 5, 7], &[2, 4, 6]),
        of("cars-interleaved-and-falling", &[7, 5, 3, 1], &[6, 4, 2]),
        of("cars-in-mixed-order", &[5, 50_000_001, 2, 70], &[60, 3, 50_000_000, 4, 1]),
        of("cars-one-on-each", &[50_000_002], &[50_000_001]),
        of("cars-on-the-first-only", &[3, 1, 2], &[]),
        of("cars-on-the-second-only", &[], &[3, 1, 2]),
        of("cars-by-number-and-not-as-text", &[9, 100, 99_999_999], &[10, 2, 1_000_000]),
        of("cars-smallest-and-largest-number", &[99_999_999], &[1]),
        of("cars-numbers-past-16-bits", &[65_537, 2, 131_073], &[65_536, 1, 3]),
        of("cars-numbers-past-24-bits", &[16_777_217, 33_554_433], &[16_777_216, 1]),
        of("cars-numbers-nearly-alike", &[50_000_001, 5_000_001], &[50_000_010, 40_000_001, 51]),
    ]
}

/// A car with four readings, none of whose other fields is the paper's.
const FOUR: Car = Car {
    given: 4,
    readings: [1500, 1504, 1501, 1502],
    water_level: 37,
    temperature: 415,
    density: 9_876,
    water: 7,
    impurities: 3,
    ..CAR
};

/// Every field of a line comes through.
fn lines() -> Vec<Pair> {
    let largest = Car::from([99_999_999; 14]);
    let zeros = Car { number: 5, ..Car::default() };
    let on = |cars: &[Car]| rack::cars_on(TABLE, cars);
    let paper = Car { number: 50_000_002, readings: [1500, 1501, 0, 0], water_level: 1501, ..CAR };
    vec![
        Pair::new(
            "paper-sheet-and-another-car",
            on(&[CAR, paper]),
            on(&[Car { number: 50_000_003, ..FOUR }]),
        ),
        Pair::new(
            "cars-with-four-readings-and-two",
            on(&[Car { number: 9, stick: 2, ..FOUR }]),
            on(&[Car { number: 8, ..CAR }, Car { number: 7, ..FOUR }]),
        ),
        Pair::new("cars-whose-fields-are-all-the-largest", on(&[largest]), on(&[CAR])),
        Pair::new("cars-whose-fields-are-all-0-but-the-number", on(&[CAR]), on(&[zeros])),
        Pair::new(
            "cars-alike-but-for-the-number",
            on(&[Car { number: 2, ..FOUR }]),
            on(&[Car { number: 1, ..FOUR }]),
        ),
    ]
}

/// Cars of several grades and types on each sheet.
fn kinds() -> Vec<Pair> {
    let grades = |from: u32| -> Vec<Event> {
        let of = |grade| Enter(Car { number: from - 2 * grade, grade, water: grade, ..CAR });
        (1..=4).map(of).collect()
    };
    vec![
        Pair::new(
            "cars-of-all-grades",
            events_on(TABLE, &grades(20)),
            events_on(TABLE, &grades(19)),
        ),
        Pair::new(
            "cars-of-two-types-on-each-sheet",
            sheet(&[2, 1], &[car(4, 1, 1500), car(2, 2, 900)]),
            sheet(&[1, 2], &[car(3, 2, 1500), car(1, 1, 900)]),
        ),
    ]
}

/// Cars that 12 to 21 and 23 refuse stay, beside accepted ones.
fn refused() -> Vec<Pair> {
    let all: Vec<Event> = refused_cars()
        .into_iter()
        .map(|refused| Enter(Car { number: 10 * refused.number, ..refused }))
        .collect();
    let on = |events: &[Event]| events_on(TABLE, events);
    let turned: Vec<Event> = all.iter().rev().copied().collect();
    let each = refused_cars().into_iter().map(|refused| {
        let name = format!("cars-refused-by-{}", refused.number);
        let number = 10 * refused.number;
        Pair::new(name, on(&cars([number + 1])), on(&[Enter(Car { number, ..refused })]))
    });
    let sound: Vec<Event> = cars((0..14).map(|place| 235 - 10 * place));
    [
        Pair::new("cars-refused-by-12-to-23-on-the-first", on(&all), on(&sound)),
        Pair::new("cars-refused-by-12-to-23-on-the-second", on(&sound), on(&turned)),
        Pair::new("cars-refused-between-accepted", on(&[wrong(4), wrong(2)]), on(&cars([3, 1, 5]))),
    ]
    .into_iter()
    .chain(each)
    .collect()
}

fn only_refused() -> Vec<Pair> {
    let on = |events: &[Event]| events_on(TABLE, events);
    let unknown = |number: u32, car_type: u32| car(number, car_type, 1500);
    vec![
        Pair::new("cars-all-refused-on-both", on(&[wrong(2), wrong(1)]), on(&[wrong(3)])),
        Pair::new(
            "cars-of-a-type-on-neither-sheet",
            on(&[unknown(2, 77), unknown(3, 78)]),
            on(&[unknown(1, 77)]),
        ),
        Pair::new(
            "cars-of-types-that-no-table-can-have",
            on(&[unknown(2, 0), unknown(4, 10_000)]),
            on(&[unknown(1, 99_999_999), unknown(3, 65_537)]),
        ),
        Pair::new(
            "cars-of-types-beside-those-of-the-other",
            sheet(&[5], &[unknown(1, 6), unknown(2, 8), unknown(3, 263)]),
            sheet(&[7], &[unknown(4, 4), unknown(6, 6)]),
        ),
    ]
}
