//! Refusal 35 by more than four types or sixty cars, and sheets with exactly so many.

use super::super::rack::{events_on, CAR};
use super::super::sizes::full_tables;
use super::{car, cars, sheet, wrong, Pair};
use crate::car::Car;
use crate::sheet::Event::{self, Enter, Strike};

pub fn pairs() -> Vec<Pair> {
    [types(), counts(), passing(), longest()].into_iter().flatten().collect()
}

fn types() -> Vec<Pair> {
    let none = |name: &str, first: &[u32], second: &[u32]| {
        Pair::new(name, sheet(first, &[]), sheet(second, &[]))
    };
    vec![
        none("refusal-35-four-types-and-one", &[1, 2, 3, 4], &[5]),
        none("refusal-35-one-type-and-four", &[5], &[1, 2, 3, 4]),
        none("refusal-35-three-types-and-two", &[1, 2, 5], &[4, 3]),
        none("refusal-35-two-types-and-three", &[1, 2], &[3, 4, 5]),
        none("refusal-35-four-types-and-four", &[1, 2, 3, 4], &[5, 6, 7, 8]),
        none("refusal-35-four-types-and-two-with-one-in-common", &[1, 2, 3, 4], &[4, 5]),
        none("refusal-35-four-types-and-four-with-three-in-common", &[4, 3, 2, 1], &[5, 2, 3, 4]),
        Pair::new(
            "refusal-35-five-types-of-which-cars-use-two",
            sheet(&[1, 2, 3], &cars([7])),
            sheet(&[4, 5], &[car(8, 4, 900)]),
        ),
        Pair::new(
            "size-four-types-and-cars-of-two-others",
            sheet(&[2, 1], &[car(5, 2, 900), car(7, 77, 900), car(8, 1, 900)]),
            sheet(&[4, 3], &[car(4, 4, 900), car(9, 78, 900), car(6, 3, 900)]),
        ),
        none("size-four-types-of-four-and-one", &[2, 1, 4, 3], &[3]),
        none("size-four-types-of-one-and-four", &[4], &[4, 1, 3, 2]),
        none("size-four-types-of-three-and-three", &[1, 2, 3], &[4, 3, 2]),
        none("size-four-types-of-one-and-three", &[3], &[1, 2, 4]),
    ]
}

fn of(name: &str, first: &[Event], second: &[Event]) -> Pair {
    Pair::new(name, sheet(&[1], first), sheet(&[1], second))
}

fn counts() -> Vec<Pair> {
    let refused: Vec<Event> = (31..=61).map(wrong).collect();
    let typed_twice = [cars(32..=61), cars([32])].concat();
    vec![
        of("refusal-35-sixty-cars-and-one", &cars(1..=60), &cars([61])),
        of("refusal-35-one-car-and-sixty", &cars([61]), &cars(1..=60)),
        of("refusal-35-thirty-one-cars-and-thirty", &cars(1..=31), &cars(32..=61)),
        of("refusal-35-thirty-cars-and-thirty-one", &cars(32..=61), &cars(1..=31)),
        of("refusal-35-sixty-cars-and-sixty", &cars(1..=60), &cars(61..=120)),
        of("refusal-35-thirty-cars-and-thirty-one-refused", &cars(1..=30), &refused),
        of(
            "refusal-35-sixty-refused-cars-and-one",
            &(1..=60).map(wrong).collect::<Vec<_>>(),
            &cars([61]),
        ),
        of("refusal-35-sixty-one-beside-a-line-that-vanishes", &cars(1..=31), &typed_twice),
        Pair::new(
            "refusal-35-sixty-one-cars-of-two-types",
            sheet(&[1], &cars(1..=31)),
            sheet(&[2], &(32..=61).map(|number| car(number, 2, 900)).collect::<Vec<_>>()),
        ),
    ]
}

fn passing() -> Vec<Pair> {
    let refused: Vec<Event> = (31..=60).map(wrong).collect();
    let one_struck = [cars(31..=61), vec![Strike(45)]].concat();
    let typed_twice = [cars(31..=60), cars([31]), cars([0])].concat();
    vec![
        of("size-sixty-cars-and-none", &cars((1..=60).rev()), &[]),
        of("size-no-cars-and-sixty", &[], &cars((1..=60).rev())),
        of("size-thirty-cars-and-thirty", &cars(31..=60), &cars(1..=30)),
        of("size-fifty-nine-cars-and-one", &cars((2..=60).rev()), &cars([1])),
        of("size-thirty-cars-and-thirty-refused", &cars(1..=30), &refused),
        of("size-sixty-one-cars-of-which-one-is-struck", &cars(1..=30), &one_struck),
        of("size-sixty-two-lines-of-which-two-vanish", &cars(1..=30), &typed_twice),
        of(
            "size-thirty-cars-and-thirty-interleaved",
            &cars((1..=30).map(|place| 2 * place)),
            &cars((1..=30).map(|place| 61 - 2 * place)),
        ),
    ]
}

/// Sixty numbers dealt out to two sheets: those that leave so much over where they are divided by 2.
fn dealt(rest: u32) -> impl Iterator<Item = u32> + Clone {
    (1..=60).map(|place| place * 37 % 61).filter(move |number| number % 2 == rest)
}

/// Merged sheets of the greatest length.
fn longest() -> Vec<Pair> {
    let mixed = |number: u32| Enter(Car { number, car_type: 1 + number % 4, ..CAR });
    let thirty = |rest: u32| -> Vec<Event> { dealt(rest).map(mixed).collect() };
    // Ninety cars come, sixty of them are struck, and thirty lines are turned away by 11.
    let rounds = |rest: u32| -> Vec<Event> {
        let level = |number, level| {
            let readings = [level, level, 0, 0];
            Enter(Car { number, car_type: 1 + number % 4, readings, ..CAR })
        };
        let first = dealt(rest).flat_map(move |number| [level(number, 100), level(number, 200)]);
        let again = |at| dealt(rest).flat_map(move |number| [Strike(number), level(number, at)]);
        first.chain(again(300)).chain(again(400)).collect()
    };
    let tables = full_tables();
    let turned: String = {
        let mut parts: Vec<&str> = tables.split_inclusive("199500\n").collect();
        parts.rotate_left(1);
        parts.reverse();
        parts.concat()
    };
    vec![
        Pair::new(
            "longest-merged-sheet-39771-bytes",
            events_on(&tables, &thirty(0)),
            events_on(&turned, &thirty(1)),
        ),
        Pair::new(
            "longest-sheets-48111-bytes-each",
            events_on(&turned, &rounds(1)),
            events_on(&tables, &rounds(0)),
        ),
    ]
}
