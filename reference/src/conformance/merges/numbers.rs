//! Refusal 34 by a number that both sheets hold, and numbers that are only nearly alike.

use super::{car, cars, sheet, wrong, Pair};
use crate::sheet::Event::{self, Strike};

pub fn pairs() -> Vec<Pair> {
    [both(), places(), nearly()].into_iter().flatten().collect()
}

fn of(name: &str, first: &[Event], second: &[Event]) -> Pair {
    Pair::new(name, sheet(&[1], first), sheet(&[1], second))
}

fn at(number: u32, level: u32) -> Event {
    car(number, 1, level)
}

fn both() -> Vec<Pair> {
    let unknown = |number| car(number, 77, 900);
    vec![
        of("refusal-34-accepted-on-both", &[at(7, 1500)], &[at(7, 900)]),
        of("refusal-34-by-the-same-line", &[at(7, 1500)], &[at(7, 1500)]),
        of("refusal-34-refused-on-the-first", &[wrong(7)], &[at(7, 1500)]),
        of("refusal-34-refused-on-the-second", &[at(7, 1500)], &[wrong(7)]),
        of("refusal-34-refused-on-both", &[wrong(7)], &[wrong(7)]),
        of("refusal-34-refused-by-12-on-both", &[unknown(7)], &[unknown(7)]),
        of("refusal-34-refused-by-12-and-by-17", &[unknown(7)], &[wrong(7)]),
        of("refusal-34-refused-by-12-on-the-first", &[unknown(7)], &[at(7, 900)]),
        of("refusal-34-refused-by-12-on-the-second", &[at(7, 900)], &[unknown(7)]),
        of(
            "refusal-34-entered-again-on-the-first",
            &[at(7, 1500), Strike(7), at(7, 900)],
            &[at(7, 600)],
        ),
        of(
            "refusal-34-entered-again-on-the-second",
            &[at(7, 600)],
            &[at(7, 1500), Strike(7), at(7, 900)],
        ),
        of("refusal-34-typed-twice-on-the-first", &[at(7, 1500), at(7, 900)], &[at(7, 600)]),
        of(
            "refusal-34-beside-a-number-struck-on-the-second",
            &[at(7, 1500), at(8, 900)],
            &[at(8, 600), Strike(8), at(7, 600)],
        ),
        Pair::new(
            "refusal-34-of-two-types",
            sheet(&[1], &[at(7, 1500)]),
            sheet(&[2], &[car(7, 2, 900)]),
        ),
    ]
}

/// The number stands anywhere among those held.
fn places() -> Vec<Pair> {
    let five = cars([10, 20, 30, 40, 50]);
    let beside = |number: u32| cars([15, number, 45]);
    vec![
        of("refusal-34-first-of-five", &five, &beside(10)),
        of("refusal-34-middle-of-five", &five, &beside(30)),
        of("refusal-34-last-of-five", &five, &beside(50)),
        of("refusal-34-first-of-the-second", &five, &cars([20, 45, 55])),
        of("refusal-34-last-of-the-second", &five, &cars([45, 55, 20])),
        of("refusal-34-all-of-five", &five, &five),
        of("refusal-34-number-1", &cars([1, 2]), &cars([3, 1])),
        of("refusal-34-number-99999999", &cars([1, 99_999_999]), &cars([99_999_999, 2])),
        of("refusal-34-last-of-thirty", &cars(1..=30), &cars((30..=59).rev())),
    ]
}

/// Numbers that differ, and agree in some bits or digits.
fn nearly() -> Vec<Pair> {
    vec![
        of("numbers-alike-in-8-bits", &cars([7]), &cars([263])),
        of("numbers-alike-in-16-bits", &cars([7, 65_536]), &cars([65_543, 131_072])),
        of("numbers-alike-in-24-bits", &cars([50_331_655]), &cars([7, 16_777_223])),
        of("numbers-alike-in-seven-digits", &cars([50_000_007]), &cars([40_000_007, 7])),
        of("numbers-that-differ-by-one", &cars([50_000_001, 50_000_003]), &cars([50_000_002])),
        of("numbers-alike-in-single-floating-point", &cars([99_999_998]), &cars([99_999_999])),
    ]
}
