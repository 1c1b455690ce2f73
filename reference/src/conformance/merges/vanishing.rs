//! Lines that vanish: struck ones, those that 9, 10 and 11 turn away, and K lines.

use super::{car, cars, sheet, wrong, Pair};
use crate::sheet::Event::{self, Strike};

pub fn pairs() -> Vec<Pair> {
    [struck(), again(), twice(), unnumbered(), full(), other_sheet()]
        .into_iter()
        .flatten()
        .collect()
}

/// Cars and strikes on type 1, beside a sheet with cars 50 and 5.
fn first(name: &str, events: &[Event]) -> Pair {
    Pair::new(name, sheet(&[1], events), sheet(&[1], &cars([50, 5])))
}

fn second(name: &str, events: &[Event]) -> Pair {
    Pair::new(name, sheet(&[1], &cars([50, 5])), sheet(&[1], events))
}

fn at(number: u32, level: u32) -> Event {
    car(number, 1, level)
}

fn struck() -> Vec<Pair> {
    let three = [at(7, 1500), at(8, 900), at(9, 600)];
    let and = |more: &[Event]| [&three, more].concat();
    vec![
        first("struck-first-of-three", &and(&[Strike(7)])),
        first("struck-middle-of-three", &and(&[Strike(8)])),
        second("struck-last-of-three", &and(&[Strike(9)])),
        second("struck-all-of-three", &and(&[Strike(8), Strike(7), Strike(9)])),
        first("struck-refused-car", &[at(7, 1500), wrong(8), Strike(8)]),
        first("struck-number-not-held", &and(&[Strike(10), Strike(0), Strike(50)])),
        second("struck-before-the-car-comes", &[Strike(7), at(7, 1500)]),
        first("struck-twice", &and(&[Strike(8), Strike(8)])),
        Pair::new(
            "struck-on-both",
            sheet(&[1], &and(&[Strike(8)])),
            sheet(&[1], &[at(6, 1500), at(4, 900), Strike(6)]),
        ),
        Pair::new(
            "struck-all-on-both",
            sheet(&[1], &[at(7, 1500), Strike(7)]),
            sheet(&[2], &[wrong(8), Strike(8)]),
        ),
    ]
}

/// A number struck and entered again stays by its later line.
fn again() -> Vec<Pair> {
    vec![
        first(
            "entered-again-with-another-level",
            &[at(7, 1500), at(8, 900), Strike(7), at(7, 600)],
        ),
        second("entered-again-on-the-second", &[at(7, 1500), Strike(7), at(7, 600), at(3, 900)]),
        first(
            "entered-again-three-times",
            &[at(7, 100), Strike(7), at(7, 200), Strike(7), wrong(7), Strike(7), at(7, 300)],
        ),
        first("entered-again-wrong-then-right", &[wrong(7), at(8, 900), Strike(7), at(7, 1500)]),
        second("entered-again-right-then-wrong", &[at(7, 1500), at(8, 900), Strike(7), wrong(7)]),
        first("entered-again-and-struck-again", &[at(7, 1500), Strike(7), at(7, 600), Strike(7)]),
        first("entered-again-as-it-was", &[at(7, 1500), at(8, 900), Strike(7), at(7, 1500)]),
    ]
}

/// A number typed a second time does not alter the held car.
fn twice() -> Vec<Pair> {
    vec![
        first("typed-twice-with-another-level", &[at(7, 1500), at(8, 900), at(7, 600)]),
        second("typed-twice-on-the-second", &[at(7, 1500), at(7, 600), at(3, 900)]),
        first("typed-twice-the-second-wrong", &[at(7, 1500), wrong(7)]),
        first("typed-twice-the-first-wrong", &[wrong(7), at(7, 1500)]),
        first("typed-five-times", &[at(7, 100), at(7, 200), wrong(7), at(7, 300), at(7, 400)]),
        first("typed-twice-and-struck", &[at(7, 1500), at(8, 900), at(7, 600), Strike(7)]),
        second(
            "typed-twice-struck-and-typed-twice-again",
            &[at(7, 100), at(7, 200), Strike(7), at(7, 300), at(7, 400)],
        ),
    ]
}

fn unnumbered() -> Vec<Pair> {
    vec![
        first("unnumbered-car", &[at(0, 1500), at(7, 900)]),
        second("unnumbered-cars-only", &[at(0, 1500), at(0, 900)]),
        Pair::new(
            "unnumbered-cars-on-both",
            sheet(&[1], &[at(7, 900), at(0, 1500)]),
            sheet(&[1], &[at(0, 1500), at(6, 900)]),
        ),
        first("unnumbered-car-struck", &[at(0, 1500), Strike(0), at(7, 900)]),
    ]
}

/// Cars met while sixty are held.
fn full() -> Vec<Pair> {
    let sixty = |more: &[Event]| sheet(&[1], &[&cars((1..=60).rev())[..], more].concat());
    let none = || sheet(&[1], &[]);
    let few: Vec<Event> = (1..=45).map(Strike).collect();
    vec![
        Pair::new("full-train-sixty-first-car-turned-away", sixty(&cars([61, 62])), none()),
        Pair::new(
            "full-train-sixty-first-car-turned-away-on-the-second",
            none(),
            sixty(&[at(100, 900)]),
        ),
        Pair::new(
            "full-train-sixty-first-car-comes-again-after-a-strike",
            sixty(&[at(61, 900), Strike(30), at(61, 600)]),
            none(),
        ),
        Pair::new(
            "full-train-sixty-held-in-between",
            sixty(&[&[at(61, 900)][..], &few].concat()),
            sheet(&[1], &cars([61, 7])),
        ),
        Pair::new(
            "full-train-sixty-held-and-a-number-typed-twice",
            none(),
            sixty(&[at(60, 900), at(0, 600)]),
        ),
        Pair::new(
            "full-train-sixty-struck-and-entered-again",
            sixty(&[(1..=60).map(Strike).collect(), cars(31..=60)].concat()),
            sheet(&[1], &cars(1..=30)),
        ),
    ]
}

/// Numbers that one sheet holds no more, or never held, and the other holds.
fn other_sheet() -> Vec<Pair> {
    let sixty = |more: &[Event]| sheet(&[1], &[&cars(101..=160)[..], more].concat());
    let spare: Vec<Event> = (101..=110).map(Strike).collect();
    vec![
        Pair::new(
            "struck-on-the-first-and-held-on-the-second",
            sheet(&[1], &[at(7, 1500), at(8, 900), Strike(7)]),
            sheet(&[1], &[at(7, 600)]),
        ),
        Pair::new(
            "struck-on-the-second-and-held-on-the-first",
            sheet(&[1], &[at(7, 600), at(3, 300)]),
            sheet(&[1], &[at(7, 1500), at(8, 900), Strike(7)]),
        ),
        Pair::new(
            "struck-refused-car-held-on-the-second",
            sheet(&[1], &[wrong(7), Strike(7)]),
            sheet(&[1], &[at(7, 600)]),
        ),
        Pair::new(
            "struck-where-only-the-other-sheet-holds-it",
            sheet(&[1], &[Strike(7), at(8, 900)]),
            sheet(&[1], &[at(7, 600), Strike(8)]),
        ),
        Pair::new(
            "turned-away-by-9-on-the-first-and-held-on-the-second",
            sixty(&[&[at(7, 900)][..], &spare].concat()),
            sheet(&[1], &[at(7, 600), at(105, 600)]),
        ),
        Pair::new(
            "turned-away-by-9-on-the-second-and-held-on-the-first",
            sheet(&[1], &[at(7, 600), at(105, 600)]),
            sixty(&[&[at(7, 900)][..], &spare].concat()),
        ),
    ]
}
