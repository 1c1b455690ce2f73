//! Numbers that are used again once their car is struck, and numbers typed twice, which do not alter
//! the held car.

use super::super::rack::{events_on, TABLE};
use super::super::tenths::Named;
use super::super::Case;
use super::{car, named, of, on_rack, strikes, wrong};
use crate::car::Car;
use crate::sheet::Event::{self, Enter, Strike};

pub fn cases() -> Vec<Case> {
    let sheets = [entered_again(), typed_twice(), rounds(), others()].concat();
    named(sheets, include_str!("again.txt"))
}

/// The number of a struck car is free.
fn entered_again() -> Vec<Named> {
    let two_tables = format!("{TABLE}\nT 2 2\nR 0 0\nR 3000 60000");
    let on_second = |number| Enter(Car { number, car_type: 2, ..super::CAR });
    vec![
        ("strike-and-enter-again-as-it-was", on_rack(&[car(7, 1500), Strike(7), car(7, 1500)])),
        (
            "strike-and-enter-again-with-other-masses",
            on_rack(&[car(7, 1500), car(8, 1100), Strike(7), car(7, 2600)]),
        ),
        (
            "strike-and-enter-again-in-another-grade",
            on_rack(&[of(7, 1, 1500), of(8, 2, 1100), Strike(7), of(7, 4, 2600)]),
        ),
        (
            "strike-and-enter-again-on-another-table",
            events_on(&two_tables, &[car(7, 1500), Strike(7), on_second(7), car(8, 900)]),
        ),
        (
            "strike-typed-wrong-then-right",
            on_rack(&[wrong(7), car(8, 900), Strike(7), car(7, 1500)]),
        ),
        (
            "strike-typed-right-then-wrong",
            on_rack(&[car(7, 1500), car(8, 900), Strike(7), wrong(7)]),
        ),
        (
            "strike-and-type-twice-behind-it",
            on_rack(&[car(7, 1500), Strike(7), car(7, 1200), car(7, 1800), wrong(7)]),
        ),
        (
            "strike-typed-wrong-twice",
            on_rack(&[wrong(7), Strike(7), wrong(7), car(7, 1500), Strike(7), car(7, 1400)]),
        ),
        (
            "strike-and-enter-another-number",
            on_rack(&[car(7, 1500), Strike(7), car(8, 1200), car(8, 900), Strike(8), car(9, 700)]),
        ),
    ]
}

/// A number typed a second time is turned away by 11, and the held car stays as it was.
fn typed_twice() -> Vec<Named> {
    vec![
        (
            "strike-number-typed-twice",
            on_rack(&[car(7, 1500), car(8, 900), car(7, 2500), Strike(7)]),
        ),
        (
            "strike-number-typed-twice-and-enter-it-again",
            on_rack(&[car(7, 1500), car(7, 2500), Strike(7), car(7, 600)]),
        ),
        (
            "strike-number-typed-twice-in-two-grades",
            on_rack(&[of(7, 1, 1500), of(8, 3, 900), of(7, 3, 2500), Strike(7)]),
        ),
        (
            "strike-number-typed-twice-the-second-wrong",
            on_rack(&[car(7, 1500), car(8, 900), wrong(7), Strike(7)]),
        ),
        (
            "strike-refused-number-typed-twice",
            on_rack(&[wrong(7), car(8, 900), car(7, 1500), Strike(7)]),
        ),
        (
            "strike-number-typed-five-times",
            on_rack(&[
                car(7, 1500),
                car(7, 10),
                wrong(7),
                car(7, 20),
                car(8, 900),
                car(7, 30),
                Strike(7),
            ]),
        ),
        (
            "strike-another-than-the-number-typed-twice",
            on_rack(&[car(7, 1500), car(8, 900), car(7, 2500), Strike(8), car(7, 300)]),
        ),
    ]
}

/// One number entered and struck in turn.
fn rounds() -> Vec<Named> {
    let round = |level: u32| [of(77, 1 + level / 100 % 4, level), Strike(77)];
    let six: Vec<Event> = (1..=6).flat_map(|turn| round(100 * turn)).collect();
    let wrong_and_right: Vec<Event> = (1..=5)
        .flat_map(|turn| [wrong(5), Strike(5), of(5, 1 + turn % 4, 90 * turn), Strike(5)])
        .collect();
    let exchanged = [
        car(1, 1500),
        car(2, 600),
        Strike(1),
        Strike(2),
        car(2, 1500),
        car(1, 600),
        Strike(2),
        car(3, 100),
    ];
    vec![
        ("strike-one-number-again-and-again", on_rack(&six)),
        (
            "strike-one-number-again-and-again-and-enter-it",
            on_rack(&[&six[..], &[of(77, 4, 2900)]].concat()),
        ),
        ("strike-wrong-and-right-in-turn", on_rack(&wrong_and_right)),
        ("strike-two-cars-that-change-numbers", on_rack(&exchanged)),
    ]
}

/// Five cars of which one is struck, then each of them again: the others are still held.
fn others() -> Vec<Named> {
    let five = |levels: u32| (1..=5).map(move |number| of(number, 1 + number % 4, levels * number));
    let but = |struck: u32| {
        on_rack(&five(500).chain([Strike(struck)]).chain(five(450)).collect::<Vec<_>>())
    };
    let late = |struck: &[u32]| {
        let events = five(500).chain(strikes(struck.iter().copied())).chain(five(450));
        on_rack(&events.chain(strikes(1..=5)).collect::<Vec<_>>())
    };
    vec![
        ("strike-first-of-five-the-others-still-held", but(1)),
        ("strike-second-of-five-the-others-still-held", but(2)),
        ("strike-middle-of-five-the-others-still-held", but(3)),
        ("strike-fourth-of-five-the-others-still-held", but(4)),
        ("strike-last-of-five-the-others-still-held", but(5)),
        ("strike-two-of-five-and-enter-them-again", late(&[2, 3])),
        ("strike-four-of-five-and-enter-them-again", late(&[4, 1, 5, 2])),
    ]
}
