//! Trains that hold sixty: cars are turned away by 9, strikes are not, and a struck car's place is free.

use super::super::tenths::Named;
use super::super::Case;
use super::{alike, car, named, of, on_rack, refused_cars, sixty, sixty_and, strikes, wrong};
use crate::car::Car;
use crate::sheet::Event::{self, Enter, Strike};

pub fn cases() -> Vec<Case> {
    let sheets = [turned_away(), before_others(), places(), held(), all_struck()].concat();
    named(sheets, include_str!("full.txt"))
}

/// Refusal 9 for cars.
fn turned_away() -> Vec<Named> {
    let refused: Vec<Event> = (1..=60).map(wrong).collect();
    let repeated =
        [&alike(1..=30)[..], &alike(1..=15), &[car(0, 1500); 15], &alike(31..=62)].concat();
    let struck =
        [&alike(1..=59)[..], &[Strike(7), car(61, 900), car(62, 800), car(63, 700)]].concat();
    vec![
        ("accepted-120-car-lines-of-which-sixty-are-held", on_rack(&alike(1..=120))),
        (
            "refusal-09-car-while-sixty-refused-ones-are-held",
            on_rack(&[&refused[..], &[car(61, 1500)]].concat()),
        ),
        ("refusal-09-sixty-first-number-though-cars-were-turned-away", on_rack(&repeated)),
        ("refusal-09-sixty-first-number-after-a-strike", on_rack(&struck)),
        (
            "refusal-09-car-turned-away-again-and-again",
            sixty_and(&[car(61, 1500), car(61, 1500), car(62, 900), car(61, 900)]),
        ),
        (
            "refusal-09-number-of-a-car-turned-away-stays-free",
            sixty_and(&[
                car(61, 1500),
                Strike(60),
                car(61, 900),
                car(61, 800),
                Strike(1),
                car(61, 700),
            ]),
        ),
    ]
}

/// On a full train 9 comes before 10 to 23, which the same cars get where a place is free.
fn before_others() -> Vec<Named> {
    let refused: Vec<Event> = refused_cars()
        .into_iter()
        .map(|car| Enter(Car { number: 100 + car.number, ..car }))
        .collect();
    let in_turn = refused.iter().zip(1..).flat_map(|(car, number)| [Strike(number), *car]);
    let in_turn: Vec<Event> = in_turn.collect();
    vec![
        (
            "order-09-before-10-number-0-on-a-full-train",
            sixty_and(&[car(0, 1500), Strike(3), car(0, 1500), car(3, 900), car(0, 1500)]),
        ),
        (
            "order-09-before-11-held-number-on-a-full-train",
            sixty_and(&[
                car(1, 1500),
                car(60, 1500),
                Strike(3),
                car(60, 900),
                car(3, 900),
                car(60, 900),
            ]),
        ),
        ("order-09-before-12-to-23-on-a-full-train", sixty_and(&[refused, in_turn].concat())),
    ]
}

/// The place of a struck car is free for another.
fn places() -> Vec<Named> {
    let others = |number: u32| [Strike(number), car(60 + number, 10 * number)];
    let rounds = [car(9, 1500), Strike(9)].repeat(60);
    let same = |number: u32| [Strike(number), car(number, 10 * number)];
    let refused = |number: u32| [Strike(number), wrong(60 + number), car(500, 1500)];
    let mixed: Vec<Event> = (1..=60)
        .map(|number| if number % 3 == 0 { wrong(number) } else { car(number, 1500) })
        .collect();
    let wrong_struck = [Strike(30), car(61, 900), Strike(3), wrong(62), car(63, 700), Strike(62)];
    vec![
        (
            "strike-on-a-full-train",
            sixty_and(&[car(61, 900), Strike(30), car(61, 900), car(62, 800), car(30, 700)]),
        ),
        (
            "strike-two-on-a-full-train",
            sixty_and(&[Strike(30), Strike(31), car(61, 900), car(62, 800), car(63, 700)]),
        ),
        ("strike-refused-car-on-a-full-train", on_rack(&[&mixed[..], &wrong_struck].concat())),
        (
            "strike-place-filled-by-refused-cars",
            sixty_and(&(1..=12).flat_map(refused).collect::<Vec<_>>()),
        ),
        (
            "strike-and-fill-twenty-places",
            sixty_and(&(21..=40).flat_map(others).collect::<Vec<_>>()),
        ),
        (
            "strike-and-enter-again-each-of-sixty",
            sixty_and(&(1..=60).flat_map(same).collect::<Vec<_>>()),
        ),
        ("strike-one-place-sixty-times", on_rack(&[&rounds[..], &[car(9, 900)]].concat())),
    ]
}

/// One of sixty is struck, then all of them are typed again: the others are still held.
fn held() -> Vec<Named> {
    let but = |struck: u32| {
        let others = alike((1..=60).filter(|number| *number != struck));
        sixty_and(&[&[Strike(struck)][..], &others, &[car(struck, 900)]].concat())
    };
    vec![
        ("strike-first-of-sixty-the-others-still-held", but(1)),
        ("strike-thirty-first-of-sixty-the-others-still-held", but(31)),
        ("strike-last-of-sixty-the-others-still-held", but(60)),
    ]
}

/// All of sixty are struck.
fn all_struck() -> Vec<Named> {
    let distinct: Vec<Event> =
        (1..=60).map(|number| of(number, 1 + number % 4, 40 * number)).collect();
    let twice = [sixty(), strikes((1..=60).rev()), alike((1..=60).rev())].concat();
    vec![
        (
            "strike-all-sixty",
            on_rack(&[distinct, strikes((1..=60).map(|n| 1 + 7 * n % 61 % 60))].concat()),
        ),
        ("strike-all-sixty-and-enter-them-again", on_rack(&twice)),
    ]
}
