//! Cars that are struck once: accepted and refused ones, the first, the last, some and all.

use super::super::rack::{events_on, CAR};
use super::super::tenths::Named;
use super::super::Case;
use super::{car, named, of, on_rack, refused_cars, wrong};
use crate::car::Car;
use crate::sheet::Event::{self, Enter, Strike};

pub fn cases() -> Vec<Case> {
    let sheets = [accepted(), several(), refused()].concat();
    named(sheets, include_str!("struck.txt"))
}

/// Three cars of different masses and grades.
fn three() -> [Event; 3] {
    [of(11, 2, 1700), of(12, 4, 600), of(13, 3, 2300)]
}

fn accepted() -> Vec<Named> {
    let of_three = |more: &[Event]| on_rack(&[&three(), more].concat());
    let flat = "T 1 2\nR 0 0\nR 3600 1";
    let dry = |number| Enter(Car { number, water_level: 1499, ..CAR });
    vec![
        ("strike-accepted-car", on_rack(&[car(50_000_001, 1500), Strike(50_000_001)])),
        ("strike-first-of-three", of_three(&[Strike(11)])),
        ("strike-middle-of-three", of_three(&[Strike(12)])),
        ("strike-last-of-three", of_three(&[Strike(13)])),
        (
            "strike-smallest-and-largest-number",
            on_rack(&[
                car(1, 1500),
                car(99_999_999, 900),
                car(10, 700),
                Strike(99_999_999),
                Strike(1),
            ]),
        ),
        (
            "strike-numbers-of-one-to-eight-digits",
            on_rack(&each_length(|number| [car(number, 1200), Strike(number)]).concat()),
        ),
        (
            "strike-car-without-volume",
            events_on(flat, &[dry(1), dry(2), dry(3), Strike(2), Strike(1)]),
        ),
        ("strike-car-of-1-mm", on_rack(&[car(1, 1), car(2, 1500), car(3, 2), Strike(1)])),
    ]
}

/// What comes of a number of each length.
fn each_length<T>(of: fn(u32) -> T) -> Vec<T> {
    [7, 42, 105, 9_999, 65_536, 500_000, 7_654_321, 50_000_001].map(of).into()
}

/// Some cars of a train, in any order, and all of it.
fn several() -> Vec<Named> {
    let five: Vec<Event> = (1..=5).map(|number| of(number, 1 + number % 4, 500 * number)).collect();
    let of_five =
        |struck: &[u32]| on_rack(&[five.clone(), super::strikes(struck.iter().copied())].concat());
    vec![
        ("strike-first-and-last", of_five(&[1, 5])),
        ("strike-second-and-fourth", of_five(&[2, 4])),
        ("strike-fourth-and-second", of_five(&[4, 2])),
        ("strike-two-neighbours", of_five(&[3, 4])),
        ("strike-all-but-the-middle", of_five(&[5, 1, 4, 2])),
        ("strike-every-car-from-the-first", of_five(&[1, 2, 3, 4, 5])),
        ("strike-every-car-from-the-last", of_five(&[5, 4, 3, 2, 1])),
        ("strike-every-car-in-mixed-order", of_five(&[3, 1, 5, 2, 4])),
        (
            "strike-each-car-directly-after-its-line",
            on_rack(
                &(1..=5).flat_map(|n| [of(n, 1 + n % 4, 400 * n), Strike(n)]).collect::<Vec<_>>(),
            ),
        ),
        (
            "strike-each-car-after-the-next-car-s-line",
            on_rack(
                &(2..=6)
                    .flat_map(|n| [of(n, 1 + n % 4, 300 * n), Strike(n - 1)])
                    .collect::<Vec<_>>(),
            ),
        ),
    ]
}

fn refused() -> Vec<Named> {
    let by_each: Vec<Event> = refused_cars()
        .into_iter()
        .flat_map(|refused| {
            let number = refused.number;
            [Enter(refused), Strike(number), car(number, 60 * number)]
        })
        .collect();
    vec![
        ("strike-refused-car", on_rack(&[wrong(50_000_001), Strike(50_000_001)])),
        (
            "strike-refused-car-between-accepted",
            on_rack(&[car(1, 1500), wrong(2), car(3, 900), Strike(2)]),
        ),
        (
            "strike-accepted-car-between-refused",
            on_rack(&[wrong(1), car(2, 1500), wrong(3), Strike(2)]),
        ),
        (
            "strike-refused-and-accepted-cars",
            on_rack(&[wrong(1), car(2, 1500), wrong(3), car(4, 800), Strike(4), Strike(3)]),
        ),
        ("strike-cars-refused-by-12-to-23-and-enter-them-again", on_rack(&by_each)),
    ]
}
