//! Strikes of numbers that the train does not hold (30).

use super::super::tenths::Named;
use super::super::Case;
use super::{alike, car, named, on_rack, sixty_and, strikes, wrong};
use crate::sheet::Event::Strike;

pub fn cases() -> Vec<Case> {
    let sheets = [never(), no_longer(), on_a_full_train(), nearly()].concat();
    named(sheets, include_str!("refused.txt"))
}

/// Numbers that were never held.
fn never() -> Vec<Named> {
    let one = |struck: u32| on_rack(&[car(50_000_001, 1500), Strike(struck)]);
    vec![
        ("refusal-30-number-never-entered", one(50_000_002)),
        ("refusal-30-number-0", one(0)),
        ("refusal-30-largest-number", one(99_999_999)),
        ("refusal-30-number-0-of-a-car-refused-by-10", on_rack(&[car(0, 1500), Strike(0)])),
        ("refusal-30-on-an-empty-train", on_rack(&[Strike(0), Strike(1), Strike(99_999_999)])),
        ("refusal-30-before-the-car-comes", on_rack(&[Strike(50_000_001), car(50_000_001, 1500)])),
        (
            "refusal-30-before-the-car-comes-and-struck-behind-it",
            on_rack(&[car(1, 900), Strike(2), car(2, 1500), Strike(2)]),
        ),
        ("refusal-30-sixty-times", on_rack(&[vec![car(500, 1500)], strikes(1..=60)].concat())),
    ]
}

/// Numbers that were held and were struck.
fn no_longer() -> Vec<Named> {
    vec![
        ("refusal-30-struck-before", on_rack(&[car(7, 1500), car(8, 900), Strike(7), Strike(7)])),
        ("refusal-30-refused-car-struck-before", on_rack(&[wrong(7), Strike(7), Strike(7)])),
        (
            "refusal-30-number-typed-twice-and-struck-before",
            on_rack(&[car(7, 1500), car(7, 900), Strike(7), Strike(7), car(7, 300)]),
        ),
        (
            "refusal-30-struck-before-entered-again-and-struck",
            on_rack(&[car(7, 1500), Strike(7), Strike(7), car(7, 900), Strike(7), Strike(7)]),
        ),
        (
            "refusal-30-does-not-alter-the-train",
            on_rack(&[
                car(7, 1500),
                wrong(8),
                Strike(9),
                Strike(0),
                car(9, 600),
                car(8, 1),
                Strike(8),
            ]),
        ),
    ]
}

/// Sixty numbers are held.
fn on_a_full_train() -> Vec<Named> {
    vec![
        ("refusal-30-on-a-full-train", sixty_and(&[Strike(61), Strike(0), car(61, 1500)])),
        ("refusal-30-number-turned-away-by-9", sixty_and(&[car(61, 1500), Strike(61)])),
        (
            "refusal-30-number-turned-away-by-9-before-a-place-is-free",
            sixty_and(&[car(61, 1500), Strike(5), Strike(61), car(61, 900), Strike(61)]),
        ),
    ]
}

/// Numbers that differ from those held only in some digits or bits, and numbers that stand elsewhere on
/// the car's line or are its place.
fn nearly() -> Vec<Named> {
    let held = [50_000_001, 16_777_217, 99_999_999, 1];
    let near = [
        50_000_002, 40_000_001, 50_065_537, 66_777_217, 50_000_010, 5_000_001, 16_777_216,
        33_554_433, 99_999_998, 9_999_999, 65_537, 257, 10, 11, 2,
    ];
    let events = |struck: &[u32]| {
        on_rack(&[alike(held.into_iter()), strikes(struck.iter().copied())].concat())
    };
    vec![
        ("refusal-30-numbers-that-are-nearly-alike", events(&[&near[..], &held].concat())),
        ("refusal-30-numbers-that-are-places", events(&[0, 2, 3, 4, 5])),
        (
            "refusal-30-numbers-that-stand-elsewhere-on-the-line",
            events(&[3, 1500, 600, 9500, 50, 20, 15000, 32_229, 32_003, 3_500_000]),
        ),
    ]
}
