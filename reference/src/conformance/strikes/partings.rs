//! Sheets that are answered otherwise by a program that takes a wrong way with strikes or with a train
//! that holds sixty.

use super::super::tenths::Named;
use super::super::Case;
use super::{alike, car, named, of, on_rack, sixty_and, wrong};
use crate::sheet::Event::{self, Strike};

pub fn cases() -> Vec<Case> {
    let sheets = [
        totals(),
        entries(),
        cars(),
        numbers(),
        repeats(),
        answers(),
        full_trains(),
        full_orders(),
    ]
    .concat();
    named(sheets, include_str!("partings.txt"))
}

/// Three cars, the second struck.
fn second_of_three() -> Vec<u8> {
    on_rack(&[of(11, 1, 1500), of(12, 3, 900), of(13, 3, 2100), Strike(12)])
}

/// What is taken off the totals.
fn totals() -> Vec<Named> {
    let refused = on_rack(&[of(11, 1, 1500), wrong(12), of(13, 3, 2100), Strike(12)]);
    vec![
        ("parting-strike-leaves-the-count", second_of_three()),
        ("parting-strike-leaves-gross", second_of_three()),
        ("parting-strike-leaves-net", second_of_three()),
        ("parting-strike-leaves-the-totals-of-all", second_of_three()),
        ("parting-strike-leaves-the-totals-of-the-grade", second_of_three()),
        ("parting-strike-leaves-the-count-of-the-grade", second_of_three()),
        ("parting-strike-leaves-gross-of-the-grade", second_of_three()),
        ("parting-strike-leaves-net-of-the-grade", second_of_three()),
        ("parting-strike-lowers-the-next-grade", second_of_three()),
        ("parting-strike-lowers-net-by-gross", second_of_three()),
        ("parting-strike-lowers-by-the-last-car-s-masses", second_of_three()),
        ("parting-strike-of-a-refused-car-lowers-the-count", refused),
    ]
}

/// A number that is entered more than once.
fn entries() -> Vec<Named> {
    let again = [of(11, 1, 1500), of(12, 3, 900), Strike(11), of(11, 1, 2100)];
    let twice = [&again[..], &[Strike(11), of(11, 1, 600)]].concat();
    let typed = [of(11, 1, 1500), of(12, 3, 900), of(11, 1, 2100), Strike(11)];
    vec![
        (
            "parting-strike-lowers-by-the-first-entry-s-masses",
            on_rack(&[&again[..], &[Strike(11)]].concat()),
        ),
        ("parting-strike-lowers-by-the-last-line-s-masses", on_rack(&typed)),
        ("parting-strike-then-masses-of-the-first-entry", on_rack(&again)),
        ("parting-strike-counts-every-entry-of-a-held-number", on_rack(&twice)),
        ("parting-strike-counts-no-number-once-struck", on_rack(&again)),
    ]
}

/// Which car is taken out.
fn cars() -> Vec<Named> {
    let again = |events: &[Event]| {
        let cars = [of(11, 1, 1500), of(12, 3, 900), of(13, 3, 2100)];
        on_rack(&[&cars[..], events, &cars].concat())
    };
    let refused = on_rack(&[wrong(11), of(12, 3, 900), Strike(11), of(11, 1, 600)]);
    vec![
        ("parting-strike-of-the-first-car-held", again(&[Strike(12)])),
        ("parting-strike-of-the-last-car-held", again(&[Strike(12)])),
        ("parting-strike-of-the-next-car", again(&[Strike(11)])),
        ("parting-strike-of-the-cars-behind-too", again(&[Strike(11)])),
        ("parting-strike-of-accepted-cars-only", refused.clone()),
        ("parting-strike-of-a-refused-car-keeps-its-number", refused),
        (
            "parting-strike-by-the-place",
            on_rack(&[car(3, 900), car(2, 1500), car(1, 300), Strike(1)]),
        ),
        (
            "parting-strike-by-the-low-16-bits",
            on_rack(&[car(65_543, 900), car(7, 1500), Strike(7), Strike(131_079)]),
        ),
        (
            "parting-strike-by-the-low-24-bits",
            on_rack(&[car(50_331_655, 900), car(7, 1500), Strike(7), Strike(16_777_223)]),
        ),
        (
            "parting-strike-by-the-last-seven-digits",
            on_rack(&[car(50_000_007, 900), car(7, 1500), Strike(7), Strike(40_000_007)]),
        ),
    ]
}

/// The number and the place of a struck car.
fn numbers() -> Vec<Named> {
    let unknown = [car(11, 1500), Strike(12), car(12, 900)];
    vec![
        ("parting-strike-keeps-the-number", on_rack(&[car(11, 1500), Strike(11), car(11, 900)])),
        ("parting-strike-keeps-the-place", sixty_and(&[Strike(7), car(61, 900)])),
        ("parting-strike-frees-the-last-place-only", sixty_and(&[Strike(7), car(61, 900)])),
        ("parting-strike-frees-two-places", sixty_and(&[Strike(7), car(61, 900), car(62, 800)])),
        ("parting-strike-holds-a-number-that-it-does-not-find", on_rack(&unknown)),
    ]
}

/// A number that is turned away by 11 and then struck.
fn repeats() -> Vec<Named> {
    let typed = [of(11, 1, 1500), of(12, 3, 900), of(11, 4, 2100), Strike(11)];
    let again = [&typed[..], &[Strike(11), of(11, 2, 600)]].concat();
    vec![
        ("parting-strike-of-a-car-that-its-repeat-replaced", on_rack(&typed)),
        ("parting-strike-of-the-first-of-two-entries", on_rack(&again)),
        ("parting-strike-of-the-second-of-two-entries", on_rack(&again)),
        ("parting-strike-of-both-of-two-entries", on_rack(&typed)),
    ]
}

/// What is written for a strike, and in which order strikes are worked.
fn answers() -> Vec<Named> {
    let unknown = on_rack(&[car(11, 1500), Strike(12), car(13, 900)]);
    let struck = on_rack(&[car(11, 1500), Strike(11), car(13, 900)]);
    let early = on_rack(&[Strike(11), car(11, 1500), car(12, 900)]);
    let between = on_rack(&[car(11, 1500), Strike(11), car(11, 900)]);
    vec![
        ("parting-strike-answered-where-30-is-due", unknown.clone()),
        ("parting-strike-not-found-refuses-the-sheet", unknown),
        ("parting-strike-answered-by-x", struck.clone()),
        ("parting-strike-answered-by-no-line", struck.clone()),
        ("parting-strike-drops-the-line-of-its-car", struck.clone()),
        ("parting-strike-lines-behind-all-cars", struck.clone()),
        ("parting-strike-counted-by-e", struck),
        ("parting-strike-worked-before-all-cars", between.clone()),
        ("parting-strike-worked-after-all-cars", between),
        ("parting-strike-remembered-for-a-later-car", early),
        ("parting-strike-of-0-refused-by-10", on_rack(&[car(11, 1500), Strike(0)])),
        ("parting-strike-of-0-passed-over", on_rack(&[car(11, 1500), Strike(0)])),
        ("parting-strike-on-a-full-train-refused-by-9", sixty_and(&[Strike(7), car(61, 900)])),
        ("parting-strike-on-a-full-train-refused-by-30", sixty_and(&[Strike(7), car(61, 900)])),
        ("parting-strike-not-found-on-a-full-train-refused-by-9", sixty_and(&[Strike(61)])),
    ]
}

/// What a car gets while sixty are held, and when that is.
fn full_trains() -> Vec<Named> {
    let sixty_first = || sixty_and(&[car(61, 900), car(62, 800)]);
    let after_strikes = on_rack(
        &[&alike(1..=40)[..], &[Strike(7), Strike(8)], &alike(41..=62), &[car(7, 900)]].concat(),
    );
    let refused: Vec<Event> =
        (1..=60).map(|n| if n % 20 == 0 { wrong(n) } else { car(n, 1500) }).collect();
    vec![
        ("parting-full-train-of-61", sixty_first()),
        ("parting-full-train-of-59", sixty_first()),
        ("parting-full-train-refuses-by-10", sixty_first()),
        ("parting-full-train-refuses-by-11", sixty_first()),
        ("parting-full-train-refuses-the-sheet", sixty_first()),
        ("parting-full-train-loses-its-first-car", sixty_and(&[car(61, 900), Strike(1)])),
        ("parting-full-train-by-car-lines", after_strikes.clone()),
        ("parting-full-train-by-numbers-ever-held", after_strikes),
        ("parting-full-train-by-accepted-cars", on_rack(&[&refused[..], &[car(61, 900)]].concat())),
        (
            "parting-full-train-holds-the-number-that-it-refuses",
            sixty_and(&[car(61, 900), Strike(7), car(61, 800)]),
        ),
        (
            "parting-full-train-stays-full",
            sixty_and(&[car(61, 900), Strike(7), Strike(8), car(62, 800)]),
        ),
    ]
}

/// 9 for a car comes before its other refusals.
fn full_orders() -> Vec<Named> {
    vec![
        ("parting-full-train-tested-after-10", sixty_and(&[car(0, 900)])),
        ("parting-full-train-tested-after-11", sixty_and(&[car(7, 900)])),
        ("parting-full-train-tested-after-the-car", sixty_and(&[wrong(61)])),
    ]
}
