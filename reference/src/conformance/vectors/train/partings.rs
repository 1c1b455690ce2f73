//! Trains that are handed back otherwise by a program that takes the wrong way named.

use super::{but, held, made, many, six, with_free, Group, Vector, SIX};
use crate::conformance::rack::CAR;
use crate::train::{Place, Train};

pub fn groups() -> Vec<Group<Vector>> {
    vec![
        Group { about: "How a strike closes its gap", vectors: gaps() },
        Group { about: "What a strike takes off the totals", vectors: lowered() },
        Group { about: "Which trains are looked at, and how far", vectors: tested() },
        Group { about: "Where a car is entered", vectors: entered() },
    ]
}

fn parting(way: &str, train: &Train, number: u32) -> Vector {
    Vector::strike(format!("parting-{way}"), train, number)
}

/// Six cars with something in the two places behind them and in the last.
fn before_free() -> Train {
    with_free(six(), &[(7, held(77, 1, 6, 5)), (8, held(78, 0, 0, 4)), (60, held(79, 2, 3, 2))])
}

fn gaps() -> Vec<Vector> {
    vec![
        parting("last-car-in-the-gap", &six(), 12),
        parting("first-car-in-the-gap", &six(), 14),
        parting("gap-left-open", &six(), 12),
        parting("place-left-and-count-lowered", &six(), 12),
        parting("held-not-lowered", &six(), 12),
        parting("only-held-places-move", &before_free(), 12),
        parting("free-places-cleared", &before_free(), 12),
        parting("last-place-kept", &before_free(), 12),
        parting("last-place-of-sixty-kept", &many(60), 130),
        parting("places-turned-round", &before_free(), 12),
        parting("cars-behind-dropped", &six(), 12),
        parting("numbers-move-and-masses-stay", &six(), 12),
        parting("last-car-stays-in-its-place-too", &six(), 16),
    ]
}

fn lowered() -> Vec<Vector> {
    let masses = but(six(), |train| {
        train.places[2] = Place { gross: 70, net: 60, ..train.places[2] };
    });
    vec![
        parting("count-of-all-left", &six(), 14),
        parting("gross-of-all-left", &six(), 14),
        parting("net-of-all-left", &six(), 14),
        parting("count-of-the-grade-left", &six(), 14),
        parting("gross-of-the-grade-left", &six(), 14),
        parting("net-of-the-grade-left", &six(), 14),
        parting("next-grade-lowered", &six(), 14),
        parting("masses-of-the-next-place", &six(), 14),
        parting("refused-car-lowers-the-count", &six(), 13),
        parting("masses-beside-grade-0-taken-off", &masses, 13),
        parting("masses-beside-grade-0-cleared", &masses, 12),
        parting("masses-beside-grade-0-counted", &masses, 12),
    ]
}

fn tested() -> Vec<Vector> {
    let free = with_free(six(), &[(7, held(12, 1, 6, 5)), (8, held(12, 9, 6, 5))]);
    let odd = made(&[held(0, 1, 10, 9), SIX[1], held(100_000_000, 2, 8, 7)]);
    let most = made(&[held(12, 1, 12_000_000, 12_000_000)]);
    vec![
        parting("strike-barred-by-sixty", &many(60), 107),
        parting("strike-barred-by-59", &many(59), 107),
        parting("strike-barred-by-12000000", &most, 12),
        parting("strike-barred-by-a-held-0", &odd, 12),
        parting("strike-of-0-refused-by-10", &odd, 0),
        parting("strike-of-0-refused-by-30", &odd, 0),
        parting("strike-of-nine-digits-refused-by-10", &odd, 100_000_000),
        parting("strike-of-nine-digits-refused-by-30", &odd, 100_000_000),
        parting("free-places-tested-for-numbers-twice", &free, 12),
        parting("free-places-tested-for-grades", &free, 14),
        parting("free-places-counted", &free, 14),
        parting("free-places-searched", &before_free(), 77),
        parting("empty-places-are-number-0", &six(), 0),
        parting("unknown-refused-by-9", &six(), 7),
        parting("unknown-answered", &six(), 7),
        parting("train-tested-after-30", &but(six(), |train| train.all.net += 1), 7),
        parting("train-not-tested-for-a-strike", &but(six(), |train| train.all.net += 1), 12),
    ]
}

fn entered() -> Vec<Vector> {
    let car = |way: &str, train: &Train, number: u32| {
        Vector::car(format!("parting-{way}"), train, number)
    };
    vec![
        car("car-behind-the-free-places-that-are-filled", &before_free(), CAR.number),
        car("car-s-number-searched-in-free-places", &before_free(), 79),
        car("car-without-its-masses", &six(), CAR.number),
        car("car-in-the-first-place", &six(), CAR.number),
        car("car-barred-by-59", &many(59), CAR.number),
        car("car-entered-on-sixty", &many(60), CAR.number),
        car("car-s-places-not-tested", &but(six(), |train| train.places[0].gross += 1), CAR.number),
    ]
}
