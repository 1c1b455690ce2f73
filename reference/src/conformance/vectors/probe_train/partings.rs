//! Trains that are answered, or handed back, otherwise by a program that takes the wrong way named.

use super::{
    at, before_free, fifty_nine, numbered, of_grade, six, sixty, unsound, with_temperature, Group,
    ProbeCar, Train, Vector, CAR,
};

pub fn groups() -> Vec<Group<Vector>> {
    vec![
        Group { about: "What 31 and 32 do to a train", vectors: of_floats() },
        Group { about: "How a probe's car is entered", vectors: of_entry() },
    ]
}

fn parting(way: &str, train: &Train, car: ProbeCar) -> Vector {
    Vector::new(format!("parting-{way}"), train, car)
}

fn of_floats() -> Vec<Vector> {
    let (nan, large) = (at(f32::NAN), at(1e7));
    let untyped = ProbeCar { car_type: 2, ..nan };
    vec![
        parting("number-held-at-31", &six(), nan),
        parting("number-held-at-32", &six(), large),
        parting("car-counted-at-31", &Train::default(), nan),
        parting("free-place-cleared-at-31", &before_free(), nan),
        parting("31-after-9", &sixty(), nan),
        parting("31-after-9-of-an-unsound-train", &unsound(), nan),
        parting("32-after-9", &sixty(), large),
        parting("31-after-10", &six(), ProbeCar { number: 0, ..nan }),
        parting("31-after-11", &six(), ProbeCar { number: 12, ..nan }),
        parting("31-after-12", &six(), untyped),
        parting("31-of-the-temperature-after-16", &six(), with_temperature(at(0.0), -1.0)),
        parting("31-as-16-which-is-held", &six(), at(-1.0)),
        parting("32-as-16-which-is-held", &six(), large),
    ]
}

fn of_entry() -> Vec<Vector> {
    let refused = with_temperature(CAR, 10.0);
    vec![
        parting("refused-number-not-held", &six(), refused),
        parting("refused-car-s-grade-held", &six(), refused),
        parting("refused-car-s-place-not-cleared", &before_free(), refused),
        parting("car-without-its-masses", &six(), CAR),
        parting("car-in-the-totals-of-all-alone", &six(), of_grade(4)),
        parting("car-in-the-totals-of-its-grade-alone", &six(), of_grade(2)),
        parting("car-of-grade-1", &six(), of_grade(3)),
        parting("car-in-the-first-place", &six(), CAR),
        parting("car-behind-the-free-places-that-are-filled", &before_free(), CAR),
        parting("number-searched-in-free-places", &before_free(), numbered(79)),
        parting("refused-numbers-not-searched", &six(), numbered(13)),
        parting("numbers-not-searched", &six(), numbered(14)),
        parting("train-not-tested", &unsound(), CAR),
        parting("car-barred-by-59", &fifty_nine(), CAR),
        parting("car-entered-on-sixty", &sixty(), CAR),
        parting("level-in-whole-mm", &six(), at(1500.4)),
        parting("stick-ignored", &six(), ProbeCar { stick: 2, ..CAR }),
    ]
}
