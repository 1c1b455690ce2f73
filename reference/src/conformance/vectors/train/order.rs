//! 9 for a train that its held cars do not make comes before 30, and before the car's refusals.

use super::{but, held, made, many, six, Group, Vector, SIX};
use crate::car::Car;
use crate::conformance::rack::CAR;
use crate::sheet::Event;
use crate::train::Train;

pub fn groups() -> Vec<Group<Vector>> {
    vec![
        Group { about: "9 before 30", vectors: before_30() },
        Group { about: "9 before the refusals of a car", vectors: before_others() },
        Group { about: "A train that an entry brought above 12000000", vectors: above() },
    ]
}

/// A train with each kind of fault.
fn barred() -> Vec<(&'static str, Train)> {
    vec![
        ("61-held", but(many(60), |train| train.held = 61)),
        ("number-twice", made(&[SIX[0], SIX[1], held(11, 0, 0, 0)])),
        ("gross-12000001", made(&[held(12, 1, 12_000_001, 0)])),
        ("net-12000001", made(&[held(12, 1, 0, 12_000_001)])),
        ("count-of-all", but(six(), |train| train.all.accepted += 1)),
        ("gross-of-grade-2", but(six(), |train| train.grades[1].gross += 1)),
        ("held-car-of-grade-5", but(six(), |train| train.places[1].grade = 5)),
        ("totals-without-held-cars", but(six(), |train| train.held = 0)),
    ]
}

fn before_30() -> Vec<Vector> {
    barred()
        .into_iter()
        .flat_map(|(fault, train)| {
            [7, 0, 4_000_000_000].map(|number| {
                let name = format!("order-09-before-30-{fault}-number-{number}");
                Vector::strike(name, &train, number)
            })
        })
        .collect()
}

fn before_others() -> Vec<Vector> {
    let cars = [
        ("10", "number-0", Car { number: 0, ..CAR }),
        ("10", "number-of-nine-digits", Car { number: 100_000_000, ..CAR }),
        ("11", "held-number", Car { number: 12, ..CAR }),
        ("12", "type", Car { car_type: 2, ..CAR }),
        ("18", "cool", Car { temperature: 399, ..CAR }),
    ];
    let of = |(refusal, what, car): (&str, &str, Car)| {
        [("gross-of-all", 0), ("count-of-grade-4", 1), ("held-car-of-grade-5", 2)].map(
            |(fault, kind)| {
                let train = but(six(), |train| match kind {
                    0 => train.all.gross += 1,
                    1 => train.grades[3].accepted += 1,
                    _ => train.places[0].grade = 5,
                });
                let name = format!("order-09-before-{refusal}-{what}-{fault}");
                Vector { name, train, asked: Event::Enter(car) }
            },
        )
    };
    cars.into_iter().flat_map(of).collect()
}

/// The rack card's car has 32,229 kg.
fn above() -> Vec<Vector> {
    let car = held(CAR.number, 3, 32_229, 32_003);
    let train = made(&[held(7, 3, 11_967_772, 5), car]);
    let at = made(&[held(7, 3, 11_967_771, 5), car]);
    vec![
        Vector::strike("refusal-09-strike-above-by-the-car-entered-last", &train, CAR.number),
        Vector::car("refusal-09-car-above-by-the-car-entered-last", &train, 8),
        Vector::strike("strike-car-that-brought-the-total-to-12000000", &at, CAR.number),
        Vector::car("car-where-the-last-brought-the-total-to-12000000", &at, 8),
    ]
}
