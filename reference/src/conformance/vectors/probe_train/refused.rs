//! A probe's car that is refused by 12, 13 or 16 to 21: its number is held with grade 0, without masses.

use super::super::probe_car::wrong_cars;
use super::{
    at, before_free, fifty_nine, numbered, six, with_temperature, Group, ProbeCar, Train, Vector,
    CAR, IN_16_BITS, IN_24_BITS,
};

pub fn groups() -> Vec<Group<Vector>> {
    vec![Group { about: "A probe's car is refused, and its number is held", vectors: refused() }]
}

fn refused() -> Vec<Vector> {
    let each = wrong_cars().into_iter().filter(|(refusal, ..)| *refusal > 11);
    let each = each.map(|(refusal, fault, car)| {
        Vector::new(format!("refusal-{refusal}-car-{fault}"), &six(), car)
    });
    let cool = with_temperature(CAR, 39.94);
    let no_tables = Vector::new("refusal-12-car-without-tables", &six(), CAR);
    each.chain([
        Vector { tables: Vec::new(), ..no_tables },
        Vector::new("refusal-13-car-stick-3", &six(), ProbeCar { stick: 3, ..CAR }),
        Vector::new("refusal-16-car-of-minus-zero-mm", &six(), at(-0.0)),
        Vector::new("refusal-16-car-level-smallest-denormal", &six(), at(1e-45)),
        Vector::new("refusal-16-car-level-small-in-16-bits", &six(), at(IN_16_BITS)),
        Vector::new("refusal-16-car-level-small-in-24-bits", &six(), at(IN_24_BITS)),
        Vector::new("refusal-16-car-above-the-table-by-a-tenth", &six(), at(3000.1)),
        Vector::new("refusal-16-car-of-9999999-mm", &six(), at(9_999_999.0)),
        Vector::new(
            "refusal-17-car-level-in-the-water-s-tenth",
            &six(),
            ProbeCar { water_level: 1_500, ..at(1500.04) },
        ),
        Vector::new("refusal-18-car-on-59", &fifty_nine(), cool),
        Vector::new("refusal-18-car-on-the-empty-train", &Train::default(), cool),
        Vector::new("refusal-18-car-in-the-first-free-place", &before_free(), cool),
        Vector::new("refusal-18-car-number-1", &six(), ProbeCar { number: 1, ..cool }),
        Vector::new(
            "refusal-12-car-number-99999999",
            &six(),
            ProbeCar { car_type: 2, ..numbered(99_999_999) },
        ),
    ])
    .collect()
}
