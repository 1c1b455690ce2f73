//! Refusal 23 beside each of the other refusals of a car: 10 to 14 come before it, 16 to 21 after.
//! 15 is for two readings, 23 for four.

use super::levels::{four, LARGEST};
use super::rack::{cars_on, numbered, CAR, NONE_ACCEPTED, TABLE};
use super::Case;
use crate::car::Car;

pub fn cases() -> Vec<Case> {
    [numbers(), before(), after()].into_iter().flatten().collect()
}

/// A car that 23 turns away.
fn apart() -> Car {
    four(1500, 1504, 1502, 1600)
}

/// Cars, numbered from 1, that are turned away by the refusals beside them.
fn refused(name: &'static str, cars: &[(Car, u32)]) -> Case {
    let lines =
        cars.iter().zip(1..).map(|((_, refusal), number)| format!("X {number} {refusal}\n"));
    let listing: String = lines.chain([NONE_ACCEPTED.to_string()]).collect();
    let cars: Vec<Car> = cars.iter().map(|(car, _)| *car).collect();
    numbered(name, &cars, &listing)
}

/// Refusals 10 and 11.
fn numbers() -> Vec<Case> {
    let of = |number| Car { number, ..apart() };
    vec![
        Case::new(
            "order-10-before-23",
            cars_on(TABLE, &[of(0), of(1)]),
            &format!("X 0 10\nX 1 23\n{NONE_ACCEPTED}"),
        ),
        Case::new(
            "order-11-before-23",
            cars_on(TABLE, &[Car { number: 7, ..CAR }, of(7), of(8), of(8)]),
            "A 7 15000 3500000 3392515 32229 32003
             X 7 11
             X 8 23
             X 8 11
             S 1 32229 32003
             G 1 0 0 0
             G 2 0 0 0
             G 3 1 32229 32003
             G 4 0 0 0",
        ),
    ]
}

/// Refusals 12 to 14, and 15 in place of 23.
fn before() -> Vec<Case> {
    let given = |given| (Car { given, ..apart() }, 14);
    vec![
        refused("order-12-before-23", &[(Car { car_type: 2, ..apart() }, 12), (apart(), 23)]),
        refused(
            "order-13-before-23",
            &[(Car { grade: 5, ..apart() }, 13), (Car { stick: 3, ..apart() }, 13), (apart(), 23)],
        ),
        refused(
            "order-14-before-23",
            &[given(0), given(1), given(2), given(3), given(5), (apart(), 23)],
        ),
        // Two readings with their unused zeros would be four that do not belong together.
        refused(
            "refusal-15-two-readings-and-not-23",
            &[
                (Car { given: 2, ..four(1500, 1504, 0, 0) }, 15),
                (Car { given: 2, ..four(1500, 1502, 0, 0) }, 15),
                (four(1500, 1504, 0, 0), 23),
            ],
        ),
    ]
}

/// Refusals 16 to 21: first both faults, then the later one alone.
fn after() -> Vec<Case> {
    let together = four(1500, 1503, 1502, 1600);
    let both = |fault: fn(Car) -> Car, refusal| [(fault(apart()), 23), (fault(together), refusal)];
    vec![
        refused(
            "order-23-before-16",
            &[
                (four(3001, 3005, 3003, 3100), 23),
                (four(3001, 3004, 3003, 3100), 16),
                (four(0, LARGEST, LARGEST - 4, LARGEST), 23),
                (four(0, LARGEST, LARGEST - 3, LARGEST), 16),
            ],
        ),
        refused("order-23-before-17", &both(|car| Car { water_level: 1502, ..car }, 17)),
        refused("order-23-before-18", &both(|car| Car { temperature: 901, ..car }, 18)),
        refused("order-23-before-19", &both(|car| Car { density: 8999, ..car }, 19)),
        refused("order-23-before-20", &both(|car| Car { water: 101, ..car }, 20)),
        refused(
            "order-23-before-21",
            &both(|car| Car { grade: 1, density: 9585, water: 0, impurities: 0, ..car }, 21),
        ),
    ]
}
