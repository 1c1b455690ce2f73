//! n at exact squares and beside them, and whether it is within: around 0.65 % and 0.50 %, just below
//! 100 t gross and from there on.

use super::{at, on, rack, Group, Vector, NONE};
use crate::car::Car;
use crate::conformance::rack::CAR;
use crate::permitted::Errors;

/// A table on which a millimetre is less than a kilogram near 100 t.
const WIDE: [(u32, u32); 3] = [(0, 0), (1_000, 108_000), (2_000, 109_000)];

/// Cars on it of 99,999 kg and 100,000 kg gross.
const LIGHT: Car = at(1_597);
const HEAVY: Car = at(1_598);

pub fn groups() -> Vec<Group<Vector>> {
    vec![
        Group { about: "The smallest n, at exact squares and beside them", vectors: squares() },
        Group { about: "Within: 0.65 % below 100,000 kg, 0.50 % from there on", vectors: within() },
    ]
}

fn squares() -> Vec<Vector> {
    vec![
        rack("limit-of-a-sum-of-1", CAR, capacity(1)),
        rack("limit-just-below-a-square", CAR, capacity(9)),
        rack("limit-at-a-square", CAR, capacity(10)),
        rack("limit-just-above-a-square", CAR, Errors { processing: 1, ..capacity(10) }),
        rack("limit-at-a-square-missed-by-floating-point", CAR, capacity(50)),
        rack(
            "limit-at-a-square-of-two-terms",
            CAR,
            Errors { processing: 8_000, ..capacity(6_000) },
        ),
        rack(
            "limit-just-above-a-large-square",
            CAR,
            Errors { processing: 1_340, ..capacity(5_951) },
        ),
        rack("limit-at-a-large-square", CAR, capacity(10_000)),
        rack(
            "limit-largest",
            Car { temperature: 900, density: 9_000, ..at(1_000) },
            Errors {
                capacity: 10_000,
                density: 10_000,
                processing: 10_000,
                density_temperature: 20,
                oil_temperature: 20,
                level: 100,
            },
        ),
    ]
}

fn within() -> Vec<Vector> {
    // Sums of squares: the largest that gives 6,500 and 5,000, and the next.
    let of_6500 = Errors { processing: 855, oil_temperature: 9, ..capacity(5_811) };
    let of_6501 = Errors { processing: 1_094, oil_temperature: 15, ..capacity(5_706) };
    let of_5000 = Errors { processing: 658, oil_temperature: 1, ..capacity(4_497) };
    let of_5001 = Errors { processing: 642, oil_temperature: 8, ..capacity(4_463) };
    let wide = |name, car, errors| on(name, &WIDE, car, errors);
    vec![
        wide("within-6500-at-99999-kg", LIGHT, of_6500),
        wide("over-6501-at-99999-kg", LIGHT, of_6501),
        wide("within-5001-at-99999-kg", LIGHT, of_5001),
        wide("within-5000-at-100000-kg", HEAVY, of_5000),
        wide("over-5001-at-100000-kg", HEAVY, of_5001),
        wide("over-6500-at-100000-kg", HEAVY, of_6500),
        wide("over-6501-at-100000-kg", HEAVY, of_6501),
        rack("within-6500-of-a-small-car", CAR, capacity(5_909)),
        rack("over-6501-of-a-small-car", CAR, capacity(5_910)),
        wide("over-5500-at-100000-kg-gross-and-99300-kg-net", HEAVY, capacity(5_000)),
        wide("within-5500-at-99999-kg", LIGHT, capacity(5_000)),
        on(
            "over-5500-of-the-largest-car",
            &[(0, 0), (3_600, 200_000)],
            dense(3_600),
            capacity(5_000),
        ),
        on("within-5000-of-the-largest-car", &[(0, 0), (3_600, 200_000)], dense(3_600), of_5000),
    ]
}

const fn capacity(error: u32) -> Errors {
    Errors { capacity: error, ..NONE }
}

/// The densest oil at its coolest.
const fn dense(level: u32) -> Car {
    Car { temperature: 400, density: 9_900, ..at(level) }
}
