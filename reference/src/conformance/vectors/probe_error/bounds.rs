//! 24 and 25 from both sides of each bound, what is within, and floats that are turned away.

use super::super::probe::{LARGEST_PAYLOAD, SIGNALLING, WITH_SIGN};
use super::super::probe_car::{
    past, short_of, with_density, with_temperature, IN_16_BITS, IN_24_BITS,
};
use super::{at, level, on, rack, Errors, Group, ProbeCar, Vector, CAR, FLAT, NONE};
use crate::permitted::ERRORS;

/// Each error's name and highest value, as they are handed over.
const HIGHEST: [(&str, u32); ERRORS] = [
    ("capacity", 10_000),
    ("density", 10_000),
    ("processing", 10_000),
    ("density-temperature", 20),
    ("oil-temperature", 20),
    ("level", 100),
];

/// A table on which a tenth of a mm is less than a kilogram near 100 t.
const WIDE: [(u32, u32); 3] = [(0, 0), (1_000, 108_000), (2_000, 109_000)];

/// Half a tenth short of the level of 100,000 kg, in hundredths of a mm.
const HEAVY: u32 = 159_765;

pub fn groups() -> Vec<Group<Vector>> {
    vec![
        Group { about: "24: each error at its highest, one above and far above", vectors: of_24() },
        Group { about: "25: V0 is 0, or the level term is above 10,000", vectors: of_25() },
        Group { about: "Within: 0.65 % below 100,000 kg, 0.50 % from there on", vectors: within() },
        Group { about: "31 and 32: kinds of float", vectors: kinds() },
        Group { about: "16 and 19: floats that are far from their bounds", vectors: far() },
    ]
}

fn of_24() -> Vec<Vector> {
    let mut vectors = Vec::new();
    for (place, (error, highest)) in HIGHEST.into_iter().enumerate() {
        for (name, number) in [
            (format!("accepted-{error}-error-{highest}"), highest),
            (format!("refusal-24-{error}-error-{}", highest + 1), highest + 1),
            (format!("refusal-24-{error}-error-in-32-bits"), u32::MAX),
        ] {
            let mut errors = [0; ERRORS];
            errors[place] = number;
            vectors.push(rack(name, at(2000.0), Errors::from(errors)));
        }
    }
    vectors
}

fn of_25() -> Vec<Vector> {
    let over = |water_level, level| ProbeCar { water_level, ..at(level) };
    vec![
        rack("accepted-level-term-10000", at(1000.0), level(100)),
        rack("accepted-level-term-10000-past-999.95", at(past(99_995)), level(100)),
        rack("refusal-25-level-term-10001-short-of-999.95", at(short_of(99_995)), level(100)),
        rack("refusal-25-level-of-one-tenth", at(past(5)), level(1)),
        rack("accepted-level-of-one-tenth-without-level-error", at(past(5)), NONE),
        on("refusal-25-no-volume-at-17.9-mm", &FLAT, at(17.9), level(1)),
        on("refusal-25-no-volume-short-of-17.95", &FLAT, at(short_of(1_795)), NONE),
        on("accepted-one-unit-past-17.95", &FLAT, at(past(1_795)), NONE),
        on("accepted-one-unit-at-18-mm", &FLAT, at(18.0), level(3)),
        on("refusal-25-level-term-11111-of-one-unit", &FLAT, at(18.0), level(4)),
        on("refusal-25-no-volume-and-no-level-error", &FLAT, at(17.0), NONE),
        on("refusal-25-no-volume-a-tenth-above-water", &FLAT, over(17, 17.1), NONE),
        rack("accepted-water-a-tenth-below", over(1_500, 1500.1), NONE),
        rack("refusal-25-water-a-tenth-below", over(1_500, 1500.1), level(1)),
    ]
}

/// Sums of squares: the largest that gives 6,500 and 5,000, and the next.
fn within() -> Vec<Vector> {
    let capacity = |error| Errors { capacity: error, ..NONE };
    let of_6500 = Errors { processing: 855, oil_temperature: 9, ..capacity(5_811) };
    let of_6501 = Errors { processing: 1_094, oil_temperature: 15, ..capacity(5_706) };
    let of_5000 = Errors { processing: 658, oil_temperature: 1, ..capacity(4_497) };
    let of_5001 = Errors { processing: 642, oil_temperature: 8, ..capacity(4_463) };
    let (light, heavy) = (at(short_of(HEAVY)), at(past(HEAVY)));
    let wide = |name, car, errors| on(name, &WIDE, car, errors);
    vec![
        wide("within-6500-at-99999-kg", light, of_6500),
        wide("over-6501-at-99999-kg", light, of_6501),
        wide("within-5001-at-99999-kg", light, of_5001),
        wide("within-5000-at-100000-kg", heavy, of_5000),
        wide("over-5001-at-100000-kg", heavy, of_5001),
        wide("over-6500-at-100000-kg", heavy, of_6500),
        rack("within-6500-of-a-small-car", CAR, capacity(5_909)),
        rack("over-6501-of-a-small-car", CAR, capacity(5_910)),
        wide("over-5500-at-100000-kg-gross-and-less-net", heavy, capacity(5_000)),
        wide("within-5500-at-99999-kg", light, capacity(5_000)),
    ]
}

fn kinds() -> Vec<Vector> {
    vec![
        rack("refusal-31-temperature-minus-smallest-denormal", with_temperature(CAR, -1e-45), NONE),
        rack("refusal-31-level-not-a-number-with-sign", at(WITH_SIGN), NONE),
        rack("refusal-31-level-signalling", at(SIGNALLING), NONE),
        rack("refusal-31-level-quiet-largest-payload", at(LARGEST_PAYLOAD), NONE),
        rack("refusal-32-level-20000000", at(20_000_000.0), NONE),
        rack("refusal-32-level-2-to-64", at(1.844_674_4e19), NONE),
    ]
}

fn far() -> Vec<Vector> {
    vec![
        rack("refusal-16-level-minus-0", at(-0.0), NONE),
        rack("refusal-16-level-small-in-16-bits", at(IN_16_BITS), NONE),
        rack("refusal-16-level-small-in-24-bits", at(IN_24_BITS), NONE),
        rack("refusal-16-level-9999999", at(9_999_999.0), NONE),
        rack("refusal-19-density-smallest-denormal", with_density(CAR, 1e-45), NONE),
    ]
}
