//! Where two suppliers would part: sheets on which a wrong way prints something else.

use super::levels::four;
use super::rack::{cars_on, numbered, CAR};
use super::Case;
use crate::car::Car;

pub fn cases() -> Vec<Case> {
    [steps(), spans()].into_iter().flatten().collect()
}

fn steps() -> Vec<Case> {
    let thirds = "T 1 2\nR 0 0\nR 3000 20000";
    let at = |level| Car { readings: [level, level, 0, 0], ..CAR };
    vec![
        numbered(
            "parting-net-from-unrounded-gross",
            &[
                Car { water: 100, impurities: 50, ..CAR },
                Car { readings: [1200, 1200, 0, 0], ..CAR },
                Car { readings: [1250, 1250, 0, 0], ..CAR },
            ],
            "A 1 15000 3500000 3392515 32229 31746
             A 2 12000 2600000 2520154 23941 23773
             A 3 12500 2750000 2665547 25323 25146
             S 3 81493 80665
             G 1 0 0 0
             G 2 0 0 0
             G 3 3 81493 80665
             G 4 0 0 0",
        ),
        Case::new(
            "parting-capacities-rounded-once",
            cars_on(
                thirds,
                &[
                    Car { number: 1, water_level: 2, ..at(1501) },
                    Car { number: 2, water_level: 1, ..at(1502) },
                ],
            ),
            "A 1 15010 999334 968645 9202 9138
             A 2 15020 1000666 969935 9214 9150
             S 2 18416 18288
             G 1 0 0 0
             G 2 0 0 0
             G 3 2 18416 18288
             G 4 0 0 0",
        ),
        numbered(
            "parting-expansion-of-oil-from-20",
            &[CAR, Car { temperature: 900, ..CAR }],
            "A 1 15000 3500000 3392515 32229 32003
             A 2 15000 3500000 3320152 31541 31320
             S 2 63770 63323
             G 1 0 0 0
             G 2 0 0 0
             G 3 2 63770 63323
             G 4 0 0 0",
        ),
        numbered(
            "parting-expansion-of-wall-from-15",
            &[Car { grade: 1, temperature: 200, water: 0, impurities: 0, ..CAR }],
            "A 1 15000 3500000 3487405 33130 33130
             S 1 33130 33130
             G 1 1 33130 33130
             G 2 0 0 0
             G 3 0 0 0
             G 4 0 0 0",
        ),
        numbered(
            "parting-average-of-all-four-readings",
            &[
                Car { given: 4, readings: [1500, 1504, 1501, 1502], ..CAR },
                Car { given: 4, readings: [1500, 1500, 1504, 1504], ..CAR },
            ],
            "A 1 15010 3503000 3395423 32257 32031
             A 2 15000 3500000 3392515 32229 32003
             S 2 64486 64034
             G 1 0 0 0
             G 2 0 0 0
             G 3 2 64486 64034
             G 4 0 0 0",
        ),
        numbered(
            "parting-square-left-out",
            &[CAR, Car { temperature: 900, density: 9000, ..CAR }],
            "A 1 15000 3500000 3392515 32229 32003
             A 2 15000 3500000 3306052 29754 29546
             S 2 61983 61549
             G 1 0 0 0
             G 2 0 0 0
             G 3 2 61983 61549
             G 4 0 0 0",
        ),
        numbered(
            "parting-three-closest-though-first-two-agree",
            &[Car { given: 4, readings: [1500, 1501, 1503, 1503], ..CAR }],
            "A 1 15005 3501500 3393969 32243 32017
             S 1 32243 32017
             G 1 0 0 0
             G 2 0 0 0
             G 3 1 32243 32017
             G 4 0 0 0",
        ),
        numbered(
            "parting-upper-triple-of-a-tie",
            &[Car { given: 4, readings: [1500, 1503, 1501, 1502], ..CAR }],
            "A 1 15010 3503000 3395423 32257 32031
             S 1 32257 32031
             G 1 0 0 0
             G 2 0 0 0
             G 3 1 32257 32031
             G 4 0 0 0",
        ),
        numbered(
            "parting-sticks-mixed-up",
            &[CAR, Car { stick: 2, ..CAR }],
            "A 1 15000 3500000 3392515 32229 32003
             A 2 15000 3500000 3393937 32242 32016
             S 2 64471 64019
             G 1 0 0 0
             G 2 0 0 0
             G 3 2 64471 64019
             G 4 0 0 0",
        ),
        numbered(
            "parting-net-total-from-gross-total",
            &[CAR; 4],
            "A 1 15000 3500000 3392515 32229 32003
             A 2 15000 3500000 3392515 32229 32003
             A 3 15000 3500000 3392515 32229 32003
             A 4 15000 3500000 3392515 32229 32003
             S 4 128916 128012
             G 1 0 0 0
             G 2 0 0 0
             G 3 4 128916 128012
             G 4 0 0 0",
        ),
    ]
}

/// What the span of refusal 23 is taken of, and how much it may be.
fn spans() -> Vec<Case> {
    vec![
        numbered(
            "parting-span-of-4-accepted",
            &[four(1500, 1504, 1502, 1600), four(1400, 1504, 1502, 1500)],
            "X 1 23
             X 2 23
             S 0 0 0
             G 1 0 0 0
             G 2 0 0 0
             G 3 0 0 0
             G 4 0 0 0",
        ),
        numbered(
            "parting-span-of-3-refused",
            &[four(1500, 1503, 1502, 1600), four(1400, 1503, 1502, 1500)],
            "A 1 15017 3505100 3397458 32276 32050
             A 2 15017 3505100 3397458 32276 32050
             S 2 64552 64100
             G 1 0 0 0
             G 2 0 0 0
             G 3 2 64552 64100
             G 4 0 0 0",
        ),
        numbered(
            "parting-span-of-all-four-readings",
            &[four(1500, 1504, 1501, 1502), four(1400, 1503, 1501, 1502)],
            "A 1 15010 3503000 3395423 32257 32031
             A 2 15020 3506000 3398331 32284 32058
             S 2 64541 64089
             G 1 0 0 0
             G 2 0 0 0
             G 3 2 64541 64089
             G 4 0 0 0",
        ),
        numbered(
            "parting-span-though-first-two-agree",
            &[four(1500, 1501, 1505, 1510), four(1501, 1501, 1505, 1497)],
            "A 1 15005 3501500 3393969 32243 32017
             A 2 15010 3503000 3395423 32257 32031
             S 2 64500 64048
             G 1 0 0 0
             G 2 0 0 0
             G 3 2 64500 64048
             G 4 0 0 0",
        ),
        numbered(
            "parting-span-of-the-lower-triple-where-the-upper-is-used",
            &[four(1499, 1504, 1501, 1503)],
            "A 1 15027 3508100 3400366 32303 32077
             S 1 32303 32077
             G 1 0 0 0
             G 2 0 0 0
             G 3 1 32303 32077
             G 4 0 0 0",
        ),
        numbered(
            "parting-span-of-the-upper-triple-where-the-lower-is-used",
            &[four(1500, 1505, 1501, 1503)],
            "A 1 15013 3503900 3396295 32265 32039
             S 1 32265 32039
             G 1 0 0 0
             G 2 0 0 0
             G 3 1 32265 32039
             G 4 0 0 0",
        ),
    ]
}
