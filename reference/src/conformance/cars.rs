//! Cars at the bounds of each refusal from 10 to 14 and from 17 to 21.

use super::levels::four;
use super::rack::{cars_on, numbered, CAR, TABLE};
use super::Case;
use crate::car::Car;

pub fn cases() -> Vec<Case> {
    [numbers(), kinds(), limits()].into_iter().flatten().collect()
}

/// Refusals 10 and 11.
fn numbers() -> Vec<Case> {
    let car = |number| Car { number, ..CAR };
    let refused = |number| Car { number, grade: 5, ..CAR };
    vec![
        Case::new(
            "refusal-10-car-number-0",
            cars_on(TABLE, &[car(0), car(1), car(99_999_999), car(0)]),
            "X 0 10
             A 1 15000 3500000 3392515 32229 32003
             A 99999999 15000 3500000 3392515 32229 32003
             X 0 10
             S 2 64458 64006
             G 1 0 0 0
             G 2 0 0 0
             G 3 2 64458 64006
             G 4 0 0 0",
        ),
        Case::new(
            "refusal-11-number-of-an-accepted-car",
            cars_on(TABLE, &[car(7), car(8), car(7)]),
            "A 7 15000 3500000 3392515 32229 32003
             A 8 15000 3500000 3392515 32229 32003
             X 7 11
             S 2 64458 64006
             G 1 0 0 0
             G 2 0 0 0
             G 3 2 64458 64006
             G 4 0 0 0",
        ),
        Case::new(
            "refusal-11-number-of-a-refused-car",
            cars_on(TABLE, &[refused(7), car(7)]),
            "X 7 13
             X 7 11
             S 0 0 0
             G 1 0 0 0
             G 2 0 0 0
             G 3 0 0 0
             G 4 0 0 0",
        ),
        Case::new(
            "refusal-11-three-times",
            cars_on(TABLE, &[car(7), refused(7), car(7)]),
            "A 7 15000 3500000 3392515 32229 32003
             X 7 11
             X 7 11
             S 1 32229 32003
             G 1 0 0 0
             G 2 0 0 0
             G 3 1 32229 32003
             G 4 0 0 0",
        ),
        Case::new(
            "refusal-11-number-of-a-car-refused-by-23",
            cars_on(TABLE, &[Car { number: 7, ..four(1500, 1504, 1502, 1600) }, car(7), car(8)]),
            "X 7 23
             X 7 11
             A 8 15000 3500000 3392515 32229 32003
             S 1 32229 32003
             G 1 0 0 0
             G 2 0 0 0
             G 3 1 32229 32003
             G 4 0 0 0",
        ),
        Case::new(
            "refusal-11-number-of-a-car-without-table",
            cars_on(TABLE, &[Car { car_type: 2, ..car(7) }, car(7), car(8)]),
            "X 7 12
             X 7 11
             A 8 15000 3500000 3392515 32229 32003
             S 1 32229 32003
             G 1 0 0 0
             G 2 0 0 0
             G 3 1 32229 32003
             G 4 0 0 0",
        ),
    ]
}

/// Refusals 12 to 14.
fn kinds() -> Vec<Case> {
    vec![
        numbered(
            "refusal-12-no-table-of-the-type",
            &[
                Car { car_type: 0, ..CAR },
                CAR,
                Car { car_type: 2, ..CAR },
                Car { car_type: 99_999_999, ..CAR },
            ],
            "X 1 12
             A 2 15000 3500000 3392515 32229 32003
             X 3 12
             X 4 12
             S 1 32229 32003
             G 1 0 0 0
             G 2 0 0 0
             G 3 1 32229 32003
             G 4 0 0 0",
        ),
        numbered(
            "refusal-13-grade",
            &[
                Car { grade: 0, ..CAR },
                Car { grade: 1, water: 0, ..CAR },
                Car { grade: 1, water: 0, impurities: 0, ..CAR },
                Car { grade: 4, ..CAR },
                Car { grade: 5, ..CAR },
            ],
            "X 1 13
             X 2 20
             A 3 15000 3500000 3392515 32229 32229
             A 4 15000 3500000 3392515 32229 32003
             X 5 13
             S 2 64458 64232
             G 1 1 32229 32229
             G 2 0 0 0
             G 3 0 0 0
             G 4 1 32229 32003",
        ),
        numbered(
            "refusal-13-stick",
            &[
                Car { stick: 0, ..CAR },
                Car { stick: 1, ..CAR },
                Car { stick: 2, ..CAR },
                Car { stick: 3, ..CAR },
            ],
            "X 1 13
             A 2 15000 3500000 3392515 32229 32003
             A 3 15000 3500000 3393937 32242 32016
             X 4 13
             S 2 64471 64019
             G 1 0 0 0
             G 2 0 0 0
             G 3 2 64471 64019
             G 4 0 0 0",
        ),
        numbered(
            "refusal-14-number-of-readings",
            &[
                Car { given: 0, readings: [0; 4], ..CAR },
                Car { given: 1, readings: [1500, 0, 0, 0], ..CAR },
                Car { given: 2, ..CAR },
                Car { given: 3, readings: [1500, 1500, 1500, 0], ..CAR },
                Car { given: 4, readings: [1500; 4], ..CAR },
                Car { given: 5, readings: [1500; 4], ..CAR },
            ],
            "X 1 14
             X 2 14
             A 3 15000 3500000 3392515 32229 32003
             X 4 14
             A 5 15000 3500000 3392515 32229 32003
             X 6 14
             S 2 64458 64006
             G 1 0 0 0
             G 2 0 0 0
             G 3 2 64458 64006
             G 4 0 0 0",
        ),
        numbered(
            "refusal-14-unused-reading-not-0",
            &[
                Car { readings: [1500, 1500, 1, 0], ..CAR },
                Car { readings: [1500, 1500, 0, 1], ..CAR },
                Car { readings: [1500, 1500, 1500, 1500], ..CAR },
                Car { given: 4, readings: [1500, 1500, 0, 1], ..CAR },
            ],
            "X 1 14
             X 2 14
             X 3 14
             A 4 15000 3500000 3392515 32229 32003
             S 1 32229 32003
             G 1 0 0 0
             G 2 0 0 0
             G 3 1 32229 32003
             G 4 0 0 0",
        ),
    ]
}

/// Refusals 17 to 21; 15 and 16 stand with the levels, 23 with the spans.
fn limits() -> Vec<Case> {
    let hot = |grade, temperature| Car { grade, temperature, water: 0, impurities: 0, ..CAR };
    let wet = |grade, water, impurities| Car { grade, water, impurities, density: 9400, ..CAR };
    let dense = |grade, density| Car { grade, density, water: 0, impurities: 0, ..CAR };
    vec![
        numbered(
            "refusal-17-water-level",
            &[
                Car { water_level: 1498, ..CAR },
                Car { water_level: 1499, ..CAR },
                Car { water_level: 1500, ..CAR },
                Car { water_level: 1501, ..CAR },
                Car { water_level: 99_999_999, ..CAR },
            ],
            "A 1 15000 6000 5816 55 55
             A 2 15000 3000 2908 28 28
             X 3 17
             X 4 17
             X 5 17
             S 2 83 83
             G 1 0 0 0
             G 2 0 0 0
             G 3 2 83 83
             G 4 0 0 0",
        ),
        numbered(
            "refusal-18-temperature-of-grades-1-and-2",
            &[
                hot(1, 199),
                hot(1, 200),
                hot(1, 900),
                hot(1, 901),
                hot(2, 199),
                hot(2, 200),
                hot(2, 900),
                hot(2, 901),
            ],
            "X 1 18
             A 2 15000 3500000 3487405 33130 33130
             A 3 15000 3500000 3320152 31541 31541
             X 4 18
             X 5 18
             A 6 15000 3500000 3487405 33130 33130
             A 7 15000 3500000 3320152 31541 31541
             X 8 18
             S 4 129342 129342
             G 1 2 64671 64671
             G 2 2 64671 64671
             G 3 0 0 0
             G 4 0 0 0",
        ),
        numbered(
            "refusal-18-temperature-of-grades-3-and-4",
            &[
                hot(3, 399),
                hot(3, 400),
                hot(3, 900),
                hot(3, 901),
                hot(4, 399),
                hot(4, 400),
                hot(4, 900),
                hot(4, 901),
            ],
            "X 1 18
             A 2 15000 3500000 3440203 32682 32682
             A 3 15000 3500000 3320152 31541 31541
             X 4 18
             X 5 18
             A 6 15000 3500000 3440203 32682 32682
             A 7 15000 3500000 3320152 31541 31541
             X 8 18
             S 4 128446 128446
             G 1 0 0 0
             G 2 0 0 0
             G 3 2 64223 64223
             G 4 2 64223 64223",
        ),
        numbered(
            "refusal-19-density-at-15",
            &[
                dense(3, 8999),
                dense(3, 9000),
                dense(3, 9900),
                dense(3, 9901),
                dense(1, 8999),
                dense(1, 9000),
            ],
            "X 1 19
             A 2 15000 3500000 3384146 30457 30457
             A 3 15000 3500000 3398466 33645 33645
             X 4 19
             X 5 19
             A 6 15000 3500000 3384146 30457 30457
             S 3 94559 94559
             G 1 1 30457 30457
             G 2 0 0 0
             G 3 2 64102 64102
             G 4 0 0 0",
        ),
        numbered(
            "refusal-20-water-and-impurities-of-grade-1",
            &[wet(1, 30, 10), wet(1, 31, 10), wet(1, 30, 11), wet(1, 0, 0)],
            "A 1 15000 3500000 3390929 31875 31748
             X 2 20
             X 3 20
             A 4 15000 3500000 3390929 31875 31875
             S 2 63750 63623
             G 1 2 63750 63623
             G 2 0 0 0
             G 3 0 0 0
             G 4 0 0 0",
        ),
        numbered(
            "refusal-20-water-and-impurities-of-grade-2",
            &[wet(2, 30, 12), wet(2, 31, 12), wet(2, 30, 13), wet(2, 0, 0)],
            "A 1 15000 3500000 3390929 31875 31741
             X 2 20
             X 3 20
             A 4 15000 3500000 3390929 31875 31875
             S 2 63750 63616
             G 1 0 0 0
             G 2 2 63750 63616
             G 3 0 0 0
             G 4 0 0 0",
        ),
        numbered(
            "refusal-20-water-and-impurities-of-grade-3",
            &[wet(3, 100, 50), wet(3, 101, 50), wet(3, 100, 51), wet(3, 0, 0)],
            "A 1 15000 3500000 3390929 31875 31397
             X 2 20
             X 3 20
             A 4 15000 3500000 3390929 31875 31875
             S 2 63750 63272
             G 1 0 0 0
             G 2 0 0 0
             G 3 2 63750 63272
             G 4 0 0 0",
        ),
        numbered(
            "refusal-20-water-and-impurities-of-grade-4",
            &[wet(4, 100, 100), wet(4, 101, 100), wet(4, 100, 101), wet(4, 99_999_999, 99_999_999)],
            "A 1 15000 3500000 3390929 31875 31238
             X 2 20
             X 3 20
             X 4 20
             S 1 31875 31238
             G 1 0 0 0
             G 2 0 0 0
             G 3 0 0 0
             G 4 1 31875 31238",
        ),
        numbered(
            "refusal-21-density-at-20-of-grades-1-and-2",
            &[
                dense(1, 9584),
                dense(1, 9585),
                dense(2, 9585),
                dense(2, 9634),
                dense(2, 9635),
                dense(2, 9900),
            ],
            "A 1 15000 3500000 3393815 32526 32526
             X 2 21
             A 3 15000 3500000 3393831 32530 32530
             A 4 15000 3500000 3394576 32703 32703
             X 5 21
             X 6 21
             S 3 97759 97759
             G 1 1 32526 32526
             G 2 2 65233 65233
             G 3 0 0 0
             G 4 0 0 0",
        ),
        numbered(
            "accepted-densest-oil-of-grades-3-and-4",
            &[dense(3, 9900), dense(4, 9900)],
            "A 1 15000 3500000 3398466 33645 33645
             A 2 15000 3500000 3398466 33645 33645
             S 2 67290 67290
             G 1 0 0 0
             G 2 0 0 0
             G 3 1 33645 33645
             G 4 1 33645 33645",
        ),
    ]
}
