//! The totals of each grade: cars of one grade, of several in any order, refused ones among them.

use super::rack::{cars_on, numbered, CAR, NONE_ACCEPTED, TABLE};
use super::sizes::sixty_lines;
use super::Case;
use crate::car::Car;

/// A car that every grade takes, with a net mass of its own.
pub fn car(grade: u32, level: u32) -> Car {
    let readings = [level, level, 0, 0];
    Car { grade, readings, density: 9400, water: 30, impurities: 10, ..CAR }
}

pub fn cases() -> Vec<Case> {
    [alone(), together(), refused(), full()].into_iter().flatten().collect()
}

/// One grade, and none.
fn alone() -> Vec<Case> {
    let two_tables = format!("{TABLE}\nT 2 2\nR 0 0\nR 3000 60000");
    vec![
        numbered(
            "totals-of-grade-1-alone",
            &[car(1, 1100)],
            "A 1 11000 2300000 2228325 20946 20862
             S 1 20946 20862
             G 1 1 20946 20862
             G 2 0 0 0
             G 3 0 0 0
             G 4 0 0 0",
        ),
        numbered(
            "totals-of-grade-2-alone",
            &[car(2, 1200)],
            "A 1 12000 2600000 2518976 23678 23583
             S 1 23678 23583
             G 1 0 0 0
             G 2 1 23678 23583
             G 3 0 0 0
             G 4 0 0 0",
        ),
        numbered(
            "totals-of-grade-3-alone",
            &[car(3, 1300)],
            "A 1 13000 2900000 2809627 26410 26304
             S 1 26410 26304
             G 1 0 0 0
             G 2 0 0 0
             G 3 1 26410 26304
             G 4 0 0 0",
        ),
        numbered(
            "totals-of-grade-4-alone",
            &[car(4, 1400)],
            "A 1 14000 3200000 3100278 29143 29026
             S 1 29143 29026
             G 1 0 0 0
             G 2 0 0 0
             G 3 0 0 0
             G 4 1 29143 29026",
        ),
        Case::new("totals-of-no-cars", cars_on(&two_tables, &[]), NONE_ACCEPTED),
    ]
}

/// Several grades on one sheet.
fn together() -> Vec<Case> {
    let too_dense = |grade, density| Car { density, ..car(grade, 1500) };
    vec![
        numbered(
            "totals-of-grades-1-and-3",
            &[car(3, 1000), car(1, 2000), car(3, 500)],
            "A 1 10000 2000000 1937674 18214 18141
             A 2 20000 5000000 4844184 45535 45353
             A 3 5000 1000000 968837 9107 9071
             S 3 72856 72565
             G 1 1 45535 45353
             G 2 0 0 0
             G 3 2 27321 27212
             G 4 0 0 0",
        ),
        numbered(
            "totals-of-grades-2-and-4",
            &[car(2, 700), car(4, 2500), car(2, 1900)],
            "A 1 7000 1400000 1356372 12750 12699
             A 2 25000 6000000 5813021 54642 54423
             A 3 19000 4700000 4553533 42803 42632
             S 3 110195 109754
             G 1 0 0 0
             G 2 2 55553 55331
             G 3 0 0 0
             G 4 1 54642 54423",
        ),
        numbered(
            "totals-of-all-four-grades",
            &[car(4, 900), car(3, 1600), car(2, 2300), car(1, 3000)],
            "A 1 9000 1800000 1743906 16393 16327
             A 2 16000 3800000 3681580 34607 34469
             A 3 23000 5600000 5425486 51000 50796
             A 4 30000 7000000 6781858 63749 63494
             S 4 165749 165086
             G 1 1 63749 63494
             G 2 1 51000 50796
             G 3 1 34607 34469
             G 4 1 16393 16327",
        ),
        numbered(
            "totals-of-grades-in-mixed-order",
            &[
                car(4, 1510),
                car(1, 1720),
                too_dense(1, 9585),
                car(3, 1930),
                car(1, 2140),
                car(4, 2350),
                car(4, 2560),
                too_dense(2, 9635),
                car(2, 2770),
                car(3, 2980),
                car(1, 410),
                car(4, 620),
            ],
            "A 1 15100 3530000 3419994 32148 32019
             A 2 17200 4160000 4030361 37885 37733
             X 3 21
             A 4 19300 4790000 4640728 43623 43449
             A 5 21400 5280000 5115458 48085 47893
             A 6 23500 5700000 5522370 51910 51702
             A 7 25600 6120000 5929281 55735 55512
             X 8 21
             A 9 27700 6540000 6336193 59560 59322
             A 10 29800 6960000 6743104 63385 63131
             A 11 4100 820000 794446 7468 7438
             A 12 6200 1240000 1201358 11293 11248
             S 10 411092 409447
             G 1 3 93438 93064
             G 2 1 59560 59322
             G 3 2 107008 106580
             G 4 4 151086 150481",
        ),
    ]
}

/// Refused cars, which count for no grade.
fn refused() -> Vec<Case> {
    let of = |number, grade, level| Car { number, ..car(grade, level) };
    let apart = |grade| Car { given: 4, readings: [1500, 1504, 1502, 1600], ..car(grade, 1500) };
    vec![
        numbered(
            "totals-of-refused-cars-only",
            &[
                Car { temperature: 199, ..car(1, 1500) },
                Car { density: 9635, ..car(2, 1500) },
                Car { temperature: 399, ..car(3, 1500) },
                Car { water: 101, ..car(4, 1500) },
                car(0, 1500),
                car(5, 1500),
            ],
            "X 1 18
             X 2 21
             X 3 18
             X 4 20
             X 5 13
             X 6 13
             S 0 0 0
             G 1 0 0 0
             G 2 0 0 0
             G 3 0 0 0
             G 4 0 0 0",
        ),
        Case::new(
            "totals-without-cars-refused-by-10-and-11",
            cars_on(
                TABLE,
                &[
                    of(7, 1, 1000),
                    of(7, 4, 1100),
                    of(0, 3, 1200),
                    of(8, 5, 1300),
                    of(8, 2, 1400),
                    of(9, 3, 1600),
                    of(7, 1, 1700),
                    of(0, 2, 1800),
                    of(9, 3, 1900),
                ],
            ),
            "A 7 10000 2000000 1937674 18214 18141
             X 7 11
             X 0 10
             X 8 13
             X 8 11
             A 9 16000 3800000 3681580 34607 34469
             X 7 11
             X 0 10
             X 9 11
             S 2 52821 52610
             G 1 1 18214 18141
             G 2 0 0 0
             G 3 1 34607 34469
             G 4 0 0 0",
        ),
        numbered(
            "totals-without-cars-refused-by-23",
            &[
                car(1, 1100),
                apart(4),
                car(2, 1200),
                apart(3),
                car(3, 1300),
                apart(2),
                car(4, 1400),
                apart(1),
            ],
            "A 1 11000 2300000 2228325 20946 20862
             X 2 23
             A 3 12000 2600000 2518976 23678 23583
             X 4 23
             A 5 13000 2900000 2809627 26410 26304
             X 6 23
             A 7 14000 3200000 3100278 29143 29026
             X 8 23
             S 4 100177 99775
             G 1 1 20946 20862
             G 2 1 23678 23583
             G 3 1 26410 26304
             G 4 1 29143 29026",
        ),
        without(
            "totals-without-refused-cars-of-grade-1",
            1,
            "X 1 12
             X 2 13
             X 3 14
             X 4 15
             A 5 11000 2300000 2228325 20946 20862
             X 6 16
             X 7 17
             X 8 18
             X 9 19
             X 10 20
             X 11 21
             A 12 20000 5000000 4844184 45535 45353
             S 2 66481 66215
             G 1 1 20946 20862
             G 2 0 0 0
             G 3 0 0 0
             G 4 1 45535 45353",
        ),
        without(
            "totals-without-refused-cars-of-grade-2",
            2,
            "X 1 12
             X 2 13
             X 3 14
             X 4 15
             A 5 12000 2600000 2518976 23678 23583
             X 6 16
             X 7 17
             X 8 18
             X 9 19
             X 10 20
             X 11 21
             A 12 20000 5000000 4844184 45535 45353
             S 2 69213 68936
             G 1 0 0 0
             G 2 1 23678 23583
             G 3 1 45535 45353
             G 4 0 0 0",
        ),
        without(
            "totals-without-refused-cars-of-grade-3",
            3,
            "X 1 12
             X 2 13
             X 3 14
             X 4 15
             A 5 13000 2900000 2809627 26410 26304
             X 6 16
             X 7 17
             X 8 18
             X 9 19
             X 10 20
             X 11 20
             A 12 20000 5000000 4844184 45535 45353
             S 2 71945 71657
             G 1 0 0 0
             G 2 1 45535 45353
             G 3 1 26410 26304
             G 4 0 0 0",
        ),
        without(
            "totals-without-refused-cars-of-grade-4",
            4,
            "X 1 12
             X 2 13
             X 3 14
             X 4 15
             A 5 14000 3200000 3100278 29143 29026
             X 6 16
             X 7 17
             X 8 18
             X 9 19
             X 10 20
             X 11 20
             A 12 20000 5000000 4844184 45535 45353
             S 2 74678 74379
             G 1 1 45535 45353
             G 2 0 0 0
             G 3 0 0 0
             G 4 1 29143 29026",
        ),
    ]
}

/// A car of a grade between such as are refused by 12 to 21, or by 20 once more where no density
/// is too high for the grade; then one of another grade.
fn without(name: &'static str, grade: u32, listing: &str) -> Case {
    let sound = car(grade, 1000 + 100 * grade);
    let last = if grade < 3 { Car { density: 9640, ..sound } } else { Car { water: 101, ..sound } };
    numbered(
        name,
        &[
            Car { car_type: 2, ..sound },
            Car { stick: 3, ..sound },
            Car { given: 3, ..sound },
            Car { readings: [1500, 1502, 0, 0], ..sound },
            sound,
            Car { readings: [3001, 3001, 0, 0], ..sound },
            Car { water_level: 2000, ..sound },
            Car { temperature: 901, ..sound },
            Car { density: 8999, ..sound },
            Car { impurities: 101, ..sound },
            last,
            car(5 - grade, 2000),
        ],
        listing,
    )
}

/// Sixty cars: each of another mass, of grades 4, 3, 1 and 2 by falling count; and all of one grade
/// and as heavy as any, with totals of eight digits.
fn full() -> Vec<Case> {
    let heaviest: Vec<Car> = (1..=60).map(|number| Car { number, ..heaviest() }).collect();
    vec![
        numbered("totals-of-sixty-cars", &sixty_of_all_grades(), include_str!("totals.txt")),
        Case::new(
            "totals-of-the-heaviest-train",
            cars_on(TALLEST, &heaviest),
            &sixty_lines(
                "36000 20000000 19677048 194803 194784",
                "S 60 11688180 11687040
                 G 1 0 0 0
                 G 2 0 0 0
                 G 3 0 0 0
                 G 4 60 11688180 11687040",
            ),
        ),
    ]
}

/// Each of another mass, of all grades.
pub fn sixty_of_all_grades() -> Vec<Car> {
    let grades = [4, 1, 3, 4, 2, 4, 1, 3, 4, 3];
    (0..60)
        .zip(grades.iter().cycle())
        .map(|(place, &grade)| car(grade, 2950 - 47 * place))
        .collect()
}

/// A table up to both limits.
pub const TALLEST: &str = "T 1 2\nR 0 0\nR 3600 200000";

/// No car is heavier.
pub fn heaviest() -> Car {
    Car { density: 9900, temperature: 400, water: 1, impurities: 0, ..car(4, 3600) }
}
