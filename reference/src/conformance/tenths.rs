//! Mean levels in tenths of a millimetre: below 1 mm, around rows, and the bounds of 16 and 17 by tenths.

use super::each_car::{ENDS, TABLES};
use super::levels::{four, two};
use super::rack::{cars_on, on_rack, CAR};
use super::Case;
use crate::car::Car;

/// A sheet with its name.
pub type Named = (&'static str, Vec<u8>);

pub fn cases() -> Vec<Case> {
    let sheets = [levels(), rows(), ends(), waters(), each_table()].into_iter().flatten();
    with_listings(sheets, include_str!("tenths.txt"))
}

/// The cases of sheets whose listings stand one after another in a text.
pub fn with_listings(sheets: impl Iterator<Item = Named>, listings: &str) -> Vec<Case> {
    sheets
        .zip(listings.split("--\n"))
        .map(|((name, sheet), listing)| Case::new(name, sheet, listing))
        .collect()
}

/// A car above a water level in mm.
pub fn over(car: Car, water_level: u32) -> Car {
    Car { water_level, ..car }
}

fn levels() -> Vec<Named> {
    vec![
        (
            "accepted-levels-of-3-5-and-7-tenths",
            on_rack(&[
                two(0, 1),
                two(1, 0),
                four(0, 2, 0, 1),
                four(0, 2, 1, 1),
                four(2, 0, 1, 0),
                two(1, 1),
            ]),
        ),
        (
            "accepted-tenths-of-two-and-of-three-readings",
            on_rack(&[
                two(1500, 1501),
                two(1501, 1500),
                four(1500, 1501, 1504, 1504),
                four(1500, 1502, 1500, 1501),
                four(1502, 1500, 1501, 1501),
                four(1500, 1503, 1501, 1503),
                four(1500, 1503, 1502, 1502),
                four(1500, 1502, 1501, 1503),
            ]),
        ),
        (
            "accepted-levels-that-differ-by-tenths",
            on_rack(&[
                two(1500, 1500),
                four(1500, 1502, 1500, 1501),
                two(1500, 1501),
                four(1500, 1502, 1501, 1501),
                two(1501, 1501),
            ]),
        ),
    ]
}

fn rows() -> Vec<Named> {
    // A unit of 0.01 dm³ to the mm, so that half a mm is half a unit.
    let units = "T 1 2\nR 0 0\nR 100 1";
    let cars = [
        two(0, 1),
        two(1, 2),
        two(2, 3),
        four(0, 2, 0, 1),
        four(0, 2, 1, 1),
        four(3, 5, 3, 4),
        over(two(2, 3), 1),
        over(two(4, 5), 4),
    ];
    let cars: Vec<Car> = cars.iter().zip(1..).map(|(car, number)| Car { number, ..*car }).collect();
    vec![
        (
            "accepted-levels-by-tenths-around-rows",
            on_rack(&[
                two(999, 1000),
                four(999, 1001, 1000, 1000),
                two(1000, 1000),
                four(1000, 1002, 1000, 1001),
                two(1000, 1001),
                four(2000, 1998, 1999, 2000),
                four(2000, 2002, 2000, 2001),
                over(two(1000, 1001), 1000),
                over(two(2000, 2001), 999),
                over(four(2000, 2002, 2001, 2001), 2000),
            ]),
        ),
        ("rounding-capacity-at-tenths-half-goes-up", cars_on(units, &cars)),
    ]
}

fn ends() -> Vec<Named> {
    vec![(
        "refusal-16-above-last-level-by-tenths",
        on_rack(&[
            two(2999, 3000),
            four(2999, 3001, 3000, 3000),
            two(3000, 3000),
            four(3000, 3002, 3000, 3001),
            two(3000, 3001),
            four(3000, 3002, 3001, 3001),
            four(3001, 2998, 3000, 3000),
        ]),
    )]
}

fn waters() -> Vec<Named> {
    vec![
        (
            "refusal-17-water-level-around-tenths",
            on_rack(&[
                over(two(1500, 1501), 1499),
                over(two(1500, 1501), 1500),
                over(two(1500, 1501), 1501),
                over(two(1501, 1500), 1502),
                over(four(1500, 1502, 1500, 1501), 1500),
                over(four(1500, 1502, 1500, 1501), 1501),
                over(four(1500, 1502, 1501, 1501), 1500),
                over(four(1500, 1502, 1501, 1501), 1501),
                over(two(1500, 1500), 1499),
                over(two(1500, 1500), 1500),
                over(four(1500, 1502, 1501, 1503), 1500),
                over(four(1500, 1502, 1501, 1503), 1501),
                over(two(0, 1), 0),
                over(two(0, 1), 1),
            ]),
        ),
        (
            "refusal-17-water-levels-small-times-ten-where-bits-are-cut-off",
            // Ten times as much is 4 in 16 bits, 16 in 18 bits and 4 in 20 and 24 bits.
            on_rack(
                &[CAR, four(1500, 1502, 1501, 1501)]
                    .map(|car| [6_554, 26_216, 104_858, 1_677_722].map(|water| over(car, water)))
                    .concat(),
            ),
        ),
    ]
}

/// Levels below 1 mm, and 16 and 17, for each grade in each of four tables.
fn each_table() -> Vec<Named> {
    let of_each = |car: fn(u32, u32) -> Car| cars_on(TABLES, &of_each(car));
    vec![
        ("refusal-16-by-tenths-in-each-table", of_each(at_the_end)),
        ("refusal-16-by-levels-of-65536-tenths-and-more", of_each(too_high)),
        ("refusal-17-by-tenths-in-each-table", of_each(on_the_water)),
        ("accepted-by-tenths-in-each-table", of_each(just_within)),
        ("accepted-levels-below-1-mm-in-each-table", of_each(below_1_mm)),
    ]
}

/// At the end of a table, and half or a third of a mm past it.
fn at_the_end(end: u32, turn: u32) -> Car {
    match turn {
        0 => two(end, end),
        1 => two(end, end + 1),
        _ => four(end, end + 2, end, end + 1),
    }
}

/// Levels that lie in the table where their tenths are cut to 16 bits.
fn too_high(end: u32, turn: u32) -> Car {
    let level = end - 700 + 6_554;
    match turn {
        0 => two(level, level),
        1 => two(level, level + 1),
        _ => four(level, level + 2, level, level + 1),
    }
}

/// Water at the mean level, and half a mm below it or a third of a mm above.
fn on_the_water(end: u32, turn: u32) -> Car {
    let level = end - 700;
    match (turn, end % 200) {
        (0, 0) => over(two(level, level), level),
        (0, _) => over(four(level - 1, level + 1, level, level + 2), level),
        (1, _) => over(two(level + 1, level), level),
        _ => over(four(level, level + 2, level + 1, level + 1), level + 1),
    }
}

/// Half a mm below the end, and water 1 mm or a third of a mm below the mean level.
fn just_within(end: u32, turn: u32) -> Car {
    let level = end - 700;
    match turn {
        0 => two(end - 1, end),
        1 => over(two(level, level), level - 1),
        _ => over(four(level, level + 2, level, level + 1), level),
    }
}

/// 5, 3 and 7 tenths.
fn below_1_mm(_: u32, turn: u32) -> Car {
    match turn {
        0 => two(0, 1),
        1 => four(0, 2, 0, 1),
        _ => four(0, 2, 1, 1),
    }
}

/// Cars of each grade in each table, three turns of each, by the table's end.
fn of_each(car: fn(u32, u32) -> Car) -> Vec<Car> {
    (0..48)
        .map(|place: u32| {
            let (table, grade, turn) = (place % 4, place / 4 % 4, place / 16);
            let (car_type, end) = ENDS[table as usize];
            Car {
                number: 80_000_001 + place,
                car_type,
                grade: grade + 1,
                stick: 1 + (table + grade + turn) % 2,
                temperature: 450 + 7 * place,
                density: 9_100 + 9 * place,
                water: 10 + place % 20,
                impurities: place % 11,
                ..car(end, turn)
            }
        })
        .collect()
}
