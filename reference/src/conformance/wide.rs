//! Numbers that a program with words of 8, 16 or 18 bits would cut to others that pass.

use super::levels::four;
use super::rack::{self, numbered, CAR, NONE_ACCEPTED};
use super::text::{change, columns};
use super::Case;
use crate::car::{Car, FIELDS};

pub fn cases() -> Vec<Case> {
    let rack = rack::sheet();
    vec![
        numbered(
            "refusal-12-to-20-by-numbers-65536-too-high",
            &raised(65_536, 1..FIELDS),
            "X 1 12
             X 2 13
             X 3 13
             X 4 14
             X 5 15
             X 6 15
             X 7 14
             X 8 14
             X 9 17
             X 10 18
             X 11 19
             X 12 20
             X 13 20
             S 0 0 0
             G 1 0 0 0
             G 2 0 0 0
             G 3 0 0 0
             G 4 0 0 0",
        ),
        numbered(
            "refusal-12-to-20-by-numbers-256-too-high",
            &[raised(256, 1..5), raised(256, 12..FIELDS), sticks()].concat(),
            "X 1 12
             X 2 13
             X 3 13
             X 4 14
             X 5 20
             X 6 20
             X 7 13
             X 8 13
             X 9 13
             S 0 0 0
             G 1 0 0 0
             G 2 0 0 0
             G 3 0 0 0
             G 4 0 0 0",
        ),
        numbered(
            "refusal-15-and-16-by-readings-65536-apart",
            &[
                Car { readings: [1500, 67_036, 0, 0], ..CAR },
                Car { readings: [67_036, 1500, 0, 0], ..CAR },
                Car { readings: [67_036, 67_036, 0, 0], ..CAR },
                four(1500, 67_036, 1501, 1503),
                four(67_036, 67_038, 67_037, 1500),
                four(1500, 67_039, 67_036, 67_038),
                four(1500, 1502, 1501, 67_037),
                four(1500, 1503, 1501, 1600),
            ],
            "X 1 15
             X 2 15
             X 3 16
             A 4 15013 3503900 3396295 32265 32039
             X 5 16
             X 6 16
             A 7 15010 3503000 3395423 32257 32031
             A 8 15013 3503900 3396295 32265 32039
             S 3 96787 96109
             G 1 0 0 0
             G 2 0 0 0
             G 3 3 96787 96109
             G 4 0 0 0",
        ),
        numbered(
            "refusal-23-by-spans-of-256-and-65536",
            &[
                four(1500, 1756, 1501, 2100),
                four(1500, 1758, 1600, 2900),
                four(1000, 1757, 1501, 1502),
                four(1500, 1510, 67_036, 67_046),
                four(1500, 1508, 67_040, 67_044),
                four(1500, 67_038, 1501, 99_999_999),
            ],
            &format!(
                "X 1 23
                 X 2 23
                 X 3 23
                 X 4 23
                 X 5 23
                 X 6 23
                 {NONE_ACCEPTED}"
            ),
        ),
        Case::new("refusal-07-type-65537", columns("T 65537 2\nR 0 0\nR 9 9\nE 0"), "Z 1 7"),
        Case::new("refusal-07-65538-rows", columns("T 1 65538\nR 0 0\nR 9 9\nE 0"), "Z 1 7"),
        Case::new("refusal-08-level-65545", columns("T 1 2\nR 0 0\nR 65545 9\nE 0"), "Z 3 8"),
        Case::new("refusal-08-capacity-262153", columns("T 1 2\nR 0 0\nR 9 262153\nE 0"), "Z 3 8"),
        Case::new("refusal-09-count-65537", change(&rack, 7, b"     1", b" 65537"), "Z 7 9"),
    ]
}

/// Cars of the other grades with a stick that is 256 too high.
fn sticks() -> Vec<Car> {
    let of = |grade| Car { grade, stick: 257, water: 0, impurities: 0, density: 9400, ..CAR };
    [1, 2, 4].map(of).to_vec()
}

/// The paper's car once for each of some fields, the field too high.
fn raised(by: u32, fields: std::ops::Range<usize>) -> Vec<Car> {
    fields
        .map(|field| {
            let mut numbers = <[u32; FIELDS]>::from(CAR);
            numbers[field] += by;
            Car::from(numbers)
        })
        .collect()
}
