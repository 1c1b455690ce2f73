//! Levels with tenths of a millimetre: the rows around them, the level term, the bounds of 16, 17 and 25.

use super::ranges::FLAT;
use super::{above, at, between, of_four, on, rack, Group, Vector, ERRORS, NONE};
use crate::car::Car;
use crate::permitted::Errors;

pub fn groups() -> Vec<Group<Vector>> {
    vec![
        Group { about: "Levels with tenths, around rows", vectors: around_rows() },
        Group { about: "What tenths are taken for", vectors: partings() },
        Group { about: "Bounds that a tenth passes", vectors: bounds() },
    ]
}

const fn level(error: u32) -> Errors {
    Errors { level: error, ..NONE }
}

/// Readings whose mean has so many tenths past a level in mm, or short of it.
fn past(mm: u32, tenths: i32) -> Car {
    match tenths {
        -5 => between(mm - 1, mm),
        -3 => of_four([mm, mm - 2, mm - 1, mm]),
        3 => of_four([mm, mm + 2, mm, mm + 1]),
        5 => between(mm + 1, mm),
        7 => of_four([mm, mm + 2, mm + 1, mm + 1]),
        _ => at(mm),
    }
}

fn around_rows() -> Vec<Vector> {
    let of_row = |row: u32, tenths: i32| {
        let name = format!("level-{}", i64::from(10 * row) + i64::from(tenths));
        rack(&name, past(row, tenths), level(20))
    };
    let rows = [1_000, 2_000].into_iter();
    let mut vectors: Vec<Vector> =
        rows.flat_map(|row| [-5, -3, 3, 5, 7].map(|tenths| of_row(row, tenths))).collect();
    vectors.extend([
        rack("level-29995", past(3_000, -5), level(100)),
        rack("rack-car-15005", past(1_500, 5), ERRORS),
        rack("rack-car-15003", past(1_500, 3), ERRORS),
        rack("rack-car-10005", past(1_000, 5), ERRORS),
    ]);
    vectors
}

fn partings() -> Vec<Vector> {
    vec![
        rack("parting-rows-around-the-level-cut-to-mm", past(1_000, 5), level(30)),
        rack("parting-rows-around-the-level-cut-to-mm-less-steep-above", past(2_000, 7), level(30)),
        rack("parting-rows-around-the-nearest-mm", past(1_000, 3), level(30)),
        rack("parting-rows-around-the-nearest-mm-less-steep-above", past(2_000, 3), level(30)),
        rack("parting-rows-not-times-ten", at(150), level(10)),
        rack("parting-level-step-in-tenths", at(1_500), level(60)),
        rack("parting-level-error-in-mm", at(1_500), level(7)),
        rack("parting-volume-at-the-level-cut-to-mm", between(20, 21), level(1)),
        rack("parting-volume-at-the-nearest-mm", of_four([20, 22, 20, 21]), level(1)),
    ]
}

fn bounds() -> Vec<Vector> {
    let wrong = Errors { capacity: 10_001, ..NONE };
    let on_water = |car: Car, water_level| Car { water_level, ..car };
    vec![
        rack("accepted-level-of-3-tenths-without-level-error", of_four([0, 2, 0, 1]), NONE),
        rack("accepted-level-of-5-tenths-without-level-error", between(0, 1), NONE),
        rack("refusal-25-level-of-3-tenths", of_four([0, 2, 0, 1]), level(1)),
        rack("refusal-25-level-of-7-tenths", of_four([0, 2, 1, 1]), level(1)),
        rack("refusal-25-level-term-10005", past(1_000, -5), level(100)),
        rack("refusal-25-level-term-10003", past(1_000, -3), level(100)),
        on("refusal-25-no-volume-at-17.5-mm", &FLAT, between(17, 18), level(1)),
        on("accepted-one-unit-at-18.5-mm", &FLAT, between(18, 19), NONE),
        on(
            "refusal-25-no-volume-half-a-mm-above-water",
            &FLAT,
            on_water(between(17, 18), 17),
            NONE,
        ),
        rack("accepted-water-half-a-mm-below", on_water(past(1_500, 5), 1_500), NONE),
        rack("refusal-25-water-half-a-mm-below", on_water(past(1_500, 5), 1_500), level(1)),
        rack("order-16-before-24-above-the-table-by-tenths", past(3_000, 3), wrong),
        rack("order-17-before-24-water-above-tenths", on_water(past(1_500, 7), 1_501), wrong),
        rack("order-17-before-24-water-at-the-level", above(1_500, 1_500), wrong),
    ]
}
