//! Each error alone, so that n shows its term to the unit: what goes into a term, and its rounding.

use super::{above, at, on, rack, table, Group, Vector, NONE};
use crate::car::Car;
use crate::conformance::rack::CAR;
use crate::conformance::sources::CYLINDER;
use crate::permitted::Errors;

pub fn groups() -> Vec<Group<Vector>> {
    vec![
        Group { about: "One error alone: its term is left, and no other", vectors: alone() },
        Group { about: "What stands in the level term", vectors: level_terms() },
        Group { about: "What stands in G", vectors: factors() },
        Group { about: "Roundings of each term: down, up, a half going up", vectors: roundings() },
        Group { about: "So near a half that floating point misses it", vectors: beside_halves() },
    ]
}

fn alone() -> Vec<Vector> {
    vec![
        rack("alone-capacity-error", CAR, Errors { capacity: 4_999, ..NONE }),
        rack("alone-density-error", CAR, density(1_600)),
        rack("alone-processing-error", CAR, Errors { processing: 501, ..NONE }),
        rack("alone-density-temperature-error", CAR, density_temperature(5)),
        rack("alone-oil-temperature-error", CAR, oil_temperature(5)),
        rack("alone-level-error", CAR, level(30)),
    ]
}

fn level_terms() -> Vec<Vector> {
    let four = Car { given: 4, readings: [999, 1_003, 1_002, 1_001], ..CAR };
    let mut vectors = vec![
        rack("parting-upper-pair-on-a-row", at(1_000), level(30)),
        rack("parting-upper-pair-on-a-row-less-steep-above", at(2_000), level(30)),
        rack("parting-lower-pair-above-a-row", at(2_001), level(30)),
        rack("parting-pair-around-the-water-level", above(1_500, 700), level(30)),
        rack("parting-pair-around-the-first-reading", four, level(30)),
        rack("parting-v0-with-the-water", above(2_500, 1_200), level(30)),
        rack("parting-v15-for-v0", Car { temperature: 900, density: 9_000, ..CAR }, level(90)),
        rack("parting-steps-exchanged", at(2_345), level(77)),
        rack("level-in-the-first-pair", at(777), level(30)),
        rack("level-on-the-last-row", at(3_000), level(100)),
        on("level-between-31-rows", &cylinder(), above(1_555, 35), level(30)),
    ];
    vectors.extend((0..4).flat_map(|place| [1_500, 1_501].map(|level| on_table(place, level))));
    vectors
}

/// A level in mm in one of four tables.
fn on_table(place: usize, mean: u32) -> Vector {
    of_four_tables(&format!("level-{}", 10 * mean), place, above(mean, 250))
}

/// A car of each grade on its own of four tables, which all have a row at 1,500 mm and are not equally
/// steep there; readings and water level are those of the car handed in.
pub fn of_four_tables(name: &str, place: usize, car: Car) -> Vector {
    let tables = vec![
        table(7, &[(0, 0), (700, 9_001), (1_100, 20_000), (1_500, 33_333), (2_800, 70_865)]),
        table(9_999, &[(0, 0), (3, 1), (1_000, 40_000), (1_500, 50_000), (3_300, 91_000)]),
        table(1, &[(0, 0), (500, 8_000), (1_400, 27_000), (1_500, 30_001), (2_400, 48_001)]),
        table(62, &[(0, 0), (1_000, 200), (1_300, 70_000), (1_500, 77_000), (3_100, 190_000)]),
    ];
    let car = Car {
        car_type: tables[place].car_type,
        grade: place as u32 + 1,
        stick: 1 + place as u32 % 2,
        water: 10,
        impurities: 5,
        ..car
    };
    let name = format!("{name}-in-table-{}-of-four", place + 1);
    Vector { name, tables, car, errors: level(25) }
}

fn factors() -> Vec<Vector> {
    let with = |temperature, density| Car { temperature, density, ..CAR };
    let cool = |grade, density| Car { grade, water: 30, impurities: 10, ..with(200, density) };
    vec![
        rack("parting-factor-upside-down", with(750, 9_300), density(5_000)),
        rack("parting-15-degrees-above-the-line", with(400, 9_900), density(3_000)),
        rack("parting-20-degrees-below-the-line", cool(1, 9_100), density(10_000)),
        rack("parting-factor-left-out-of-density-temperature", CAR, density_temperature(20)),
        rack("parting-factor-on-oil-temperature", CAR, oil_temperature(20)),
        rack("parting-density-temperature-rounded-once", CAR, density_temperature(1)),
        rack("parting-density-temperature-rounded-once-goes-up", CAR, density_temperature(6)),
        rack("factor-largest", with(900, 9_000), density(10_000)),
        rack("factor-smallest", cool(2, 9_634), density(10_000)),
    ]
}

fn roundings() -> Vec<Vector> {
    let with = |temperature, density| Car { temperature, density, ..CAR };
    vec![
        rack("rounding-level-term-down", CAR, level(10)),
        rack("rounding-level-term-up", CAR, level(1)),
        rack("rounding-level-term-half-goes-up", at(320), level(1)),
        rack("rounding-oil-temperature-term-down", CAR, oil_temperature(6)),
        rack("rounding-oil-temperature-term-up", CAR, oil_temperature(1)),
        rack("rounding-oil-temperature-term-half-goes-up", with(600, 9_484), oil_temperature(10)),
        rack("rounding-density-temperature-term-down", CAR, density_temperature(17)),
        rack("rounding-density-temperature-term-up", CAR, density_temperature(3)),
        rack(
            "rounding-density-temperature-term-half-goes-up",
            with(600, 9_484),
            density_temperature(10),
        ),
        rack("rounding-factor-down", CAR, density(9_986)),
        rack("rounding-factor-up", with(777, 9_333), density(10_000)),
        rack("rounding-density-by-factor-down", CAR, density(2_834)),
        rack("rounding-density-by-factor-up", CAR, density(500)),
        rack("rounding-density-by-factor-half-goes-up", with(650, 9_034), density(60)),
        rack("rounding-density-temperature-by-factor-down", CAR, density_temperature(2)),
        rack("rounding-density-temperature-by-factor-up", CAR, density_temperature(10)),
        rack(
            "rounding-density-temperature-by-factor-half-goes-up",
            with(763, 9_188),
            density_temperature(6),
        ),
    ]
}

fn beside_halves() -> Vec<Vector> {
    let with = |temperature, density| Car { temperature, density, ..CAR };
    vec![
        rack("half-missed-by-level-term", at(1_123), level(70)),
        rack("half-missed-by-density-by-factor", CAR, density(4_997)),
        rack(
            "half-missed-by-density-temperature-by-factor",
            with(594, 9_014),
            density_temperature(18),
        ),
        rack(
            "half-just-missed-by-density-temperature-by-factor",
            with(798, 9_013),
            density_temperature(15),
        ),
        rack("half-missed-by-factor-at-42.6-degrees", with(426, 9_000), density(9_844)),
        rack("half-missed-by-factor-at-63.8-degrees", with(638, 9_001), density(9_675)),
        rack("half-missed-by-factor-just-above", with(751, 9_006), density(9_806)),
        rack("half-missed-by-factor-just-below", with(741, 9_034), density(10_000)),
    ]
}

const fn density(error: u32) -> Errors {
    Errors { density: error, ..NONE }
}

const fn density_temperature(error: u32) -> Errors {
    Errors { density_temperature: error, ..NONE }
}

const fn oil_temperature(error: u32) -> Errors {
    Errors { oil_temperature: error, ..NONE }
}

const fn level(error: u32) -> Errors {
    Errors { level: error, ..NONE }
}

/// The lying cylinder's rows, every 10 cm.
fn cylinder() -> Vec<(u32, u32)> {
    (0..).step_by(100).zip(CYLINDER).collect()
}
