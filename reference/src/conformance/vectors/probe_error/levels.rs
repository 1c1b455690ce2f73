//! Levels with each tenth on rows, beside them and between them, and ways to take them otherwise.

use super::super::probe_car::{past, short_of, with_density, with_temperature, SHORT_OF_2048};
use super::{at, level, on, rack, Errors, Group, ProbeCar, Vector, CAR, NONE};

pub fn groups() -> Vec<Group<Vector>> {
    vec![
        Group { about: "Levels around rows: the lower pair on a row", vectors: around_rows() },
        Group { about: "Levels with each tenth between rows", vectors: each_tenth() },
        Group { about: "Levels at halves of a tenth, and beside whole mm", vectors: halves() },
        Group { about: "What a probe's set is taken for", vectors: partings() },
    ]
}

/// The floats that are brought to a row's tenths, and those beside them.
fn around_rows() -> Vec<Vector> {
    let of = |row: u32| {
        let (below, above) = (100 * row - 5, 100 * row + 5);
        [
            (format!("row-{row}-short-of-half-a-tenth-below"), short_of(below)),
            (format!("row-{row}-past-half-a-tenth-below"), past(below)),
            (format!("row-{row}"), row as f32),
            (format!("row-{row}-short-of-half-a-tenth-above"), short_of(above)),
            (format!("row-{row}-past-half-a-tenth-above"), past(above)),
        ]
        .map(|(name, float)| rack(name, at(float), level(20)))
    };
    let last = [
        rack("last-row-short-of-half-a-tenth-above", at(short_of(300_005)), level(100)),
        rack("last-row-past-half-a-tenth-below", at(past(299_995)), level(100)),
    ];
    [1_000, 2_000].into_iter().flat_map(of).chain(last).collect()
}

fn each_tenth() -> Vec<Vector> {
    let of = |tenth: u32| {
        let float = (12_340 + tenth) as f32 / 10.0;
        let name = format!("level-{float}");
        rack(name, ProbeCar { stick: 1 + tenth % 2, ..at(float) }, level(77))
    };
    (0..10).map(of).collect()
}

fn halves() -> Vec<Vector> {
    let levels = [
        ("1", 1.0),
        ("short-of-0.95", short_of(95)),
        ("1500.25", 1500.25),
        ("1500.75", 1500.75),
        ("short-of-2048", SHORT_OF_2048),
    ];
    levels.map(|(name, float)| rack(format!("level-{name}"), at(float), NONE)).to_vec()
}

fn partings() -> Vec<Vector> {
    let density = Errors { density: 10_000, ..NONE };
    let parting = |way: &str, car, errors| rack(format!("parting-{way}"), car, errors);
    vec![
        parting("rows-around-the-float", at(1000.04), level(30)),
        parting("rows-around-the-float-less-steep-above", at(2000.04), level(30)),
        parting("rows-around-the-level-cut-to-mm", at(1000.5), level(30)),
        parting("rows-around-the-nearest-mm", at(1000.3), level(30)),
        parting("rows-not-times-ten", at(150.0), level(10)),
        parting("upper-pair-on-a-row", at(1000.0), level(30)),
        parting("volume-at-the-level-cut-to-mm", at(20.5), level(1)),
        parting("volume-at-the-nearest-mm", at(20.3), level(1)),
        parting("volume-of-the-float", at(20.04), level(1)),
        parting("level-step-in-tenths", CAR, level(60)),
        parting("level-error-in-mm", CAR, level(7)),
        parting("temperature-and-density-exchanged", CAR, density),
        parting("tenths-of-the-temperature-cut", with_temperature(CAR, 60.09), density),
        parting("temperature-not-rounded", with_temperature(CAR, 60.04), density),
        parting("factor-upside-down", with_temperature(CAR, 75.0), density),
        parting("factor-without-temperature", with_temperature(CAR, 85.0), density),
        parting(
            "density-as-at-20",
            with_density(CAR, 912.3),
            Errors { oil_temperature: 20, ..NONE },
        ),
        parting(
            "tenths-of-the-density-cut",
            with_density(CAR, 900.09),
            Errors { oil_temperature: 20, density: 10_000, ..NONE },
        ),
        parting("volume-with-the-water", ProbeCar { water_level: 1_200, ..at(2500.0) }, level(30)),
        parting("pair-around-the-water-level", ProbeCar { water_level: 700, ..CAR }, level(30)),
        parting("refused-for-a-probe", CAR, NONE),
        on(
            "parting-stick-sets-the-level-term",
            &STEEP,
            ProbeCar { stick: 2, ..at(10.0) },
            level(1),
        ),
    ]
}

/// A table that is steep enough for the wall's expansion to show in a level term.
const STEEP: [(u32, u32); 2] = [(0, 0), (3_600, 200_000)];
