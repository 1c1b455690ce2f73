//! The floats on both sides of each bound of a level, a temperature or a density.

use super::{
    at, of_grade, on, past, rack, short_of, table, with_density, with_level, with_temperature,
    Group, ProbeCar, Vector, CAR, IN_16_BITS, IN_24_BITS, SHORT_OF_2048,
};

pub fn groups() -> Vec<Group<Vector>> {
    vec![
        Group { about: "16: a level of no tenth and of one", vectors: lowest_levels() },
        Group {
            about: "16: the last level of a table, and a tenth above",
            vectors: highest_levels(),
        },
        Group {
            about: "16: the last level of each of four tables, and a tenth above",
            vectors: on_four_tables(),
        },
        Group { about: "17: the water level's tenths, and a tenth above", vectors: water_levels() },
        Group { about: "18: temperatures of each grade", vectors: temperatures() },
        Group { about: "19: densities at 15 °C", vectors: densities() },
        Group {
            about: "21: densities at 15 °C at which the density at 20 °C passes",
            vectors: at_20(),
        },
        Group { about: "Tenths up to the largest, and 32 above it", vectors: largest() },
    ]
}

fn lowest_levels() -> Vec<Vector> {
    let refused = [
        ("0", 0.0),
        ("minus-0", -0.0),
        ("smallest-denormal", 1e-45),
        ("largest-denormal", f32::MIN_POSITIVE.next_down()),
        ("0.04", 0.04),
        ("short-of-0.05", short_of(5)),
    ];
    let accepted = [
        ("past-0.05", past(5)),
        ("0.1", 0.1),
        ("0.5", 0.5),
        ("0.9", 0.9),
        ("short-of-0.95", short_of(95)),
        ("past-0.95", past(95)),
    ];
    let refused = refused.map(|(name, level)| (format!("refusal-16-level-{name}"), level));
    let accepted = accepted.map(|(name, level)| (format!("accepted-level-{name}"), level));
    refused.into_iter().chain(accepted).map(|(name, level)| rack(name, at(level))).collect()
}

fn highest_levels() -> Vec<Vector> {
    let full = [(0, 0), (3_600, 200_000)];
    let flat = [(0, 0), (1, 1)];
    let mut vectors = vec![
        rack("accepted-level-short-of-2048", at(SHORT_OF_2048)),
        rack("accepted-level-short-of-2999.95", at(short_of(299_995))),
        rack("accepted-level-past-2999.95", at(past(299_995))),
        rack("accepted-level-3000.04", at(3000.04)),
        rack("accepted-level-short-of-3000.05", at(short_of(300_005))),
        rack("refusal-16-level-past-3000.05", at(past(300_005))),
        rack("refusal-16-level-3000.1", at(3000.1)),
        on("accepted-level-3600", &full, at(3600.0)),
        on("accepted-level-short-of-3600.05", &full, at(short_of(360_005))),
        on("refusal-16-level-past-3600.05", &full, at(past(360_005))),
        on("refusal-16-level-of-36001-tenths", &full, at(3600.1)),
        on("accepted-level-1-of-1", &flat, at(1.0)),
        on("accepted-level-short-of-1.05-of-1", &flat, at(short_of(105))),
        on("refusal-16-level-past-1.05-of-1", &flat, at(past(105))),
    ];
    // In as many bits their tenths are 15,000.
    let cut = [
        ("16", IN_16_BITS),
        ("17", 14_607.2),
        ("20", 106_357.6),
        ("23", 840_360.8),
        ("24", IN_24_BITS),
    ];
    vectors.extend(
        cut.map(|(bits, level)| rack(format!("refusal-16-level-small-in-{bits}-bits"), at(level))),
    );
    vectors
}

fn on_four_tables() -> Vec<Vector> {
    let ends = [(1, 1_000, 20_000), (2, 2_000, 50_000), (3, 1_500, 40_001), (4, 1_800, 45_003)];
    let tables = ends.map(|(of, level, capacity)| table(of, &[(0, 0), (level, capacity)]));
    let of = |(place, last, _): (u32, u32, u32)| {
        let car = ProbeCar { car_type: place, stick: 1 + place % 2, ..of_grade(place) };
        [
            (format!("accepted-last-level-of-table-{place}-of-four"), last as f32),
            (format!("refusal-16-a-tenth-above-table-{place}-of-four"), last as f32 + 0.1),
        ]
        .map(|(name, level)| Vector {
            name,
            tables: tables.to_vec(),
            car: with_level(car, level),
        })
    };
    ends.into_iter().flat_map(of).collect()
}

fn water_levels() -> Vec<Vector> {
    let above = |water_level: u32, level: f32| ProbeCar { water_level, ..at(level) };
    let around = |water_level: u32| {
        let half = 100 * water_level + 5;
        [
            rack(
                format!("refusal-17-water-{water_level}-level-alike"),
                above(water_level, water_level as f32),
            ),
            rack(
                format!("refusal-17-water-{water_level}-level-short-of-half-a-tenth-above"),
                above(water_level, short_of(half)),
            ),
            rack(
                format!("accepted-water-{water_level}-level-past-half-a-tenth-above"),
                above(water_level, past(half)),
            ),
        ]
    };
    let mut vectors: Vec<Vector> = [1, 150, 1_500, 2_999].into_iter().flat_map(around).collect();
    vectors.extend([
        rack("refusal-17-water-1500-level-past-half-a-tenth-below", above(1_500, past(149_995))),
        rack("refusal-17-water-1500-level-1499.9", above(1_500, 1499.9)),
        rack("accepted-water-1500-level-1500.1", above(1_500, 1500.1)),
        rack("accepted-water-1499-level-1500", above(1_499, 1500.0)),
        rack("refusal-17-water-above-the-table", above(3_001, 3000.0)),
        rack("refusal-17-water-times-10-in-32-bits", above(429_496_730, 1500.0)),
        rack("refusal-17-water-times-10-in-32-bits-at-half-a-tenth", above(429_496_730, 0.5)),
        rack("refusal-17-water-in-16-bits", above(65_536, 1500.0)),
        rack("refusal-17-largest-water", above(u32::MAX, 1500.0)),
    ]);
    vectors
}

fn temperatures() -> Vec<Vector> {
    let of = |grade: u32, lowest: u32| {
        let below = 100 * lowest - 5;
        [
            (
                format!("refusal-18-grade-{grade}-short-of-half-a-tenth-below-{lowest}"),
                short_of(below),
            ),
            (format!("accepted-grade-{grade}-past-half-a-tenth-below-{lowest}"), past(below)),
            (format!("accepted-grade-{grade}-at-{lowest}"), lowest as f32),
            (format!("accepted-grade-{grade}-short-of-90.05"), short_of(9_005)),
            (format!("refusal-18-grade-{grade}-past-90.05"), past(9_005)),
        ]
        .map(|(name, temperature)| rack(name, with_temperature(of_grade(grade), temperature)))
    };
    let grades = [(1, 20), (2, 20), (3, 40), (4, 40)];
    let mut vectors: Vec<Vector> =
        grades.into_iter().flat_map(|(grade, low)| of(grade, low)).collect();
    let refused = [
        ("0", 0.0),
        ("minus-0", -0.0),
        ("denormal", 1e-40),
        ("15", 15.0),
        ("20-of-grade-3", 20.0),
        ("600", 600.0),
        ("in-16-bits", 6_613.6),
    ];
    vectors.extend(refused.map(|(name, temperature)| {
        rack(format!("refusal-18-temperature-{name}"), with_temperature(CAR, temperature))
    }));
    vectors
}

fn densities() -> Vec<Vector> {
    let densities = [
        ("refusal-19-density-short-of-899.95", short_of(89_995)),
        ("accepted-density-past-899.95", past(89_995)),
        ("accepted-density-900", 900.0),
        ("accepted-density-short-of-900.05", short_of(90_005)),
        ("accepted-density-past-900.05", past(90_005)),
        ("accepted-density-990", 990.0),
        ("accepted-density-short-of-990.05", short_of(99_005)),
        ("refusal-19-density-past-990.05", past(99_005)),
        ("refusal-19-density-0", 0.0),
        ("refusal-19-density-minus-0", -0.0),
        ("refusal-19-density-9500", 9_500.0),
        ("refusal-19-density-95", 95.0),
        ("refusal-19-density-in-16-bits", 7_503.6),
    ];
    densities.map(|(name, density)| rack(name, with_density(CAR, density))).to_vec()
}

fn at_20() -> Vec<Vector> {
    let of = |grade: u32, hundredths: u32| {
        let name = f64::from(hundredths) / 100.0;
        [
            (format!("accepted-grade-{grade}-short-of-{name}"), short_of(hundredths)),
            (format!("refusal-21-grade-{grade}-past-{name}"), past(hundredths)),
        ]
        .map(|(name, density)| rack(name, with_density(of_grade(grade), density)))
    };
    let mut vectors = [of(1, 95_845), of(2, 96_345)].concat();
    vectors.extend([
        rack("refusal-21-grade-1-990", with_density(of_grade(1), 990.0)),
        rack("refusal-21-grade-2-990", with_density(of_grade(2), 990.0)),
        rack("accepted-grade-3-990", with_density(of_grade(3), 990.0)),
        rack("accepted-grade-4-990", with_density(of_grade(4), 990.0)),
        rack("accepted-grade-2-958.5", with_density(of_grade(2), 958.5)),
    ]);
    vectors
}

fn largest() -> Vec<Vector> {
    [9_999_999.0, 10_000_000.0]
        .into_iter()
        .flat_map(|float: f32| {
            let by = |refusal: u32| if float < 10_000_000.0 { refusal } else { 32 };
            [
                rack(format!("refusal-{}-level-{float}", by(16)), at(float)),
                rack(
                    format!("refusal-{}-temperature-{float}", by(18)),
                    with_temperature(CAR, float),
                ),
                rack(format!("refusal-{}-density-{float}", by(19)), with_density(CAR, float)),
            ]
        })
        .collect()
}
