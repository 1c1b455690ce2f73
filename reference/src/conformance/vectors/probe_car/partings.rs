//! Cars that are answered otherwise by a program that takes the wrong way named.

use super::{
    at, of_grade, on, past, rack, table, with_density, with_level, with_temperature, Group,
    ProbeCar, Vector, CAR, ROWS,
};

pub fn groups() -> Vec<Group<Vector>> {
    vec![
        Group { about: "How the level is taken", vectors: of_level() },
        Group { about: "How temperature and density are taken", vectors: of_others() },
        Group { about: "What is compared with bounds", vectors: of_bounds() },
        Group { about: "What is tested, and when", vectors: of_tests() },
    ]
}

fn parting(way: &str, car: ProbeCar) -> Vector {
    rack(format!("parting-{way}"), car)
}

fn of_level() -> Vec<Vector> {
    let over = |water_level, level| ProbeCar { water_level, ..at(level) };
    let uneven = [(0, 0), (700, 9_001), (2_800, 70_865)];
    vec![
        parting("level-in-whole-mm", at(1500.4)),
        parting("level-in-whole-mm-goes-up", at(1500.6)),
        parting("level-cut-to-mm", at(1500.9)),
        parting("level-up-to-the-next-mm", at(1500.1)),
        parting("level-as-two-readings-beside-it", at(1500.3)),
        parting("tenths-of-the-level-cut", at(1500.08)),
        parting("tenths-of-the-level-rounded-up", at(1500.02)),
        parting("half-of-the-level-to-even", at(1500.25)),
        parting("half-of-the-level-down", at(1500.75)),
        parting("level-by-its-shortest-text", at(2047.45)),
        parting("level-not-rounded", at(1500.04)),
        parting("level-in-tenths-already", at(150.0)),
        parting("level-in-cm", at(290.0)),
        parting("level-shown-in-mm", at(1500.0)),
        parting("product-in-single-floating-point", at(2047.45)),
        parting("water-level-in-tenths", over(1_000, 1500.0)),
        parting("water-level-not-taken-off", over(700, 1500.0)),
        parting("level-measured-from-the-water", over(400, 1000.0)),
        on("parting-capacities-rounded-once", &uneven, over(100, 300.4)),
    ]
}

fn of_others() -> Vec<Vector> {
    let aluminium = ProbeCar { stick: 2, ..CAR };
    vec![
        parting("temperature-and-density-exchanged", CAR),
        parting("tenths-of-the-temperature-cut", with_temperature(CAR, 60.08)),
        parting("temperature-in-whole-degrees", with_temperature(CAR, 60.4)),
        parting("temperature-not-rounded", with_temperature(CAR, 60.04)),
        parting("half-of-the-temperature-to-even", with_temperature(CAR, 60.25)),
        parting("tenths-of-the-density-cut", with_density(CAR, 950.09)),
        parting("density-in-whole-kilograms", with_density(CAR, 950.4)),
        parting("density-not-rounded", with_density(CAR, 950.04)),
        parting("half-of-the-density-to-even", with_density(CAR, 950.25)),
        parting("density-by-its-shortest-text", with_density(CAR, 990.05)),
        parting("density-as-at-20", CAR),
        parting("density-as-at-the-oil-s-temperature", CAR),
        parting("density-at-20-compared-as-given", with_density(of_grade(1), 958.4)),
        parting("density-at-20-compared-as-given-of-grade-2", with_density(of_grade(2), 963.4)),
        parting("stick-ignored", aluminium),
        parting("stick-taken-for-aluminium", CAR),
        parting("no-expansion-of-the-wall", with_temperature(aluminium, 85.0)),
        parting("stick-not-tested", ProbeCar { stick: 0, ..CAR }),
        parting("stick-3-for-the-probe", ProbeCar { stick: 3, ..CAR }),
    ]
}

fn of_bounds() -> Vec<Vector> {
    let over = |water_level, level| ProbeCar { water_level, ..at(level) };
    vec![
        parting("last-level-compared-with-the-float", at(3000.04)),
        parting("last-level-compared-with-the-float-cut", at(past(300_005))),
        parting("last-level-compared-with-whole-mm", at(3000.3)),
        parting("last-level-not-times-ten", at(2999.9)),
        parting("level-0-by-the-float", at(0.04)),
        parting("level-0-by-whole-mm", at(0.4)),
        parting("levels-below-1-mm-refused", at(0.9)),
        parting("levels-below-1-mm-refused-at-a-tenth", at(past(5))),
        parting("water-level-compared-with-the-float", over(1_500, 1500.04)),
        parting("water-level-compared-with-whole-mm", over(1_500, 1500.3)),
        parting("water-level-not-times-ten", over(1_500, 1499.0)),
        parting("temperature-compared-as-a-float", with_temperature(CAR, 39.96)),
        parting("temperature-compared-as-a-float-above", with_temperature(CAR, 90.04)),
        parting("temperature-compared-in-whole-degrees", with_temperature(CAR, 39.6)),
        parting("temperature-without-a-grade", with_temperature(CAR, 30.0)),
        parting("density-compared-as-a-float", with_density(CAR, 899.96)),
        parting("density-compared-as-a-float-above", with_density(CAR, 990.04)),
        parting("density-compared-in-whole-kilograms", with_density(CAR, 899.6)),
        parting("density-at-20-of-the-float", with_density(of_grade(1), past(95_845))),
        parting("density-compared-by-its-shortest-text", with_density(CAR, 990.05)),
        of_two("bounds-of-the-second-table", at(2999.9)),
        of_two("bounds-of-the-first-table", ProbeCar { car_type: 2, ..at(1000.1) }),
    ]
}

/// A car on one of two tables, of which the second is the shorter.
fn of_two(way: &str, car: ProbeCar) -> Vector {
    Vector { tables: vec![table(1, &ROWS), table(2, &ROWS[..2])], ..parting(way, car) }
}

fn of_tests() -> Vec<Vector> {
    let untyped = |car| ProbeCar { car_type: 2, ..car };
    let nan = f32::NAN;
    let twice = vec![table(1, &ROWS), table(1, &ROWS)];
    let of_twice = |way: &str, car| Vector { tables: twice.clone(), ..parting(way, car) };
    vec![
        parting("14-tested", CAR),
        parting("15-tested", at(1500.9)),
        parting("23-tested", at(2999.5)),
        parting("31-after-12", untyped(with_level(CAR, nan))),
        parting("31-after-10", ProbeCar { number: 0, ..with_level(CAR, nan) }),
        of_twice("31-after-7", with_density(CAR, -1.0)),
        of_twice("32-after-7", with_density(CAR, 1e7)),
        parting("31-of-the-density-after-16", with_density(at(0.0), nan)),
        parting("32-of-the-density-after-16", with_density(at(0.0), 1e7)),
        parting(
            "31-of-the-temperature-after-17",
            ProbeCar { water_level: 1_500, ..with_temperature(CAR, nan) },
        ),
        parting(
            "31-where-the-temperature-is-tested",
            with_density(with_temperature(CAR, 10.0), nan),
        ),
        parting("all-31-before-32", with_temperature(at(1e7), nan)),
        parting("16-for-31", at(-1.0)),
        parting("16-for-32", at(1e7)),
        parting("18-for-31", with_temperature(CAR, -1.0)),
        parting("18-for-32", with_temperature(CAR, 1e7)),
        parting("19-for-31", with_density(CAR, nan)),
        parting("19-for-32", with_density(CAR, f32::MAX)),
        parting("32-for-16", at(9_999_999.0)),
        parting("31-for-minus-zero", with_temperature(CAR, -0.0)),
        parting("32-from-3600-mm-on", at(3600.1)),
        on("parting-negative-level-as-0", &[(0, 0), (3_600, 1)], at(-0.04)),
    ]
}
