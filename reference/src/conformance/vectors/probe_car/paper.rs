//! Cars of the rack card and of the standards, at the levels that their readings gave: the figures are
//! those of the dipped cars.

use super::{
    at, of_grade, on, rack, table, with_density, with_temperature, Group, ProbeCar, Set, Vector,
    CAR,
};
use crate::conformance::sources::CYLINDER;

pub fn groups() -> Vec<Group<Vector>> {
    vec![
        Group { about: "Cars of the rack card", vectors: card() },
        Group { about: "Cars of the standards", vectors: sources() },
        Group { about: "Every grade with either stick", vectors: sticks() },
        Group {
            about: "Cars on each of four tables, on a row and a tenth beside it",
            vectors: tables(),
        },
    ]
}

fn card() -> Vec<Vector> {
    let grade_1 = ProbeCar { grade: 1, water: 0, impurities: 0, ..CAR };
    vec![
        rack("card-first-car", CAR),
        rack("card-level-1501", at(1501.0)),
        rack("card-level-1500.5", at(1500.5)),
        rack("card-level-1", at(1.0)),
        rack("card-level-3000", at(3000.0)),
        rack("refusal-16-card-level-3001", at(3001.0)),
        rack("refusal-17-card-second-car", ProbeCar { water_level: 1_501, ..at(1500.5) }),
        rack("refusal-18-card-temperature-39.9", with_temperature(CAR, 39.9)),
        rack("card-temperature-40", with_temperature(CAR, 40.0)),
        rack("refusal-19-card-density-899.9", with_density(CAR, 899.9)),
        rack("refusal-19-card-density-990.1", with_density(CAR, 990.1)),
        rack("refusal-20-card-water-101", ProbeCar { water: 101, ..CAR }),
        rack("card-water-100", ProbeCar { water: 100, ..CAR }),
        rack("card-density-958.4-of-grade-1", with_density(grade_1, 958.4)),
        rack("refusal-21-card-density-958.5-of-grade-1", with_density(grade_1, 958.5)),
    ]
}

const fn set(level: f32, temperature: f32, density: f32) -> Set {
    Set { level, temperature, density }
}

fn sources() -> Vec<Vector> {
    let cylinder: Vec<(u32, u32)> = (0..).step_by(100).zip(CYLINDER).collect();
    let on_type = |name: &str, rows: &[(u32, u32)], fields: [u32; 7], set| Vector {
        name: name.to_string(),
        tables: vec![table(fields[1], rows)],
        car: ProbeCar::new(fields, set),
    };
    let on_cylinder = |name: &str, fields, set| on_type(name, &cylinder, fields, set);
    let annex = [(0, 0), (100, 435), (2_900, 72_959), (2_910, 73_080)];
    let of_62 = [(0, 0), (2_800, 70_705), (2_810, 70_865)];
    let by_centimetres = [(0, 0), (10, 18), (20, 38), (30, 68)];
    vec![
        on_cylinder("cylinder-first-car", [101, 3, 3, 1, 0, 60, 20], set(2806.5, 52.3, 957.2)),
        on_cylinder("cylinder-second-car", [102, 3, 4, 2, 35, 100, 87], set(2746.0, 68.5, 971.1)),
        on_cylinder("cylinder-third-car", [103, 3, 1, 1, 0, 30, 10], set(1500.5, 20.0, 910.0)),
        on_cylinder("cylinder-fourth-car", [104, 3, 2, 2, 2_999, 0, 12], set(3000.0, 90.0, 900.0)),
        on_type("annex-car", &annex, [1, 85, 4, 1, 100, 100, 100], set(2904.0, 52.3, 963.2)),
        on_type(
            "interpolation-of-type-62",
            &of_62,
            [1, 62, 3, 1, 0, 60, 20],
            set(2806.0, 52.3, 957.2),
        ),
        on("centimetres-level-15", &by_centimetres, at(15.0)),
        on(
            "centimetres-level-29.5-above-water",
            &by_centimetres,
            ProbeCar { water_level: 5, ..at(29.5) },
        ),
        on("refusal-16-centimetres-level-31", &by_centimetres, at(31.0)),
    ]
}

fn sticks() -> Vec<Vector> {
    let of = |grade: u32| {
        [(1, "steel"), (2, "aluminium")].map(|(stick, name)| {
            let car = with_density(ProbeCar { stick, ..of_grade(grade) }, 940.0);
            rack(format!("grade-{grade}-{name}-at-90-degrees"), with_temperature(car, 90.0))
        })
    };
    let coolest = [(1, "steel"), (2, "aluminium")].map(|(stick, name)| {
        let car = ProbeCar { stick, ..of_grade(1) };
        rack(format!("grade-1-{name}-at-20-degrees"), with_temperature(car, 20.0))
    });
    (1..=4).flat_map(of).chain(coolest).collect()
}

fn tables() -> Vec<Vector> {
    let tables = vec![
        table(7, &[(0, 0), (700, 9_001), (1_100, 20_000), (1_500, 33_333), (2_800, 70_865)]),
        table(9_999, &[(0, 0), (3, 1), (1_000, 40_000), (1_500, 50_000), (3_300, 91_000)]),
        table(1, &[(0, 0), (500, 8_000), (1_400, 27_000), (1_500, 30_001), (2_400, 48_001)]),
        table(62, &[(0, 0), (1_000, 200), (1_300, 70_000), (1_500, 77_000), (3_100, 190_000)]),
    ];
    let cars = tables.iter().map(|table| table.car_type).zip(1..);
    let of = |(car_type, grade): (u32, u32)| {
        [1499.9, 1500.0, 1500.1].map(|level| {
            let stick = 1 + grade % 2;
            let car = ProbeCar { car_type, stick, water_level: 250, ..of_grade(grade) };
            let set = set(level, 60.0, 950.0);
            let name = format!("type-{car_type}-of-four-level-{level}");
            Vector { name, tables: tables.clone(), car: ProbeCar { set, ..car } }
        })
    };
    cars.flat_map(of).collect()
}
