//! Two faults or more, of which the one that is tested first is given.

use super::{
    faulty_sets, of_grade, rack, table, with_density, with_level, with_temperature, Group,
    HandedIn, ProbeCar, Vector, CAR, ROWS,
};

pub fn groups() -> Vec<Group<Vector>> {
    vec![
        Group { about: "31 and 32 before the refusals of tables", vectors: before_tables() },
        Group { about: "31 and 32 before each refusal of a car", vectors: before_car() },
        Group {
            about: "Two refusals, one of which directly follows the other",
            vectors: neighbours(),
        },
        Group { about: "32 of a float before 31 of the next", vectors: between_floats() },
        Group { about: "All faults from one on", vectors: staircase() },
    ]
}

/// Tables that 7 and 8 turn away.
pub fn wrong_tables() -> [(u32, &'static str, Vec<HandedIn>); 2] {
    [
        (7, "type-twice", vec![table(1, &ROWS), table(1, &ROWS)]),
        (8, "second-table", vec![table(1, &ROWS), table(2, &[(0, 0), (5, 5), (5, 6)])]),
    ]
}

/// The rack card's car with each of its faults, by the refusal that they give, and what a fault is of.
pub fn wrong_cars() -> Vec<(u32, &'static str, ProbeCar)> {
    let dense = with_density(ProbeCar { grade: 1, water: 0, impurities: 0, ..CAR }, 958.5);
    vec![
        (10, "number", ProbeCar { number: 0, ..CAR }),
        (12, "type", ProbeCar { car_type: 2, ..CAR }),
        (13, "grade", ProbeCar { grade: 5, ..CAR }),
        (13, "stick", ProbeCar { stick: 0, ..CAR }),
        (16, "level", with_level(CAR, 0.0)),
        (17, "water-level", ProbeCar { water_level: u32::MAX, ..CAR }),
        (18, "temperature", with_temperature(CAR, 39.9)),
        (19, "density", with_density(CAR, 899.9)),
        (20, "water", ProbeCar { water: 101, ..CAR }),
        (21, "density", dense),
    ]
}

fn before_tables() -> Vec<Vector> {
    let mut vectors = Vec::new();
    for (behind, wrong, tables) in wrong_tables() {
        for (first, fault, set) in faulty_sets(CAR.set) {
            let name = format!("order-{first}-before-{behind:02}-{fault}-and-{wrong}");
            let car = ProbeCar { set, ..CAR };
            vectors.push(Vector { name, tables: tables.clone(), car });
        }
    }
    vectors
}

/// A float cannot be both refused by 31 or 32 and have the other fault of its own.
fn before_car() -> Vec<Vector> {
    let mut vectors = Vec::new();
    for (behind, wrong, car) in wrong_cars() {
        for (first, fault, set) in faulty_sets(car.set) {
            if !fault.starts_with(wrong) {
                let name = format!("order-{first}-before-{behind}-{fault}-and-{wrong}");
                vectors.push(rack(name, ProbeCar { set, ..car }));
            }
        }
    }
    vectors
}

fn neighbours() -> Vec<Vector> {
    let of = |name: &str, tables: Vec<HandedIn>, car| Vector {
        name: format!("order-{name}"),
        tables,
        car,
    };
    let on = |name: &str, car| of(name, vec![table(1, &ROWS)], car);
    let (sound, wrong) = (table(1, &ROWS), table(2, &[(0, 0), (0, 1)]));
    let unnumbered = ProbeCar { number: 0, ..CAR };
    let cool = |car| with_temperature(car, 39.9);
    let light = |car| with_density(car, 899.9);
    let wet = |car| ProbeCar { water: 101, ..car };
    vec![
        of("07-before-08-in-one-table", vec![sound.clone(), table(1, &[(0, 1), (1, 2)])], CAR),
        of("08-before-07-of-a-later-table", vec![wrong.clone(), table(0, &ROWS)], CAR),
        of("07-before-10", vec![sound.clone(), sound.clone()], unnumbered),
        of("08-before-10", vec![sound, wrong], unnumbered),
        on("10-before-12", ProbeCar { car_type: 2, ..unnumbered }),
        on("12-before-13-grade", ProbeCar { car_type: 2, grade: 0, ..CAR }),
        on("12-before-13-stick", ProbeCar { car_type: 2, stick: 0, ..CAR }),
        on("13-before-16-grade", with_level(ProbeCar { grade: 0, ..CAR }, 0.0)),
        on("13-before-16-stick", with_level(ProbeCar { stick: 3, ..CAR }, 3000.1)),
        on("16-before-17-level-0", with_level(CAR, 0.0)),
        on(
            "16-before-17-above-the-table",
            with_level(ProbeCar { water_level: 3_002, ..CAR }, 3001.0),
        ),
        on("17-before-18", cool(ProbeCar { water_level: 1_500, ..CAR })),
        on("18-before-19", light(cool(CAR))),
        on("19-before-20", wet(light(CAR))),
        on("20-before-21", wet(with_density(of_grade(1), 958.5))),
        on("19-before-21", with_density(of_grade(1), 990.1)),
        on("18-before-21", with_temperature(with_density(of_grade(2), 963.5), 90.1)),
        on("16-before-18", with_level(cool(CAR), 0.0)),
        on("16-before-19", with_level(light(CAR), 0.0)),
    ]
}

fn between_floats() -> Vec<Vector> {
    let car = with_density(with_temperature(CAR, 1e7), f32::NAN);
    vec![rack("order-32-before-31-temperature-and-density", car)]
}

/// A car with every fault that can stand together, then with one less at a time.
fn staircase() -> Vec<Vector> {
    let sound = of_grade(1);
    let of_21 = with_density(sound, 958.5);
    let of_20 = ProbeCar { water: 31, ..of_21 };
    let of_18 = with_temperature(of_20, 19.9);
    let of_17 = ProbeCar { water_level: 1_500, ..of_18 };
    let of_16 = with_level(of_17, -0.0);
    let of_13 = ProbeCar { stick: 0, ..of_16 };
    let of_12 = ProbeCar { car_type: 9, ..of_13 };
    let of_10 = ProbeCar { number: 100_000_000, ..of_12 };
    let of_32 = with_density(of_10, 1e7);
    let of_31 = with_temperature(of_32, f32::NEG_INFINITY);
    let level_32 = with_level(of_31, f32::MAX);
    let level_31 = with_level(of_31, f32::NAN);
    let cars = [
        ("31-before-32-all-faults", level_31),
        ("32-before-31-all-faults-from-the-level-s-32-on", level_32),
        ("31-before-32-all-faults-from-the-temperature-s-31-on", of_31),
        ("32-before-07-all-faults-from-the-density-s-32-on", of_32),
        ("07-before-10-all-faults-from-the-tables-on", of_10),
    ];
    let behind = [
        ("10-before-12", of_10),
        ("12-before-13", of_12),
        ("13-before-16", of_13),
        ("16-before-17", of_16),
        ("17-before-18", of_17),
        ("18-before-20", of_18),
        ("20-before-21", of_20),
    ];
    let tables = vec![table(1, &ROWS), table(1, &[(0, 1), (1, 2)])];
    let of = |name: &str, tables: &[HandedIn], car| Vector {
        name: format!("order-{name}"),
        tables: tables.to_vec(),
        car,
    };
    cars.into_iter()
        .map(|(name, car)| of(name, &tables, car))
        .chain(
            behind
                .into_iter()
                .map(|(name, car)| of(&format!("{name}-and-all-behind"), &tables[..1], car)),
        )
        .collect()
}
