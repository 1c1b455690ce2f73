//! Two faults, of which the one that is tested first is given: 31 and 32, 7 and 8, 9, 10, 11, then the
//! car's others.

use super::super::probe_car::{faulty_sets, wrong_cars, wrong_tables};
use super::{
    at, numbered, six, sixty, train_of, unsound, with_density, with_temperature, Group, ProbeCar,
    Train, Vector, CAR,
};

pub fn groups() -> Vec<Group<Vector>> {
    vec![
        Group { about: "31 and 32 before 7 and 8, 9, 10, 11 and 12", vectors: floats_first() },
        Group { about: "31 and 32 of a float before those of the next", vectors: between_floats() },
        Group { about: "7 and 8 before 9", vectors: tables_first() },
        Group { about: "9 before the refusals of a car", vectors: train_first() },
        Group { about: "10 before 11, 11 before the refusals behind it", vectors: numbers_first() },
    ]
}

fn floats_first() -> Vec<Vector> {
    let mut vectors = Vec::new();
    for (first, fault, set) in faulty_sets(CAR.set) {
        let car = ProbeCar { set, ..CAR };
        let of = |behind: &str, train: &Train, car| {
            Vector::new(format!("order-{first}-before-{behind}-{fault}"), train, car)
        };
        for (behind, _, tables) in wrong_tables() {
            vectors.push(Vector { tables, ..of(&format!("{behind:02}"), &six(), car) });
        }
        vectors.extend([
            of("09-unsound-train", &unsound(), car),
            of("09-full-train", &sixty(), car),
            of("10", &six(), ProbeCar { number: 0, ..car }),
            of("11", &six(), ProbeCar { number: 12, ..car }),
            of("12", &six(), ProbeCar { car_type: 2, ..car }),
            of("13", &six(), ProbeCar { stick: 0, ..car }),
        ]);
    }
    vectors
}

fn between_floats() -> Vec<Vector> {
    let (by_31, by_32) = (f32::NAN, 1e7);
    let cars = [
        ("31-before-32-level-and-temperature", with_temperature(at(by_31), by_32)),
        ("32-before-31-temperature-and-density", with_density(with_temperature(CAR, by_32), by_31)),
    ];
    cars.map(|(name, car)| Vector::new(format!("order-{name}"), &six(), car)).to_vec()
}

fn tables_first() -> Vec<Vector> {
    let trains = [("unsound-train", unsound()), ("full-train", sixty())];
    let of = |(on, train)| {
        wrong_tables().map(|(first, fault, tables)| {
            let name = format!("order-{first:02}-before-09-{fault}-and-{on}");
            Vector { tables, ..Vector::new(name, &train, CAR) }
        })
    };
    trains.into_iter().flat_map(of).collect()
}

fn train_first() -> Vec<Vector> {
    let held = (11, "held-number", numbered(12));
    let cars = wrong_cars().into_iter().chain([held]);
    let mut vectors: Vec<Vector> = cars
        .map(|(behind, fault, car)| {
            Vector::new(
                format!("order-09-before-{behind}-{fault}-and-unsound-train"),
                &unsound(),
                car,
            )
        })
        .collect();
    vectors.extend([
        Vector::new("order-09-before-10-full-train", &sixty(), numbered(0)),
        Vector::new("order-09-before-11-full-train", &sixty(), numbered(160)),
        Vector::new("order-09-before-12-full-train", &sixty(), ProbeCar { car_type: 2, ..CAR }),
    ]);
    vectors
}

fn numbers_first() -> Vec<Vector> {
    let odd = train_of("order-10-before-11-number-0-that-is-held");
    let of_held = wrong_cars().into_iter().filter(|(behind, ..)| *behind > 11);
    let held = of_held.map(|(behind, fault, car)| {
        let name = format!("order-11-before-{behind}-{fault}");
        Vector::new(name, &six(), ProbeCar { number: 12, ..car })
    });
    [
        Vector::new("order-10-before-11-number-0-that-is-held", &odd, numbered(0)),
        Vector::new(
            "order-10-before-11-number-of-nine-digits-that-is-held",
            &odd,
            numbered(100_000_000),
        ),
    ]
    .into_iter()
    .chain(held)
    .collect()
}
