//! A list of cars: the first gets the empty train, each further one the train that the last handed back.

use super::{
    at, numbered, of_grade, with_density, with_temperature, Group, ProbeCar, Train, Vector, CAR,
};

pub fn groups() -> Vec<Group<Vector>> {
    vec![
        Group {
            about:
                "A list of cars, each with the train of the one before: 31 and 32 take no number",
            vectors: of("list", &first()),
        },
        Group {
            about: "Another, in which one number is refused again and again until it is accepted",
            vectors: of("one-number", &second()),
        },
    ]
}

/// The cars of a list, numbered from 1 in their names.
fn of(name: &str, cars: &[ProbeCar]) -> Vec<Vector> {
    let mut train = Train::default();
    let mut vectors = Vec::new();
    for (place, car) in cars.iter().enumerate() {
        let vector = Vector::new(format!("{name}-car-{}", place + 1), &train, *car);
        (_, train) = vector.work_out();
        vectors.push(vector);
    }
    vectors
}

fn first() -> Vec<ProbeCar> {
    let of = |number, car| ProbeCar { number, ..car };
    vec![
        of(7, at(f32::NAN)),
        of(7, at(1500.25)),
        of(7, at(1500.0)),
        of(8, with_density(CAR, 1e7)),
        of(8, with_temperature(CAR, 39.94)),
        of(8, CAR),
        of(8, at(-1.0)),
        of(9, with_density(of_grade(1), 958.44)),
        of(10, with_density(of_grade(1), 958.46)),
        of(0, at(f32::INFINITY)),
        numbered(0),
        of(11, of_grade(4)),
        of(11, with_temperature(CAR, f32::NEG_INFINITY)),
        of(12, ProbeCar { stick: 2, ..of_grade(2) }),
    ]
}

fn second() -> Vec<ProbeCar> {
    vec![
        at(-0.01),
        with_temperature(CAR, f32::NAN),
        with_density(CAR, f32::INFINITY),
        at(1e7),
        with_temperature(CAR, f32::MAX),
        with_density(CAR, 1e8),
        CAR,
        at(f32::NAN),
        CAR,
    ]
}
