//! Cars that are handed in with a train: accepted, refused, turned away.

use super::{
    but, held, made, many, of_nearly, six, sixty_accepted, with_free, Group, Vector, NEARLY, SIX,
};
use crate::car::Car;
use crate::conformance::rack::CAR;
use crate::sheet::Event;
use crate::train::Train;

pub fn groups() -> Vec<Group<Vector>> {
    vec![
        Group { about: "A car is entered", vectors: entered() },
        Group { about: "A car is refused, and its number is held", vectors: refused() },
        Group { about: "10 and 11: a car is turned away", vectors: turned_away() },
        Group { about: "9: a car where sixty are held", vectors: full() },
    ]
}

fn with(name: &str, train: &Train, car: Car) -> Vector {
    Vector { name: name.to_string(), train: train.clone(), asked: Event::Enter(car) }
}

fn entered() -> Vec<Vector> {
    let of_grade = |grade: u32| {
        let car = Car { grade, density: 9_400, water: 30, impurities: 10, ..CAR };
        with(&format!("car-of-grade-{grade}"), &six(), car)
    };
    let most = made(&[held(1, 4, 12_000_000, 12_000_000)]);
    let odd = made(&[held(0, 1, 10, 9), held(100_000_000, 0, 0, 0), held(u32::MAX, 3, 8, 7)]);
    let masses = but(six(), |train| (train.places[2].gross, train.places[2].net) = (9, 8));
    let rest = with_free(six(), &[(7, held(77, 2, 6, 5)), (8, held(CAR.number, 1, 1, 1))]);
    let nearly = NEARLY.map(|(part, first, second)| {
        let name = format!("car-beside-two-numbers-alike-in-{part}");
        Vector::car(name, &of_nearly(first, second), CAR.number)
    });
    (1..=4)
        .map(of_grade)
        .chain(nearly)
        .chain([
            Vector::car("car-on-the-empty-train", &Train::default(), CAR.number),
            Vector::car("car-on-59", &many(59), CAR.number),
            Vector::car("car-on-58", &many(58), CAR.number),
            Vector::car("car-number-1", &six(), 1),
            Vector::car("car-number-99999999", &six(), 99_999_999),
            Vector::car("car-on-totals-of-12000000", &most, CAR.number),
            Vector::car("car-beside-numbers-that-no-car-can-have", &odd, CAR.number),
            Vector::car("car-beside-a-refused-car-with-masses", &masses, CAR.number),
            Vector::car("car-whose-number-stands-in-a-free-place", &rest, CAR.number),
            Vector::car("car-in-the-first-free-place", &rest, 78),
            Vector::car("car-whose-number-stands-in-the-place-that-it-takes", &rest, 77),
        ])
        .collect()
}

fn refused() -> Vec<Vector> {
    let rest = with_free(six(), &[(7, held(77, 2, 6, 5)), (8, held(3, 3, 3, 3))]);
    let cool = Car { temperature: 399, ..CAR };
    vec![
        with("refusal-12-car-number-held", &six(), Car { car_type: 2, ..CAR }),
        with("refusal-13-car-of-grade-5", &six(), Car { grade: 5, ..CAR }),
        with("refusal-18-car-on-59", &many(59), cool),
        with("refusal-18-car-on-the-empty-train", &Train::default(), cool),
        with("refusal-18-car-in-the-first-free-place", &rest, cool),
        with("refusal-21-car-of-grade-1", &six(), dense()),
    ]
}

/// Too dense for grade 1.
fn dense() -> Car {
    Car { grade: 1, density: 9_585, water: 0, impurities: 0, ..CAR }
}

fn turned_away() -> Vec<Vector> {
    let odd = made(&[held(0, 0, 0, 0), held(100_000_000, 1, 5, 4)]);
    let wrong = Car { number: 12, car_type: 2, ..CAR };
    let mut vectors: Vec<Vector> = [0, 100_000_000, 4_000_000_000, u32::MAX]
        .map(|number| Vector::car(format!("refusal-10-car-number-{number}"), &six(), number))
        .to_vec();
    vectors.extend(SIX.map(|car| {
        let name = format!("refusal-11-car-number-{}", car.number);
        Vector::car(name, &six(), car.number)
    }));
    vectors.extend([
        Vector::car("refusal-11-car-number-of-the-last-of-59", &many(59), 159),
        Vector::car("order-10-before-11-number-0-that-is-held", &odd, 0),
        Vector::car("order-10-before-11-number-of-nine-digits-that-is-held", &odd, 100_000_000),
        with("order-11-before-12-held-number", &six(), wrong),
    ]);
    vectors
}

fn full() -> Vec<Vector> {
    let refused: Vec<_> = (1..=60).map(|number| held(number, 0, 0, 0)).collect();
    vec![
        Vector::car("refusal-09-car-on-sixty", &many(60), CAR.number),
        Vector::car("refusal-09-car-on-sixty-refused", &made(&refused), CAR.number),
        Vector::car("refusal-09-car-on-sixty-accepted", &sixty_accepted(), CAR.number),
        Vector::car("order-09-before-10-sixty-held", &many(60), 0),
        Vector::car("order-09-before-11-sixty-held", &many(60), 160),
        with("order-09-before-12-sixty-held", &many(60), Car { car_type: 2, ..CAR }),
        with("order-09-before-21-sixty-held", &many(60), dense()),
    ]
}
