//! The portable probe: its readings and sets in tenths, its car alone, with its permitted error and in a train.

use outside::slices::Slices;
use outside::train::state_of;
use outside::{ERRORS, FIGURES, PERMITTED, PROBE_FIELDS, SET};
use reference::conformance::vectors::probe::Asked;
use reference::conformance::vectors::{all, probe, probe_car, probe_error, probe_train, read};
use reference::probe::{ProbeCar, Reading, Set};

use super::{expected_error, expected_train, fill, Entered, LENT};

const PROBE: &str = include_str!("../../../conformance/probe.vectors");
const PROBE_CAR: &str = include_str!("../../../conformance/probe-car.vectors");
const PROBE_ERROR: &str = include_str!("../../../conformance/probe-error.vectors");
const PROBE_TRAIN: &str = include_str!("../../../conformance/probe-train.vectors");

/// A car as the library takes it: its numbers and its set.
fn parts(car: &ProbeCar) -> ([u32; PROBE_FIELDS], Set) {
    let ProbeCar { number, car_type, grade, stick, water_level, water, impurities, set } = *car;
    ([number, car_type, grade, stick, water_level, water, impurities], set)
}

/// The number handed back, and what the lent places hold, with those behind them.
fn tenths(vector: &probe::Vector) -> (u32, [u32; SET + 1]) {
    let mut places = [LENT; SET + 1];
    let number = match vector.asked {
        Asked::Three(set) => outside::set_tenths(set, &mut places[..SET]),
        Asked::One(
            Reading::Level(reading) | Reading::Temperature(reading) | Reading::Density(reading),
        ) => outside::reading_tenths(reading, &mut places[0]),
    };
    (number, places)
}

/// The same from a line's answer: tenths, or a refusal.
fn expected_tenths(answer: &str) -> (u32, [u32; SET + 1]) {
    let mut places = [LENT; SET + 1];
    let Some(seen) = answer.strip_prefix("tenths ") else {
        return (answer.parse().expect("a refusal"), places);
    };
    fill(&mut places, seen);
    (0, places)
}

fn work_out(vector: &probe_car::Vector) -> (u32, [u32; FIGURES + 1]) {
    let (tables, (car, set)) = (Slices::new(&vector.tables), parts(&vector.car));
    let mut figures = [LENT; FIGURES + 1];
    let number = outside::work_out_probe(tables.lent(), &car, set, &mut figures[..FIGURES]);
    (number, figures)
}

/// The same from a line's answer: tenths and figures between bars, or a refusal.
fn expected_figures(answer: &str) -> (u32, [u32; FIGURES + 1]) {
    let mut figures = [LENT; FIGURES + 1];
    let Some((_, seen)) = answer.split_once(" | ") else {
        return (answer.parse().expect("a refusal"), figures);
    };
    fill(&mut figures, seen);
    (0, figures)
}

fn permitted_error(vector: &probe_error::Vector) -> (u32, [u32; PERMITTED + 1]) {
    let (tables, (car, set)) = (Slices::new(&vector.tables), parts(&vector.car));
    let errors = <[u32; ERRORS]>::from(vector.errors);
    let mut figures = [LENT; PERMITTED + 1];
    let lent = &mut figures[..PERMITTED];
    let number = outside::permitted_error_probe(tables.lent(), &car, set, &errors, lent);
    (number, figures)
}

fn enter(vector: &probe_train::Vector) -> Entered {
    let (tables, (car, set)) = (Slices::new(&vector.tables), parts(&vector.car));
    let (mut figures, mut state) = ([LENT; FIGURES + 1], state_of(&vector.train));
    let lent = &mut figures[..FIGURES];
    let number = outside::train_enter_probe(&mut state, tables.lent(), &car, set, lent);
    (number, figures, state)
}

#[test]
fn every_line_of_readings_and_sets() {
    let vectors = read::<probe::Vector>(PROBE);
    assert_eq!(vectors.len(), all::<probe::Vector>().len());
    for (vector, answer) in vectors {
        assert_eq!(tenths(&vector), expected_tenths(answer), "{}", vector.name);
    }
}

#[test]
fn every_line_of_a_probe_s_car() {
    let vectors = read::<probe_car::Vector>(PROBE_CAR);
    assert_eq!(vectors.len(), all::<probe_car::Vector>().len());
    for (vector, answer) in vectors {
        assert_eq!(work_out(&vector), expected_figures(answer), "{}", vector.name);
    }
}

/// Behind its tenths an answer is that of any car.
#[test]
fn every_line_of_its_permitted_error() {
    let vectors = read::<probe_error::Vector>(PROBE_ERROR);
    assert_eq!(vectors.len(), all::<probe_error::Vector>().len());
    for (vector, answer) in vectors {
        let answer = answer.split_once(" | ").map_or(answer, |(_, behind)| behind);
        assert_eq!(permitted_error(&vector), expected_error(answer), "{}", vector.name);
    }
}

#[test]
fn every_line_of_its_car_in_a_train() {
    let vectors = read::<probe_train::Vector>(PROBE_TRAIN);
    assert_eq!(vectors.len(), all::<probe_train::Vector>().len());
    for (vector, answer) in vectors {
        assert_eq!(enter(&vector), expected_train(&vector.train, answer), "{}", vector.name);
    }
}
