//! A probe's readings and set in tenths, and its car alone, with its permitted error and entered in a train, by
//! the proved code and the reference.

use std::hint::black_box;

use outside::slices::Slices;
use outside::train::state_of;
use outside::{FIGURES, PERMITTED, PROBE_FIELDS, SET, TRAIN};
use reference::operations::{self, HandedIn};
use reference::permitted::Errors;
use reference::probe::{ProbeCar, Reading, Set};
use reference::train::{Train, CARS};

use crate::permitted::GIVEN;
use crate::{calls, cars, given, trains};

/// At a half, the smallest, then such as are refused by 31 and by 32.
const READINGS: [f32; 4] = [1_500.25, 1e-45, f32::NAN, 10_000_000.0];

/// The rules' own car as a probe measures it, with the number that a train of up to fifty-nine does not hold.
const CAR: [u32; PROBE_FIELDS] = [60, 1, 3, 1, 0, 50, 20];
const MEASURED: Set = Set { level: 1_500.0, temperature: 60.0, density: 950.0 };

/// A set that 31 turns away at its last float.
const NOT_A_NUMBER: Set = Set { density: f32::NAN, ..MEASURED };

/// Prints a line for each reading, each set and each call with a car.
pub fn compare_all() {
    calls::head(
        "Nanoseconds for a probe's reading or set in tenths.",
        ["reading, or set", "answer"],
    );
    READINGS.into_iter().for_each(compare_reading);
    compare_set("set", MEASURED);
    compare_set("set, refused at its density", NOT_A_NUMBER);

    calls::head(
        "Nanoseconds for one call with a probe's car, its tables and train tested in each, a copy of\n\
         the train included.",
        ["call", "answer"],
    );
    let mut last = CAR;
    last[1] = 4;
    for (name, tables, car) in
        [("small table", given::small_table(), CAR), ("four full", given::four_full_tables(), last)]
    {
        compare_car(&format!("alone, {name}"), &tables, car, MEASURED);
        compare_error(&format!("permitted error, {name}"), &tables, car);
    }
    compare_car("alone, refused at its density", &given::small_table(), CAR, NOT_A_NUMBER);
    for held in [0, CARS - 1] {
        compare_enter(&format!("enter, {held} held"), &trains::train(held), MEASURED);
    }
    compare_enter("enter, refused, 59 held", &trains::train(CARS - 1), NOT_A_NUMBER);
}

fn compare_reading(float: f32) {
    calls::compare_figure(
        &format!("{float:?}"),
        |tenths| outside::reading_tenths(black_box(float), tenths),
        || Reading::Level(black_box(float)).tenths(),
    );
}

fn compare_set(name: &str, set: Set) {
    let mut tenths = [0; SET];
    let answer = outside::set_tenths(set, &mut tenths);
    let expected = set.tenths();
    let numbers = expected.map_or([0; SET], |set| [set.level, set.temperature, set.density.0]);
    assert_eq!((answer, tenths), (calls::number(&expected), numbers), "{name}");
    calls::line(
        name,
        answer,
        &mut || {
            black_box(outside::set_tenths(black_box(set), black_box(&mut tenths)));
        },
        &mut || {
            black_box(black_box(set).tenths()).ok();
        },
    );
}

fn compare_car(name: &str, tables: &[HandedIn], fields: [u32; PROBE_FIELDS], set: Set) {
    let (slices, car) = (Slices::new(tables), ProbeCar::new(fields, set));
    let mut figures = [0; FIGURES];
    let answer = outside::work_out_probe(slices.lent(), &fields, set, &mut figures);
    let expected = operations::work_out_probe(tables, &car);
    let handed = (calls::number(&expected), expected.map_or([0; FIGURES], cars::numbers));
    assert_eq!((answer, figures), handed, "{name}");
    calls::line(
        name,
        answer,
        &mut || {
            let (tables, fields, set) = black_box((slices.lent(), &fields, set));
            black_box(outside::work_out_probe(tables, fields, set, black_box(&mut figures)));
        },
        &mut || {
            let (tables, car) = black_box((tables, &car));
            black_box(operations::work_out_probe(tables, car)).ok();
        },
    );
}

fn compare_error(name: &str, tables: &[HandedIn], fields: [u32; PROBE_FIELDS]) {
    let (slices, set) = (Slices::new(tables), MEASURED);
    let (car, errors) = (ProbeCar::new(fields, set), Errors::from(GIVEN));
    let mut figures = [0; PERMITTED];
    let answer = outside::permitted_error_probe(slices.lent(), &fields, set, &GIVEN, &mut figures);
    let expected = operations::permitted_error_probe(tables, &car, &errors);
    let limit = expected.map_or(0, |permitted| permitted.limit);
    assert_eq!((answer, figures[6].into()), (calls::number(&expected), limit), "{name}");
    calls::line(
        name,
        answer,
        &mut || {
            let (tables, fields, set) = black_box((slices.lent(), &fields, set));
            let figures = black_box(&mut figures);
            black_box(outside::permitted_error_probe(tables, fields, set, &GIVEN, figures));
        },
        &mut || {
            let (tables, car, errors) = black_box((tables, &car, &errors));
            black_box(operations::permitted_error_probe(tables, car, errors)).ok();
        },
    );
}

fn compare_enter(name: &str, train: &Train, set: Set) {
    let (tables, car) = (given::small_table(), ProbeCar::new(CAR, set));
    let slices = Slices::new(&tables);
    let proved = |state: &mut [u32; TRAIN]| {
        let (fields, set) = black_box((&CAR, set));
        outside::train_enter_probe(state, slices.lent(), fields, set, &mut [0; FIGURES])
    };
    let reference =
        |train: &mut Train| operations::enter_probe(train, &tables, black_box(&car)).map(drop);
    trains::compare(name, (state_of(train), proved), (train, reference));
}
