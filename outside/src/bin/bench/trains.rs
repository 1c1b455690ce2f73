//! One car entered in a train, and one struck from it, by the proved code and the reference.

use std::hint::black_box;

use outside::slices::Slices;
use outside::train::state_of;
use outside::{FIELDS, FIGURES, TRAIN};
use reference::operations;
use reference::train::{Train, CARS};
use reference::Refusal;

use crate::{calls, given};

/// The number of the car that is entered, which a train of up to fifty-nine does not hold.
const NUMBER: u32 = 60;

/// Prints a line for each train that a car is entered in, and for each that a number is struck from.
pub fn compare_all() {
    calls::head(
        "Nanoseconds for one call with a train of accepted cars, which is tested whole, a copy of\n\
         the train included.",
        ["call, cars held", "answer"],
    );
    for (name, held) in [("enter", 0), ("enter", 30), ("enter", CARS - 1), ("enter, refused", CARS)]
    {
        compare_enter(&format!("{name}, {held}"), &train(held));
    }
    for (name, number) in [("strike first", 1), ("strike last", 60), ("strike none", 61)] {
        compare_strike(&format!("{name}, {CARS}"), &train(CARS), number);
    }
}

/// A train of so many accepted cars, with the numbers 1, 2 and so on.
pub fn train(held: usize) -> Train {
    let (mut train, tables) = (Train::default(), given::small_table());
    for number in 1..=held as u32 {
        operations::enter(&mut train, &tables, &given::car(number)).expect("an accepted car");
    }
    train
}

fn compare_enter(name: &str, train: &Train) {
    let (tables, car, state) = (given::small_table(), given::car(NUMBER), state_of(train));
    let (slices, fields) = (Slices::new(&tables), <[u32; FIELDS]>::from(car));
    let proved = |state: &mut [u32; TRAIN]| {
        outside::train_enter(state, slices.lent(), black_box(&fields), &mut [0; FIGURES])
    };
    let reference =
        |train: &mut Train| operations::enter(train, &tables, black_box(&car)).map(drop);
    compare(name, (state, proved), (train, reference));
}

fn compare_strike(name: &str, train: &Train, number: u32) {
    let proved = |state: &mut [u32; TRAIN]| outside::train_strike(state, black_box(number));
    let reference = |train: &mut Train| operations::strike(train, black_box(number));
    compare(name, (state_of(train), proved), (train, reference));
}

/// Prints the line of a call, each time with a copy of the train, which both must leave alike.
pub fn compare(
    name: &str,
    (state, proved): ([u32; TRAIN], impl Fn(&mut [u32; TRAIN]) -> u32),
    (train, reference): (&Train, impl Fn(&mut Train) -> Result<(), Refusal>),
) {
    let (mut next, mut expected) = (state, train.clone());
    let answer = proved(&mut next);
    let number = calls::number(&reference(&mut expected));
    assert_eq!((answer, next), (number, state_of(&expected)), "{name}: answers differ");

    calls::line(
        name,
        answer,
        &mut || {
            black_box(proved(black_box(&mut black_box(&state).clone())));
        },
        &mut || {
            black_box(reference(black_box(&mut black_box(train).clone()))).ok();
        },
    );
}
