//! The permitted error of a car: every error and every two errors at their limits, levels on and
//! beside rows, by mm and by tenths, masses around 100 t, cars at their limits, then cars and errors by lot.

use outside::random::Random;
use outside::{BAD_LENGTH, ERRORS, FIELDS, PERMITTED};
use reference::car::Car;
use reference::operations;
use reference::permitted::{Errors, PermittedError};
use reference::refusal::Refusal;

use crate::cars::{cars_at_limits, draw, draw_tables, low_tables, numbers, wrong_lengths, SOUND};
use crate::figures::ENDS;
use crate::tables::Given;
use crate::tally::{Lent, Tally, LENT};

/// Highest errors that are taken.
const HIGHEST: [u32; ERRORS] = [10_000, 10_000, 10_000, 20, 20, 100];

/// Errors of capacity alone around which n is 5,000 and 6,500.
pub const NEAR_LIMITS: [u32; 6] = [4_544, 4_545, 4_546, 5_908, 5_909, 5_910];

/// A table with slopes that differ, and one on which a millimetre is less than a kilogram near 100 t.
pub const UNEVEN: [(u32, u32); 5] =
    [(0, 0), (3, 1), (1_000, 20_000), (2_000, 50_000), (3_000, 70_000)];
pub const WIDE: [(u32, u32); 3] = [(0, 0), (1_000, 108_000), (2_000, 109_000)];

/// A table so flat that V0 is 0 at many levels.
pub const FLAT: [(u32, u32); 2] = [(0, 0), (3_600, 1)];

/// An answer in lent places: the figures, the limit, and 1 where it is within.
pub fn handed(answer: Result<PermittedError, Refusal>, mut lent: Lent) -> (u32, Lent) {
    match answer {
        Ok(PermittedError { figures, limit, within, .. }) => {
            let last = [limit as u32, u32::from(within)];
            lent.slice().copy_from_slice(&[&numbers(figures)[..], &last].concat());
            (0, lent)
        }
        Err(refusal) => (refusal.number(), lent),
    }
}

fn compare(tally: &mut Tally, given: &Given, car: &[u32], errors: &[u32], length: usize) {
    let lent = Lent::new(&vec![LENT; length]);
    let mut figures = lent.clone();
    let number = outside::permitted_error(given.lent(), car, errors, figures.slice());
    let fits = given.fits() && length == PERMITTED;
    let expected = match (<[u32; FIELDS]>::try_from(car), <[u32; ERRORS]>::try_from(errors)) {
        (Ok(fields), Ok(errors)) if fits => {
            let (car, errors) = (Car::from(fields), Errors::from(errors));
            handed(operations::permitted_error(&given.handed_in(), &car, &errors), lent)
        }
        _ => (BAD_LENGTH, lent),
    };
    tally.compare((car, errors, given), (number, figures), expected);
}

/// Two tables, the first of them with these rows.
pub fn with_rows(random: &mut Random, rows: &[(u32, u32)]) -> Given {
    let mut given = Given::sound(random, &[rows.len(), 3]);
    for (place, &(level, capacity)) in rows.iter().enumerate() {
        (given.levels[place], given.capacities[place]) = (level, capacity);
    }
    given
}

/// The sound car at a level, above a water level.
fn at(level: u32, water_level: u32) -> [u32; FIELDS] {
    let mut car = SOUND;
    (car[5], car[6], car[9]) = (level, level, water_level);
    car
}

/// The sound car at a level in mm above a water level, and half a mm, a third and two thirds above that level.
fn around(level: u32, water_level: u32) -> [[u32; FIELDS]; 4] {
    let with = |readings: [u32; 5]| {
        let mut car = at(level, water_level);
        car[4..9].copy_from_slice(&readings);
        car
    };
    [
        at(level, water_level),
        with([2, level, level + 1, 0, 0]),
        with([4, level, level + 2, level, level + 1]),
        with([4, level, level + 2, level + 1, level + 1]),
    ]
}

/// One error, by its place, and none of the others.
pub fn alone(place: usize, error: u32) -> [u32; ERRORS] {
    let mut errors = [0; ERRORS];
    errors[place] = error;
    errors
}

/// Numbers near the limits of an error.
pub fn limits(place: usize) -> impl Iterator<Item = u32> {
    let highest = HIGHEST[place];
    [1, highest / 2, highest - 1, highest, highest + 1, 255, 256, 65_536].into_iter().chain(ENDS)
}

/// Slices of a length that is wrong, one at a time.
fn compare_lengths(tally: &mut Tally, given: &Given) {
    let none = [0; ERRORS];
    for misfit in given.misfits() {
        compare(tally, &misfit, &SOUND, &none, PERMITTED);
    }
    for length in wrong_lengths(FIELDS) {
        compare(tally, given, &vec![1; length], &none, PERMITTED);
    }
    for length in wrong_lengths(ERRORS) {
        compare(tally, given, &SOUND, &vec![1; length], PERMITTED);
    }
    for length in wrong_lengths(PERMITTED) {
        compare(tally, given, &SOUND, &none, length);
    }
}

/// Each error, and each two, at each limit.
fn compare_limits(tally: &mut Tally, given: &Given) {
    let car = at(1_500, 0);
    for first in 0..ERRORS {
        for number in limits(first) {
            let mut errors = alone(first, number);
            compare(tally, given, &car, &errors, PERMITTED);
            for second in (0..ERRORS).filter(|&second| second != first) {
                for other in limits(second) {
                    errors[second] = other;
                    compare(tally, given, &car, &errors, PERMITTED);
                }
                errors[second] = 0;
            }
        }
    }
}

/// Levels on rows and beside them, above water near them, with level errors of which some are too
/// large.
fn compare_levels(tally: &mut Tally, random: &mut Random) {
    let levels = [0, 1, 2, 3, 4, 17, 18, 19, 999, 1_000, 1_001, 1_999, 2_000, 2_001, 2_999, 3_000];
    for rows in [&UNEVEN[..], &WIDE, &FLAT] {
        let given = with_rows(random, rows);
        for level in levels {
            for water in levels {
                for error in [0, 1, 2, 9, 10, 30, 99, 100, 101] {
                    for car in around(level, water) {
                        compare(tally, &given, &car, &alone(5, error), PERMITTED);
                    }
                }
            }
        }
    }
}

/// Masses around 100 t with limits around 5,000 and 6,500.
fn compare_masses(tally: &mut Tally, random: &mut Random) {
    let given = with_rows(random, &WIDE);
    for level in 1_500..=1_700 {
        for error in NEAR_LIMITS {
            compare(tally, &given, &at(level, 0), &alone(0, error), PERMITTED);
        }
    }
}

/// Every error of capacity, alone and with one of processing by lot; every density with oil
/// temperatures and errors by lot.
fn compare_terms(tally: &mut Tally, random: &mut Random, given: &Given) {
    for capacity in 0..=HIGHEST[0] {
        for processing in [0, random.between(0, HIGHEST[2])] {
            let errors = [capacity, 0, processing, 0, 0, 0];
            compare(tally, given, &at(1_500, 0), &errors, PERMITTED);
        }
    }
    for density in 9_000..=9_900 {
        for _ in 0..60 {
            let mut car = at(1_500, 0);
            (car[10], car[11]) = (random.between(400, 900), density);
            let place = random.between(1, 4) as usize;
            let errors = alone(place, random.between(0, HIGHEST[place]));
            compare(tally, given, &car, &errors, PERMITTED);
        }
    }
}

/// Cars at their limits, with errors that are taken, that are refused by 25 and by 24.
fn compare_cars(tally: &mut Tally, given: &Given) {
    for car in cars_at_limits() {
        for errors in [[5_000, 1_600, 500, 5, 5, 0], alone(5, 1), alone(3, 21)] {
            compare(tally, given, &car, &errors, PERMITTED);
        }
    }
}

/// Errors of which most are in range.
pub fn draw_errors(random: &mut Random) -> [u32; ERRORS] {
    let mut errors = HIGHEST.map(|highest| {
        let top = random.pick(&[0, highest / 3, highest]);
        random.between(0, top)
    });
    if random.one_in(8) {
        let place = random.below(ERRORS);
        errors[place] = HIGHEST[place] + random.pick(&[0, 1, 2, 1_000, 1 << 16, 1 << 31]);
    }
    errors
}

pub fn permitted_error(times: u64) -> Tally {
    let mut tally = Tally::new("permitted_error");
    let mut random = Random::new(8);
    let uneven = with_rows(&mut random, &UNEVEN);
    compare_lengths(&mut tally, &uneven);
    compare_limits(&mut tally, &uneven);
    compare_levels(&mut tally, &mut random);
    compare_masses(&mut tally, &mut random);
    compare_terms(&mut tally, &mut random, &uneven);
    compare_cars(&mut tally, &low_tables(&mut Random::new(6)));
    for _ in 0..times / 16 {
        let given = draw_tables(&mut random);
        for _ in 0..16 {
            let car = draw(&mut random, &given);
            compare(&mut tally, &given, &car, &draw_errors(&mut random), PERMITTED);
        }
    }
    tally
}
