//! The permitted error of a probe's car: every error at its limits, levels by tenths on and around every row,
//! masses around 100 t, sets, cars and errors that are turned away together, then cars and errors by lot.

use outside::floats::Told;
use outside::random::Random;
use outside::{BAD_LENGTH, ERRORS, PERMITTED, PROBE_FIELDS};
use reference::operations;
use reference::permitted::Errors;
use reference::probe::{ProbeCar, Set};

use super::cars::cars_at_limits;
use super::{draw, faulty_sets, floats_of, Draft, SOUND};
use crate::cars::{draw_tables, low_tables, wrong_lengths};
use crate::permitted::{
    alone, draw_errors, handed, limits, with_rows, FLAT, NEAR_LIMITS, UNEVEN, WIDE,
};
use crate::tables::Given;
use crate::tally::{Lent, Tally, LENT};

const NONE: [u32; ERRORS] = [0; ERRORS];

/// Errors that are taken, that are refused by 25 where the table is low, and by 24.
const THREE: [[u32; ERRORS]; 3] =
    [[5_000, 1_600, 500, 5, 5, 0], [0, 0, 0, 0, 0, 1], [0, 0, 0, 21, 0, 0]];

/// Water levels in mm on rows, beside rows and between.
const WATER_LEVELS: [u32; 9] = [0, 2, 3, 4, 17, 999, 1_000, 2_000, 2_999];

type Car<'a> = (&'a [u32], Set);

fn compare(tally: &mut Tally, given: &Given, (car, set): Car, errors: &[u32], length: usize) {
    let lent = Lent::new(&vec![LENT; length]);
    let mut figures = lent.clone();
    let number = outside::permitted_error_probe(given.lent(), car, set, errors, figures.slice());
    let fits = given.fits() && length == PERMITTED;
    let expected = match (<[u32; PROBE_FIELDS]>::try_from(car), <[u32; ERRORS]>::try_from(errors)) {
        (Ok(fields), Ok(errors)) if fits => {
            let (car, errors) = (ProbeCar::new(fields, set), Errors::from(errors));
            handed(operations::permitted_error_probe(&given.handed_in(), &car, &errors), lent)
        }
        _ => (BAD_LENGTH, lent),
    };
    let floats = floats_of(set);
    tally.compare((car, Told(&floats), errors, given), (number, figures), expected);
}

fn compare_draft(tally: &mut Tally, given: &Given, draft: Draft, errors: [u32; ERRORS]) {
    compare(tally, given, (&draft.fields(), draft.set()), &errors, PERMITTED);
}

/// Slices of a length that is wrong, one at a time, with a sound set and with such as are turned away.
fn compare_lengths(tally: &mut Tally, given: &Given) {
    let fields = SOUND.fields();
    for set in faulty_sets(SOUND.set()).into_iter().step_by(29).chain([SOUND.set()]) {
        for misfit in given.misfits() {
            compare(tally, &misfit, (&fields, set), &NONE, PERMITTED);
        }
        for length in wrong_lengths(PROBE_FIELDS) {
            compare(tally, given, (&vec![1; length], set), &NONE, PERMITTED);
        }
        for length in wrong_lengths(ERRORS) {
            compare(tally, given, (&fields, set), &vec![1; length], PERMITTED);
        }
        for length in wrong_lengths(PERMITTED) {
            compare(tally, given, (&fields, set), &NONE, length);
        }
    }
}

/// Each error at each limit, at two levels by tenths.
fn compare_limits(tally: &mut Tally, given: &Given) {
    for place in 0..ERRORS {
        for error in limits(place) {
            for level in [15_001, 15_009] {
                compare_draft(tally, given, SOUND.at(level, 0), alone(place, error));
            }
        }
    }
}

/// Levels by tenths around every row, above water on rows and beside them, with level errors of which some
/// are too large.
fn compare_levels(tally: &mut Tally, random: &mut Random) {
    for rows in [&UNEVEN[..], &WIDE, &FLAT] {
        let given = with_rows(random, rows);
        for (row, _) in rows {
            for level in (10 * row).saturating_sub(21)..=10 * row + 21 {
                for water_level in WATER_LEVELS {
                    for error in [0, 1, 2, 30, 100, 101] {
                        let draft = SOUND.at(level, water_level);
                        compare_draft(tally, &given, draft, alone(5, error));
                    }
                }
            }
        }
    }
}

/// Masses around 100 t, by tenths of a mm, with limits around 5,000 and 6,500.
fn compare_masses(tally: &mut Tally, random: &mut Random) {
    let given = with_rows(random, &WIDE);
    for level in 15_000..=17_000 {
        for error in NEAR_LIMITS {
            compare_draft(tally, &given, SOUND.at(level, 0), alone(0, error));
        }
    }
}

/// Sets that are turned away, with each of three errors, with tables and numbers that are sound or not.
fn compare_faulty_sets(tally: &mut Tally, given: &Given) {
    let mut by_7 = given.clone();
    by_7.rows[0] = 1;
    for set in faulty_sets(SOUND.set()) {
        for errors in THREE {
            for tables in [given, &by_7] {
                compare_draft(tally, tables, SOUND.with_set(set), errors);
                compare_draft(tally, tables, SOUND.with(0, 0).with_set(set), errors);
            }
        }
    }
}

pub fn permitted_error_probe(times: u64) -> Tally {
    let mut tally = Tally::new("permitted_error_probe");
    let mut random = Random::new(15);
    let (uneven, low) = (with_rows(&mut random, &UNEVEN), low_tables(&mut random));
    compare_lengths(&mut tally, &uneven);
    compare_limits(&mut tally, &uneven);
    compare_levels(&mut tally, &mut random);
    compare_masses(&mut tally, &mut random);
    compare_faulty_sets(&mut tally, &low);
    for draft in cars_at_limits(90) {
        THREE.into_iter().for_each(|errors| compare_draft(&mut tally, &low, draft, errors));
    }
    for _ in 0..times / 16 {
        let given = draw_tables(&mut random);
        for _ in 0..16 {
            let draft = draw(&mut random, &given);
            let errors = draw_errors(&mut random);
            compare_draft(&mut tally, &given, draft, errors);
        }
    }
    tally
}
