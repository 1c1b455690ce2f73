//! A probe's car alone: lengths that are wrong, sets that 31 and 32 turn away with tables that 7 and 8 do,
//! every place at every limit, every two together, then cars by lot.

use outside::floats::Told;
use outside::random::Random;
use outside::{BAD_LENGTH, FIGURES, PROBE_FIELDS};
use reference::operations;
use reference::probe::{ProbeCar, Set};

use super::draft::{limits, limits_and_ends, PLACES};
use super::{draw, faulty_sets, floats_of, Draft, SOUND};
use crate::cars::{draw_tables, handed, low_tables, wrong_lengths};
use crate::tables::Given;
use crate::tally::{Lent, Tally, LENT};

/// Levels in 0.1 mm from which every place is changed: on the table's last row, between rows and beside one.
const LEVELS: [u32; 3] = [90, 55, 41];

fn compare(tally: &mut Tally, given: &Given, car: &[u32], set: Set, length: usize) {
    let lent = Lent::new(&vec![LENT; length]);
    let mut figures = lent.clone();
    let number = outside::work_out_probe(given.lent(), car, set, figures.slice());
    let expected = match <[u32; PROBE_FIELDS]>::try_from(car) {
        Ok(fields) if given.fits() && length == FIGURES => {
            let car = ProbeCar::new(fields, set);
            handed(operations::work_out_probe(&given.handed_in(), &car), lent)
        }
        _ => (BAD_LENGTH, lent),
    };
    tally.compare((car, Told(&floats_of(set)), given), (number, figures), expected);
}

fn compare_draft(tally: &mut Tally, given: &Given, draft: Draft) {
    compare(tally, given, &draft.fields(), draft.set(), FIGURES);
}

/// Slices of a length that is wrong, one at a time, with a sound set and with such as are turned away.
fn compare_lengths(tally: &mut Tally, given: &Given) {
    for set in faulty_sets(SOUND.set()).into_iter().step_by(29).chain([SOUND.set()]) {
        for misfit in given.misfits() {
            compare(tally, &misfit, &SOUND.fields(), set, FIGURES);
        }
        for length in wrong_lengths(PROBE_FIELDS) {
            compare(tally, given, &vec![1; length], set, FIGURES);
        }
        for length in wrong_lengths(FIGURES) {
            compare(tally, given, &SOUND.fields(), set, length);
        }
    }
}

/// Sets that are turned away, with tables and numbers that are sound, and that are not.
fn compare_faulty_sets(tally: &mut Tally, given: &Given) {
    let (mut by_7, mut by_8) = (given.clone(), given.clone());
    by_7.types[0] = 0;
    by_8.levels[0] = 1;
    for set in faulty_sets(SOUND.set()) {
        for tables in [given, &by_7, &by_8] {
            for draft in [SOUND, Draft([0; PLACES]), Draft([u32::MAX; PLACES])] {
                compare_draft(tally, tables, draft.with_set(set));
            }
        }
    }
}

/// Cars of each grade, each with one place, and each two places, at a limit.
pub fn cars_at_limits(level: u32) -> Vec<Draft> {
    let mut cars = Vec::new();
    for grade in 1..=4 {
        let sound = SOUND.at(level, 3).with(2, grade).with(5, 10).with(6, 5);
        cars.push(sound);
        for first in 0..PLACES {
            for number in limits_and_ends(first) {
                let one = sound.with(first, number);
                cars.push(one);
                for second in first + 1..PLACES {
                    cars.extend(limits(second).into_iter().map(|number| one.with(second, number)));
                }
            }
        }
    }
    cars
}

pub fn work_out_probe(times: u64) -> Tally {
    let mut tally = Tally::new("work_out_probe");
    let mut random = Random::new(14);
    let given = low_tables(&mut random);
    compare_lengths(&mut tally, &given);
    compare_faulty_sets(&mut tally, &given);
    for draft in LEVELS.into_iter().flat_map(cars_at_limits) {
        compare_draft(&mut tally, &given, draft);
    }
    for _ in 0..times / 16 {
        let given = draw_tables(&mut random);
        for _ in 0..16 {
            let draft = draw(&mut random, &given);
            compare_draft(&mut tally, &given, draft);
        }
    }
    tally
}
