//! The running train, with a car, with a probe's car and with a strike: sound trains up to every limit, of
//! which each held car is struck, trains that 9 turns away, then lists of cars, dipped and a probe's, and
//! strikes by lot.

mod calls;
mod lists;
mod sound;
mod unsound;

use calls::{compare_draft, compare_enter, compare_enter_probe, compare_strike};
use outside::random::Random;
use outside::train::state_of;
use outside::{BAD_LENGTH, FIELDS, FIGURES, PROBE_FIELDS, TRAIN, TRAIN_HELD, TRAIN_NUMBERS};
use reference::probe::Set;
use reference::train::{Train, CARS};

use crate::cars::{low_tables, wrong_lengths, SOUND};
use crate::probe::{self, faulty_sets, Draft};
use crate::tables::Given;
use crate::tally::{Lent, Tally, LENT};

/// Numbers that few trains hold: none, one that no field holds, and the largest of both.
const ODD_NUMBERS: [u32; 5] = [0, 12_345_678, 99_999_999, 4_000_000_000, u32::MAX];

pub fn train_empty() -> Tally {
    let mut tally = Tally::new("train_empty");
    for length in 0..=2 * TRAIN {
        let mut train = Lent::new(&vec![LENT; length]);
        let number = outside::train_empty(train.slice());
        let (expected, contents) = if length == TRAIN {
            (0, state_of(&Train::default()).to_vec())
        } else {
            (BAD_LENGTH, vec![LENT; length])
        };
        tally.compare(length, (number, train), (expected, Lent::new(&contents)));
    }
    tally
}

/// A sound car, and cars refused by 10, by 11 in a train of [`sound::trains`], and by 12.
fn four_cars() -> [[u32; FIELDS]; 4] {
    let mut cars = [SOUND; 4];
    (cars[1][0], cars[2][0], cars[3][1]) = (0, sound::HELD, 77);
    cars
}

/// A probe's car that is sound, and such as are refused by 32, by 11 in a train of [`sound::trains`], by 31
/// before 10, and by 16.
fn five_probes() -> [Draft; 5] {
    let sound = probe::SOUND;
    let too_large = Set { density: f32::MAX, ..sound.set() };
    [
        sound,
        sound.with_set(too_large),
        sound.with(0, sound::HELD),
        sound.with_set(not_a_number()).with(0, 0),
        sound.at(91, 3),
    ]
}

/// A set that 31 turns away.
fn not_a_number() -> Set {
    Set { temperature: f32::NAN, ..probe::SOUND.set() }
}

/// What was compared of cars, of a probe's and of strikes, and tables that are sound, that are refused by 7,
/// and that are refused by 8.
struct Asked {
    entered: Tally,
    probed: Tally,
    struck: Tally,
    tables: [Given; 3],
}

impl Asked {
    fn new(random: &mut Random) -> Self {
        let given = low_tables(random);
        let (mut by_7, mut by_8) = (given.clone(), given.clone());
        by_7.types[0] = 0;
        by_8.levels[0] = 1;
        Self {
            entered: Tally::new("train_enter"),
            probed: Tally::new("train_enter_probe"),
            struck: Tally::new("train_strike"),
            tables: [given, by_7, by_8],
        }
    }

    /// Asks of a train cars of both kinds, strikes of the first and the last number that it holds, of the one
    /// behind these, and of odd ones.
    fn ask(&mut self, state: &[u32; TRAIN]) {
        self.ask_cars(state);
        self.ask_probes(state);
        let held = (state[TRAIN_HELD] as usize).min(CARS - 1);
        for place in [0, held.saturating_sub(1), held] {
            compare_strike(&mut self.struck, state, state[TRAIN_NUMBERS + place]);
        }
        for number in ODD_NUMBERS {
            compare_strike(&mut self.struck, state, number);
        }
    }

    /// Four cars, and two with tables that are refused.
    fn ask_cars(&mut self, state: &[u32; TRAIN]) {
        let [given, others @ ..] = &self.tables;
        for car in four_cars() {
            compare_enter(&mut self.entered, state, given, &car, FIGURES);
        }
        for other in others {
            compare_enter(&mut self.entered, state, other, &SOUND, FIGURES);
        }
    }

    /// Five cars of a probe, and two with tables that are refused, of which 31 turns one away before.
    fn ask_probes(&mut self, state: &[u32; TRAIN]) {
        let [given, by_7, by_8] = &self.tables;
        for draft in five_probes() {
            compare_draft(&mut self.probed, state, given, draft);
        }
        compare_draft(&mut self.probed, state, by_7, probe::SOUND);
        compare_draft(&mut self.probed, state, by_8, probe::SOUND.with_set(not_a_number()));
    }

    /// Slices of a length that is wrong, one at a time.
    fn ask_with_wrong_lengths(&mut self) {
        let (empty, given) = (state_of(&Train::default()), &self.tables[0]);
        for misfit in given.misfits() {
            compare_enter(&mut self.entered, &empty, &misfit, &SOUND, FIGURES);
        }
        for length in wrong_lengths(FIELDS) {
            compare_enter(&mut self.entered, &empty, given, &vec![1; length], FIGURES);
        }
        for length in wrong_lengths(FIGURES) {
            compare_enter(&mut self.entered, &empty, given, &SOUND, length);
        }
        for length in (0..=2 * TRAIN).filter(|&length| length != TRAIN) {
            compare_enter(&mut self.entered, &vec![0; length], given, &SOUND, FIGURES);
            compare_strike(&mut self.struck, &vec![0; length], 0);
        }
    }

    /// The same of a probe's car, with a sound set and with such as are turned away.
    fn ask_probes_with_wrong_lengths(&mut self) {
        let (empty, given) = (state_of(&Train::default()), &self.tables[0]);
        let (fields, tally) = (probe::SOUND.fields(), &mut self.probed);
        for set in [probe::SOUND.set(), not_a_number(), five_probes()[1].set()] {
            for misfit in given.misfits() {
                compare_enter_probe(tally, &empty, &misfit, (&fields, set), FIGURES);
            }
            for length in wrong_lengths(PROBE_FIELDS) {
                compare_enter_probe(tally, &empty, given, (&vec![1; length], set), FIGURES);
            }
            for length in wrong_lengths(FIGURES) {
                compare_enter_probe(tally, &empty, given, (&fields, set), length);
            }
            for length in (0..=2 * TRAIN).filter(|&length| length != TRAIN) {
                compare_enter_probe(tally, &vec![0; length], given, (&fields, set), FIGURES);
            }
        }
    }

    /// Strikes the number in each place, held or not, of every sound train, and asks what it leaves; and
    /// the same of a car entered, of both kinds.
    fn ask_sound_trains(&mut self) {
        for state in sound::trains().iter().map(state_of) {
            self.ask(&state);
            for place in 0..CARS {
                let next = compare_strike(&mut self.struck, &state, state[TRAIN_NUMBERS + place]);
                self.ask(next[..].try_into().expect("a train"));
            }
            for car in four_cars() {
                let given = &self.tables[0];
                let next = compare_enter(&mut self.entered, &state, given, &car, FIGURES);
                self.ask(next[..].try_into().expect("a train"));
            }
            for draft in five_probes() {
                let next = compare_draft(&mut self.probed, &state, &self.tables[0], draft);
                self.ask(next[..].try_into().expect("a train"));
            }
        }
    }

    /// Every set with a float that is turned away, for trains that hold none, some and sixty.
    fn ask_faulty_sets(&mut self) {
        let trains = [0, 9, CARS].map(|count| sound::made(&sound::cars(count)));
        for state in trains.iter().map(state_of) {
            for set in faulty_sets(probe::SOUND.set()) {
                for given in &self.tables {
                    let draft = probe::SOUND.with_set(set);
                    compare_draft(&mut self.probed, &state, given, draft);
                }
            }
        }
    }

    fn ask_unsound_trains(&mut self) {
        for trains in [
            unsound::each_number_off,
            unsound::each_two_totals_off,
            unsound::each_two_faults,
            unsound::every_number_held,
            unsound::twice_in_every_two_places,
            unsound::totals_at_limits,
            unsound::grades_that_overflow,
        ] {
            trains().iter().for_each(|train| self.ask(&state_of(train)));
        }
    }
}

/// Compares all three: a car entered in a train, a probe's car entered in one, and a number struck from one.
pub fn enter_and_strike(times: u64) -> [Tally; 3] {
    let mut random = Random::new(7);
    let mut asked = Asked::new(&mut random);
    asked.ask_with_wrong_lengths();
    asked.ask_probes_with_wrong_lengths();
    asked.ask_faulty_sets();
    asked.ask_sound_trains();
    asked.ask_unsound_trains();
    // so many steps for each of the three
    for _ in 0..3 * times / lists::STEPS {
        lists::compare(&mut asked, &mut random);
    }
    [asked.entered, asked.probed, asked.struck]
}
