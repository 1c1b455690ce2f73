//! Lists of cars, dipped and a probe's, and strikes by lot, from the empty train on, and what a train on the
//! way answers where it is handed in with something changed.

use outside::random::Random;
use outside::train::{state_of, train_of};
use outside::{FIGURES, TRAIN, TRAIN_HELD, TRAIN_NUMBERS};
use reference::train::{Train, CARS};

use super::unsound::{shift, TOTALS};
use super::{compare_draft, compare_enter, compare_strike, Asked, ODD_NUMBERS};
use crate::cars::{self, draw_tables};
use crate::figures::ENDS;
use crate::probe;

/// Cars and strikes of a list.
pub const STEPS: u64 = 200;

/// Of so many steps, one after another, as many out of ten are strikes: a train is filled, emptied, and
/// filled again.
const STRETCH: u64 = 40;
const STRIKES_IN_TEN: [usize; 6] = [0, 0, 0, 1, 4, 8];

/// A train, the numbers handed in so far, and how many of ten steps are strikes.
struct List<'a> {
    asked: &'a mut Asked,
    random: &'a mut Random,
    state: Vec<u32>,
    numbers: Vec<u32>,
    strikes_in_ten: usize,
}

pub fn compare(asked: &mut Asked, random: &mut Random) {
    let state = state_of(&Train::default()).to_vec();
    let mut list = List { asked, random, state, numbers: vec![1], strikes_in_ten: 0 };
    for step in 0..STEPS {
        if step % STRETCH == 0 {
            list.strikes_in_ten = list.random.pick(&STRIKES_IN_TEN);
        }
        if list.random.below(10) < list.strikes_in_ten {
            list.strike();
        } else if list.random.one_in(2) {
            list.enter();
        } else {
            list.enter_probe();
        }
    }
}

impl List<'_> {
    fn enter(&mut self) {
        let given = draw_tables(self.random);
        let mut car = cars::draw(self.random, &given);
        car[0] = self.number(car[0]);
        if self.random.one_in(9) {
            let other = tampered(self.random, &self.state);
            compare_enter(&mut self.asked.entered, &other, &given, &car, FIGURES);
        }
        self.state = compare_enter(&mut self.asked.entered, &self.state, &given, &car, FIGURES);
    }

    fn enter_probe(&mut self) {
        let given = draw_tables(self.random);
        let draft = probe::draw(self.random, &given);
        let draft = draft.with(0, self.number(draft.fields()[0]));
        if self.random.one_in(9) {
            let other = tampered(self.random, &self.state);
            compare_draft(&mut self.asked.probed, &other, &given, draft);
        }
        self.state = compare_draft(&mut self.asked.probed, &self.state, &given, draft);
    }

    /// The number of the next car: its own, at times one that is held or was handed in before.
    fn number(&mut self, own: u32) -> u32 {
        let number = match self.random.below(8) {
            0 => self.state[TRAIN_NUMBERS + self.random.below(CARS)],
            1 => self.random.pick(&self.numbers),
            _ => own,
        };
        self.numbers.push(number);
        number
    }

    fn strike(&mut self) {
        let held = self.state[TRAIN_HELD] as usize;
        let number = match self.random.below(8) {
            0 => self.random.pick(&ODD_NUMBERS),
            1 => self.random.pick(&self.numbers),
            _ => self.state[TRAIN_NUMBERS + self.random.below(held.max(1))],
        };
        if self.random.one_in(3) {
            let other = tampered(self.random, &self.state);
            compare_strike(&mut self.asked.struck, &other, number);
        }
        self.state = compare_strike(&mut self.asked.struck, &self.state, number);
    }
}

/// The train with one total raised and one lowered by one, so that at times it adds up again; with a
/// number of the slice changed; or with one held number in place of another.
fn tampered(random: &mut Random, state: &[u32]) -> Vec<u32> {
    let mut state = state.to_vec();
    match random.below(3) {
        0 => {
            let mut train = train_of(state[..].try_into().expect("a train"));
            shift(&mut train, random.below(TOTALS), 1);
            shift(&mut train, random.below(TOTALS), -1);
            state = state_of(&train).to_vec();
        }
        1 => {
            let place = random.below(TRAIN);
            let number = state[place];
            let near = [number.wrapping_add(1), number.wrapping_sub(1), number ^ 1 << 31];
            state[place] = random.pick(&[&near[..], &ENDS].concat());
        }
        _ => {
            let held = (state[TRAIN_HELD] as usize).clamp(1, CARS);
            let [from, to] = [(); 2].map(|()| TRAIN_NUMBERS + random.below(held));
            state[to] = state[from];
        }
    }
    state
}
