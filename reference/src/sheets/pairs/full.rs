//! Pairs of the greatest size, all of whose held cars are accepted: for benches.

use super::super::draft::{self, Draft};
use super::super::draw_sound;
use super::super::history::History;
use super::super::random::Random;
use super::super::tables::Table;
use super::{shuffle, Pair};
use crate::sheet::{Event, CAR_LINES, STRIKE_LINES};
use crate::train::CARS;

/// Cars that each of the two sheets holds.
const HELD: usize = CARS / 2;

/// Two sheets whose merged sheet has the greatest length, 39,771 bytes: the same four tables of 400 rows,
/// each sheet in an order of its own, and thirty cars on each, in any order.
pub fn full_pair(seed: u64) -> Pair {
    pair_of(seed, |random, tables, numbers| {
        let cars = numbers.iter().map(|&number| draw_sound(random, tables, number));
        cars.map(Event::Enter).collect()
    })
}

/// Two sheets of the greatest length, 48,111 bytes, whose merged sheet has the greatest length: 120 C and
/// 60 K lines each. Ninety cars are entered, sixty of them struck, and thirty lines turned away by 11.
pub fn fullest_pair(seed: u64) -> Pair {
    pair_of(seed, |random, tables, numbers| {
        let mut history = History::default();
        for place in 0..CAR_LINES {
            let number = match place % 4 {
                3 => random.pick(&history.held),
                _ => numbers[place / 4 * 3 % HELD + place % 4],
            };
            if place % 4 < 3 && history.held.contains(&number) {
                history.strike(number);
            }
            history.enter(draw_sound(random, tables, number));
        }
        assert_eq!(history.strikes(), STRIKE_LINES);
        history.events
    })
}

/// The lines of cars and strikes on the tables, of cars with these numbers.
type Lines = fn(&mut Random, &[Table], &[u32]) -> Vec<Event>;

/// Two sheets of the same four tables, with numbers that are dealt out to them by lot.
fn pair_of(seed: u64, lines: Lines) -> Pair {
    let mut random = Random::new(seed);
    let drawn = Draft::draw_tables(&mut random, draft::FULL).tables;
    let mut numbers: Vec<u32> = (1..=CARS as u32).map(|place| 50_000_000 + 7 * place).collect();
    shuffle(&mut random, &mut numbers);
    let (first, second) = numbers.split_at(HELD);
    let mut sheet = |numbers: &[u32]| {
        let mut tables = drawn.clone();
        shuffle(&mut random, &mut tables);
        let events = lines(&mut random, &tables, numbers);
        Draft { tables, events, end: None }.write()
    };
    (sheet(first), sheet(second))
}
