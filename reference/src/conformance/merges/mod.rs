//! Pairs of sheets that each try one point of merging, with the merged sheet or the refusal that each must
//! give.
//!
//! What each gives stands in `answers.txt`, worked out by a separate calculation; the tests compare it with
//! what this package answers.

mod again;
mod cars;
mod numbers;
mod order;
mod own;
mod rows;
mod sizes;
mod tables;
mod types;
mod vanishing;

use super::rack::{events_on, CAR};
use super::text::columns;
use crate::car::Car;
use crate::sheet::Event::{self, Enter};

/// Two sheets, and a name that says what they try.
pub struct Pair {
    pub name: String,
    pub first: Vec<u8>,
    pub second: Vec<u8>,
}

/// What a pair must give: the merged sheet, or the refusal and its line.
pub type Outcome = Result<Vec<u8>, (u32, u32)>;

/// What comes of each pair by the separate calculation: its name, then the merged sheet in words or the
/// refusal and its line.
const ANSWERS: &str = include_str!("answers.txt");

impl Pair {
    fn new(name: impl AsRef<str>, first: Vec<u8>, second: Vec<u8>) -> Self {
        Self { name: format!("merge-{}", name.as_ref()), first, second }
    }

    /// What this package answers.
    pub fn work_out(&self) -> Outcome {
        let merged = crate::merge::of(&self.first, &self.second);
        merged.map_err(|rejection| (rejection.refusal.number(), rejection.line))
    }

    /// What it must give, by the separate calculation.
    pub fn expected(&self) -> Option<Outcome> {
        let mut answers = ANSWERS.split("--\n").filter_map(|part| part.split_once('\n'));
        answers.find(|(name, _)| *name == self.name).map(|(_, answer)| read(answer))
    }
}

/// An outcome as it stands among the answers.
fn read(answer: &str) -> Outcome {
    match answer.strip_prefix("refused ").and_then(|words| words.trim_end().split_once(' ')) {
        None => Ok(columns(answer)),
        Some((number, line)) => Err([number, line].map(|word| word.parse().expect(word)).into()),
    }
}

/// All pairs.
pub fn pairs() -> Vec<Pair> {
    [
        tables::pairs(),
        cars::pairs(),
        vanishing::pairs(),
        rows::pairs(),
        types::pairs(),
        numbers::pairs(),
        sizes::pairs(),
        own::pairs(),
        order::pairs(),
        again::pairs(),
    ]
    .into_iter()
    .flatten()
    .collect()
}

/// A table of three rows that are its type's own.
fn table(car_type: u32) -> String {
    let (middle, last) = (20_000 + car_type, 60_000 + 2 * car_type);
    format!("T {car_type} 3\nR 0 0\nR 1000 {middle}\nR 3000 {last}\n")
}

/// A sheet of such tables in the order given, with cars and strikes.
fn sheet(types: &[u32], events: &[Event]) -> Vec<u8> {
    let tables: String = types.iter().map(|&car_type| table(car_type)).collect();
    events_on(&tables, events)
}

/// The paper's car with a number and a type, at a level in mm.
fn car(number: u32, car_type: u32, level: u32) -> Event {
    Enter(Car { number, car_type, readings: [level, level, 0, 0], ..CAR })
}

/// A car of type 1 that 17 refuses.
fn wrong(number: u32) -> Event {
    Enter(Car { number, water_level: 1600, ..CAR })
}

/// Cars of type 1 with these numbers.
fn cars(numbers: impl IntoIterator<Item = u32>) -> Vec<Event> {
    numbers.into_iter().map(|number| car(number, 1, 1500)).collect()
}
