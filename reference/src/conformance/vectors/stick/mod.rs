//! Stick levels with tape readings that each try one point of the check.

mod differences;
mod limits;
mod partings;
mod places;
mod ranges;
mod text;

use super::Group;
use crate::refusal::Refusal;
use crate::stick::{self, StickCheck, TAPE_READINGS};

/// A stick level in 0.1 mm, the number of readings of the tape and the places for them, in mm, with a name
/// that says what they try.
#[derive(Clone, Debug, PartialEq)]
pub struct Vector {
    pub name: String,
    pub stick: u64,
    pub count: u32,
    pub readings: [u32; TAPE_READINGS],
}

/// A reading, in mm, and the stick level that belongs to it, in 0.1 mm.
const LEVEL: u32 = 1_500;
const STICK: u64 = 15_000;

impl Vector {
    /// As many readings as there are, 0 in the places behind them.
    fn new(name: impl Into<String>, stick: u64, given: &[u32]) -> Self {
        let mut readings = [0; TAPE_READINGS];
        readings[..given.len()].copy_from_slice(given);
        Self { name: name.into(), stick, count: given.len() as u32, readings }
    }

    /// The same with a number in every place that is not used.
    fn with_unused(mut self, number: u32) -> Self {
        self.readings[self.count as usize..].fill(number);
        self
    }

    /// What this package answers.
    pub fn work_out(&self) -> Result<StickCheck, Refusal> {
        stick::stick_against_tape(self.stick, self.count, self.readings)
    }
}

/// Readings near a stick level of 1,500.0 mm to 1,500.9 mm, from which it lies apart by so many tenths of
/// a mm in all.
fn apart(name: impl Into<String>, count: u32, by: i64) -> Vector {
    let fits = |stick: &u64| (*stick as i64 * i64::from(count) - by) % 10 == 0;
    let stick = (STICK..STICK + 10).find(fits).expect("a stick level that lies so far apart");
    Vector::new(name, stick, &around(stick, count, by))
}

/// A stick level of 1,500.0 mm, and so many readings of it but another in one place, counted from 1.
fn but(name: impl Into<String>, count: usize, place: usize, reading: u32) -> Vector {
    let mut given = vec![LEVEL; count];
    given[place - 1] = reading;
    Vector::new(name, STICK, &given)
}

/// The stick above the mean of so many readings and below it, by so many tenths of a mm in all.
fn both_ways(kind: &str, count: u32, by: i64) -> [Vector; 2] {
    [("above", by), ("below", -by)]
        .map(|(way, by)| apart(format!("{kind}-{way}-with-{count}"), count, by))
}

/// The least that a stick may lie apart from so many readings in all, in tenths of a mm: what divides both
/// their number and 10.
fn least(count: u32) -> i64 {
    [10, 5, 2].into_iter().find(|divisor| count % divisor == 0).unwrap_or(1).into()
}

/// So many readings, any two of which differ by 1 mm at most; the stick level in 0.1 mm times their number,
/// less ten times their sum, is `by`, or as much more as makes the sum a whole number.
pub fn around(stick: u64, count: u32, by: i64) -> Vec<u32> {
    let count = i64::from(count);
    let sum = (stick as i64 * count - by).div_euclid(10);
    let (whole, further) = (sum.div_euclid(count), sum.rem_euclid(count));
    (0..count).map(|place| (whole + i64::from(place < further)) as u32).collect()
}

fn groups() -> Vec<Group<Vector>> {
    [
        differences::groups(),
        limits::groups(),
        places::groups(),
        ranges::groups(),
        partings::groups(),
    ]
    .into_iter()
    .flatten()
    .collect()
}
