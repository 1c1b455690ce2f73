//! The line of a vector: stick level and readings, sum and difference on the way, the check.

use super::super::{numbers, words, Group, Written};
use super::Vector;
use crate::stick::StickCheck;

/// What stands before the vectors.
const HEAD: &str = "\
# Stick against tape: document 02, requests (f) and (g). Made by make_conformance.
#
# A case is one line. Its parts stand between bars:
#   name
#   given    the stick level (0.1 mm, a number of 64 bits; from 10 to 36000 it is taken) and the number m
#            of tape readings
#   places   20 places for readings (mm); the first m are the readings, the others are not looked at
#   on the way, the sum s of the readings (mm), and the stick level times m, less 10 s (0.1 mm);
#            a dash where the case is turned away
#   answer   the difference of stick level and mean of the tape (0.01 mm), negative where the stick
#            level is below; then yes where it passes, else no; then the tape allowance for the stick
#            level (0.01 mm); or the refusal, 28 or 29, which stands behind a dash
# What stands on the way is shown to find a fault by; what must come out is the answer.
# Lines that begin with # and empty lines are no cases.
";

impl Written for Vector {
    const FILE: &'static str = "stick-against-tape.vectors";
    const HEAD: &'static str = HEAD;
    const ANSWERS: &'static str = include_str!("answers.txt");

    fn groups() -> Vec<Group<Self>> {
        super::groups()
    }

    fn name(&self) -> &str {
        &self.name
    }

    fn question(&self) -> String {
        format!("{} {} | {}", self.stick, self.count, words(self.readings))
    }

    fn answer(&self) -> String {
        match self.work_out() {
            Ok(StickCheck { difference, passes, allowance }) => {
                let passes = if passes { "yes" } else { "no" };
                format!("{} | {difference} {passes} {allowance}", self.on_the_way())
            }
            Err(refusal) => format!("- | {}", refusal.number()),
        }
    }

    fn read<'a>(mut part: impl FnMut() -> &'a str) -> Self {
        let name = part().to_string();
        let [stick, count]: [u64; 2] = numbers(part());
        let count = count.try_into().expect("a number of 32 bits");
        Self { name, stick, count, readings: numbers(part()) }
    }
}

impl Vector {
    /// The sum of the readings, and how far the stick lies from all of them.
    fn on_the_way(&self) -> String {
        let sum: u32 = self.readings[..self.count as usize].iter().sum();
        let sum = i64::from(sum);
        words([sum, self.stick as i64 * i64::from(self.count) - 10 * sum])
    }
}
