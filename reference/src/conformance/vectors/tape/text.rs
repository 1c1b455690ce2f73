//! The line of a vector: the level, its metres, the tape allowance.

use super::super::{numbers, Group, Written};
use super::Vector;
use crate::level::metres;

/// What stands before the vectors.
const HEAD: &str = "\
# The tape allowance: document 01, and document 02, requests (e) and (g). Made by make_conformance.
#
# A case is one line. Its parts stand between bars:
#   name
#   level    in 0.1 mm, a number of 64 bits; from 10 to 36000 it is answered
#   on the way, the number L of whole and part metres in the level, a metre of 10000;
#            a dash where 16 turns the level away
#   answer   the allowance 30 + 15 × (L − 1) in 0.01 mm, from 30 to 75,
#            or the refusal, 16, which stands behind a dash and is no allowance
# What stands on the way is shown to find a fault by; what must come out is the answer.
# Lines that begin with # and empty lines are no cases.
";

impl Written for Vector {
    const FILE: &'static str = "tape-allowance.vectors";
    const HEAD: &'static str = HEAD;
    const ANSWERS: &'static str = include_str!("answers.txt");

    fn groups() -> Vec<Group<Self>> {
        super::groups()
    }

    fn name(&self) -> &str {
        &self.name
    }

    fn question(&self) -> String {
        self.level.to_string()
    }

    fn answer(&self) -> String {
        match self.work_out() {
            Ok(allowance) => format!("{} | {allowance}", metres(self.level)),
            Err(refusal) => format!("- | {}", refusal.number()),
        }
    }

    fn read<'a>(mut part: impl FnMut() -> &'a str) -> Self {
        let name = part().to_string();
        let [level] = numbers(part());
        Self { name, level }
    }
}
