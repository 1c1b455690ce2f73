//! Levels that each try one point of the tape allowance.

mod metres;
mod partings;
mod refusals;
mod text;

use super::Group;
use crate::level;
use crate::refusal::Refusal;

/// A level in 0.1 mm with a name that says what it tries.
#[derive(Clone, Debug, PartialEq)]
pub struct Vector {
    pub name: String,
    pub level: u64,
}

impl Vector {
    fn new(name: impl Into<String>, level: u64) -> Self {
        Self { name: name.into(), level }
    }

    /// What this package answers, in 0.01 mm.
    pub fn work_out(&self) -> Result<u32, Refusal> {
        level::tape_allowance(self.level)
    }
}

fn groups() -> Vec<Group<Vector>> {
    [metres::groups(), refusals::groups(), partings::groups()].into_iter().flatten().collect()
}
