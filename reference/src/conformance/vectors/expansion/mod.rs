//! Densities at 15 °C that each try one point of B, the coefficient of expansion that is looked up.

mod fields;
mod partings;
mod refusals;
mod text;

use super::Group;
use crate::operations;
use crate::refusal::Refusal;

/// A density at 15 °C in 0.1 kg/m³ with a name that says what it tries.
#[derive(Clone, Debug, PartialEq)]
pub struct Vector {
    pub name: String,
    pub density: u32,
}

impl Vector {
    fn new(name: impl Into<String>, density: u32) -> Self {
        Self { name: name.into(), density }
    }

    /// What this package answers, in 10⁻⁹ per °C.
    pub fn work_out(&self) -> Result<u64, Refusal> {
        operations::coefficient(self.density)
    }
}

fn groups() -> Vec<Group<Vector>> {
    [fields::groups(), refusals::groups(), partings::groups()].into_iter().flatten().collect()
}
