//! Laboratories' reports that each try one point of the density at 15 °C that is got from them.

mod edges;
pub mod halves;
mod paper;
mod partings;
mod refusals;
mod text;
mod ties;

use super::Group;
use crate::laboratory;
use crate::refusal::Refusal;
use crate::thermal::Density15;

/// A density in 0.1 kg/m³ reported at a temperature in 0.1 °C, with a name that says what they try.
#[derive(Clone, Debug, PartialEq)]
pub struct Vector {
    pub name: String,
    pub reported: u32,
    pub temperature: u32,
}

impl Vector {
    fn new(name: impl Into<String>, reported: u32, temperature: u32) -> Self {
        Self { name: name.into(), reported, temperature }
    }

    /// What this package answers.
    pub fn work_out(&self) -> Result<Density15, Refusal> {
        laboratory::density_at_15(self.reported, self.temperature)
    }
}

fn groups() -> Vec<Group<Vector>> {
    [
        paper::groups(),
        edges::groups(),
        ties::groups(),
        refusals::groups(),
        partings::groups(),
        halves::groups(),
    ]
    .into_iter()
    .flatten()
    .collect()
}
