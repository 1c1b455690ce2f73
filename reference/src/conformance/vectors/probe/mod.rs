//! Floats that a probe hands over, one by itself or three in a set, each of which tries one point.

pub mod decimals;
mod ends;
mod exponents;
mod halves;
mod not_numbers;
mod partings;
mod sets;
mod text;

use super::{Group, Written};
use crate::probe::{Reading, Set};
use crate::refusal::Refusal;

/// What is handed over.
#[derive(Clone, Copy, Debug)]
pub enum Asked {
    One(Reading),
    Three(Set),
}

/// A reading or a set, with a name that says what it tries.
#[derive(Clone, Debug)]
pub struct Vector {
    pub name: String,
    pub asked: Asked,
}

/// Two vectors are the same where all bits are, also those of what is not a number.
impl PartialEq for Vector {
    fn eq(&self, other: &Self) -> bool {
        (&self.name, self.question()) == (&other.name, other.question())
    }
}

/// What a reading is of: a level in mm, a temperature in °C, a density in kg/m³.
type Kind = fn(f32) -> Reading;

/// The kinds with their names.
const KINDS: [(&str, Kind); 3] = [
    ("level", Reading::Level),
    ("temperature", Reading::Temperature),
    ("density", Reading::Density),
];

/// Kinds of what is not a number: with the sign, signalling, and quiet with all other bits.
pub const WITH_SIGN: f32 = f32::from_bits(0xffc0_0000);
pub const SIGNALLING: f32 = f32::from_bits(0x7f80_0001);
pub const LARGEST_PAYLOAD: f32 = f32::from_bits(0x7fff_ffff);

/// The rack card's first car.
const SET: Set = Set { level: 1500.0, temperature: 60.0, density: 950.0 };

impl Vector {
    fn one(name: impl Into<String>, reading: Reading) -> Self {
        Self { name: name.into(), asked: Asked::One(reading) }
    }

    fn set(name: impl Into<String>, set: Set) -> Self {
        Self { name: name.into(), asked: Asked::Three(set) }
    }

    /// What this package answers: the tenths, one number or three.
    pub fn work_out(&self) -> Result<Vec<u32>, Refusal> {
        match self.asked {
            Asked::One(reading) => reading.tenths().map(|tenths| vec![tenths]),
            Asked::Three(set) => {
                set.tenths().map(|set| vec![set.level, set.temperature, set.density.0])
            }
        }
    }
}

/// Floats as levels, temperatures and densities by turns.
fn by_turns(floats: impl IntoIterator<Item = (String, f32)>) -> Vec<Vector> {
    let kinds = KINDS.into_iter().cycle();
    floats
        .into_iter()
        .zip(kinds)
        .map(|((name, float), (_, kind))| Vector::one(name, kind(float)))
        .collect()
}

/// A float as each of the three, whose kind stands behind the name.
fn as_each(name: &str, float: f32) -> [Vector; 3] {
    KINDS.map(|(of, kind)| Vector::one(format!("{name}-{of}"), kind(float)))
}

/// The name of a case, behind the refusal that its float gets.
fn told(name: &str, float: f32) -> String {
    if float < 0.0 || !float.is_finite() {
        format!("refusal-31-{name}")
    } else if float >= 10_000_000.0 {
        format!("refusal-32-{name}")
    } else {
        name.to_string()
    }
}

fn groups() -> Vec<Group<Vector>> {
    [
        halves::groups(),
        decimals::groups(),
        ends::groups(),
        exponents::groups(),
        not_numbers::groups(),
        sets::groups(),
        partings::groups(),
    ]
    .into_iter()
    .flatten()
    .collect()
}
