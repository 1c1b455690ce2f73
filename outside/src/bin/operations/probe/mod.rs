//! The portable probe: readings and sets in tenths, and a probe's car alone and with its permitted error. Its
//! car in a train stands with the other trains.

mod cars;
mod draft;
mod errors;
mod readings;
mod sets;

pub use cars::work_out_probe;
pub use draft::{draw, Draft, SOUND};
pub use errors::permitted_error_probe;
pub use readings::reading_tenths;
pub use sets::set_tenths;

use reference::probe::Set;

/// Floats that 31 turns away: below zero, infinite and not a number.
const BY_31: [f32; 6] =
    [-1.0, -f32::MIN_POSITIVE, f32::NEG_INFINITY, f32::INFINITY, f32::NAN, -f32::NAN];

/// Floats that 32 turns away.
const BY_32: [f32; 3] = [10_000_000.0, 429_496_736.0, f32::MAX];

/// A set as it is told.
pub fn floats_of(set: Set) -> [f32; 3] {
    [set.level, set.temperature, set.density]
}

/// A sound set with one of its floats, with two and with all replaced by each that 31 or 32 turns away.
pub fn faulty_sets(sound: Set) -> Vec<Set> {
    let choices = |sound: f32| [&[sound][..], &BY_31, &BY_32].concat();
    let mut sets = Vec::new();
    for level in choices(sound.level) {
        for temperature in choices(sound.temperature) {
            for density in choices(sound.density) {
                sets.push(Set { level, temperature, density });
            }
        }
    }
    // the first is the sound one
    sets.split_off(1)
}
