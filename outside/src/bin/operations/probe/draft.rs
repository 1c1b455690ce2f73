//! A probe's car as the tests hold it: its seven numbers and, as numbers too, the bits of its three floats.

use outside::floats::{self, beside, hundredths};
use outside::random::Random;
use outside::{PROBE_FIELDS, SET};
use reference::probe::Set;

use super::floats_of;
use crate::cars::{self, LIMITS};
use crate::figures::ENDS;
use crate::tables::Given;

/// Places of a draft: car number, type, grade, stick, water level, water, impurities; level, temperature,
/// density.
pub const PLACES: usize = PROBE_FIELDS + SET;
const LEVEL: usize = PROBE_FIELDS;

/// The place that each number of a probe's car has among a dipped car's, and those of its first reading,
/// temperature and density.
const DIPPED: [usize; PROBE_FIELDS] = [0, 1, 2, 3, 9, 12, 13];
const READING: usize = 5;
const TEMPERATURE: usize = 10;
const DENSITY: usize = 11;

/// Bits of floats at the ends: zeros, the smallest, what is below zero, the largest, infinite, not a number.
const ENDS_OF_FLOATS: [u32; 10] = [
    0,
    1 << 31,
    1,
    (1 << 31) + 1,
    0x4b18_967f,
    0x4b18_9680,
    0x7f7f_ffff,
    0x7f80_0000,
    0x7f80_0001,
    u32::MAX,
];

/// Hundredths around which a level, on a table that reaches 9 mm, a temperature or a density ends.
const BOUNDS: [&[u32]; SET] = [
    &[5, 10, 95, 295, 300, 305, 315, 395, 400, 405, 895, 900, 905, 910],
    &[1_995, 2_000, 3_995, 4_000, 9_000, 9_005],
    &[89_995, 90_000, 95_845, 96_345, 99_000, 99_005],
];

/// A car that no refusal turns away on a table of type 1 that reaches 9 mm.
pub const SOUND: Draft =
    Draft([50_000_001, 1, 3, 1, 3, 50, 20, 9_f32.to_bits(), 60_f32.to_bits(), 950_f32.to_bits()]);

#[derive(Clone, Copy)]
pub struct Draft(pub [u32; PLACES]);

impl Draft {
    pub fn fields(&self) -> [u32; PROBE_FIELDS] {
        std::array::from_fn(|place| self.0[place])
    }

    pub fn set(&self) -> Set {
        let [level, temperature, density] =
            [0, 1, 2].map(|float| f32::from_bits(self.0[LEVEL + float]));
        Set { level, temperature, density }
    }

    pub fn with(mut self, place: usize, number: u32) -> Self {
        self.0[place] = number;
        self
    }

    pub fn with_set(mut self, set: Set) -> Self {
        self.0[LEVEL..].copy_from_slice(&floats_of(set).map(f32::to_bits));
        self
    }

    /// At a level in 0.1 mm, above a water level in mm.
    pub fn at(self, tenths: u32, water_level: u32) -> Self {
        let level = (f64::from(tenths) / 10.0) as f32;
        self.with(LEVEL, level.to_bits()).with(4, water_level)
    }
}

/// Numbers near the limits of a place; of a float also the bits at the ends.
pub fn limits(place: usize) -> Vec<u32> {
    match place.checked_sub(LEVEL) {
        None => LIMITS[DIPPED[place]].to_vec(),
        Some(float) => {
            let near = BOUNDS[float].iter().flat_map(|&bound| beside(hundredths(bound)));
            near.map(f32::to_bits).chain(ENDS_OF_FLOATS).collect()
        }
    }
}

/// The same, and the ends of a number.
pub fn limits_and_ends(place: usize) -> Vec<u32> {
    let ends = if place < LEVEL { &ENDS[..] } else { &[] };
    [&limits(place)[..], ends].concat()
}

/// A car for some tables, with no fault or a few: a dipped car's numbers, at a level of any tenth.
pub fn draw(random: &mut Random, given: &Given) -> Draft {
    let dipped = cars::draw(random, given);
    let reading = 10 * u64::from(dipped[READING]);
    let level = reading.saturating_sub(random.below(10) as u64);
    let numbers = DIPPED.map(|place| dipped[place]);
    let tenths = [level, dipped[TEMPERATURE].into(), dipped[DENSITY].into()];
    let [level, temperature, density] = tenths.map(|tenths| near(random, tenths));
    let mut draft = SOUND.with_set(Set { level, temperature, density });
    draft.0[..PROBE_FIELDS].copy_from_slice(&numbers);
    draft
}

/// A float at so many tenths, or around the half beside them; one in forty by lot out of all.
fn near(random: &mut Random, tenths: u64) -> f32 {
    let tenth = (tenths as f64 / 10.0) as f32;
    let half = |more: f64| ((tenths as f64 + more) / 10.0) as f32;
    match random.below(40) {
        0 => floats::draw(random),
        1..=12 => random.pick(&beside(half(-0.5))),
        13..=24 => random.pick(&beside(half(0.5))),
        _ => tenth,
    }
}
