//! Levels: the mean of the readings (step 1), a probe's level in its stead, and the tape allowance.
//!
//! Readings are in mm. A mean level, and a level that is handed over by itself, is in 0.1 mm.

use std::ops::RangeInclusive;

use crate::refusal::Refusal;
use crate::rounding::nearest;

/// Two readings of one level may differ by this many mm.
const AGREEMENT: u32 = 1;

/// The three closest of four readings may span this many mm.
const SPAN: u32 = 3;

/// No level passes this many mm.
pub const HIGHEST: u32 = 3_600;

/// Levels that have a tape allowance, in 0.1 mm.
const TAPE_LEVELS: RangeInclusive<u64> = 10..=36_000;

/// A metre, in 0.1 mm.
const METRE: u64 = 10_000;

/// Permitted deviation of the tape, in 0.01 mm, for 1, 2, 3 and 4 whole and part metres.
const ALLOWANCES: [u32; 4] = [30, 45, 60, 75];

/// Whole mm in 0.1 mm.
pub fn in_tenths(level: u32) -> u64 {
    10 * u64::from(level)
}

/// How the level of a car was taken.
#[derive(Clone, Copy, Debug)]
pub(crate) enum Taken {
    /// So many readings of the four, in mm.
    Dipped { given: u32, readings: [u32; 4] },
    /// By a probe, in 0.1 mm.
    Probed(u32),
}

impl Taken {
    /// The mean level in 0.1 mm, for which a probe's level stands: refusals 14, 15 and 23 where it was
    /// dipped, and 16 for 0.
    pub(crate) fn mean(self) -> Result<u64, Refusal> {
        match self {
            Self::Dipped { given, readings } => mean(given, readings),
            Self::Probed(level) => unless_zero(u64::from(level)),
        }
    }
}

/// The mean level in 0.1 mm, from two or four readings; the places of readings not given hold 0:
/// refusals 14, 15, 23 and, for a mean of 0, 16.
pub fn mean(given: u32, readings: [u32; 4]) -> Result<u64, Refusal> {
    let [first, second, third, fourth] = readings;
    let agree = first.abs_diff(second) <= AGREEMENT;
    let mean = match given {
        2 if (third, fourth) != (0, 0) => return Err(Refusal::ReadingCount),
        2 if !agree => return Err(Refusal::ReadingsApart),
        2 | 4 if agree => mean_of(&[first, second]),
        4 => mean_of(&three_together(readings)?),
        _ => return Err(Refusal::ReadingCount),
    };
    unless_zero(mean)
}

/// A mean level, unless it is 0: refusal 16.
fn unless_zero(mean: u64) -> Result<u64, Refusal> {
    if mean == 0 {
        return Err(Refusal::Level);
    }
    Ok(mean)
}

/// The three closest of four readings, unless they do not belong together: refusal 23.
fn three_together(readings: [u32; 4]) -> Result<[u32; 3], Refusal> {
    let three @ [low, _, high] = three_closest(readings);
    if high - low > SPAN {
        return Err(Refusal::ThreeApart);
    }
    Ok(three)
}

/// The three closest of four readings, rising; of two triples that are equally close the lower.
fn three_closest(mut readings: [u32; 4]) -> [u32; 3] {
    readings.sort_unstable();
    let [a, b, c, d] = readings;
    if c - a <= d - b {
        [a, b, c]
    } else {
        [b, c, d]
    }
}

/// The mean of readings in 0.1 mm, rounded once.
fn mean_of(readings: &[u32]) -> u64 {
    let sum: u64 = readings.iter().copied().map(in_tenths).sum();
    nearest(sum, readings.len() as u64)
}

/// The tape allowance at a level in 0.1 mm, in 0.01 mm: refusal 16.
pub fn tape_allowance(level: u64) -> Result<u32, Refusal> {
    if !has_allowance(level) {
        return Err(Refusal::Level);
    }
    Ok(ALLOWANCES[metres(level) as usize - 1])
}

/// Whether a level in 0.1 mm has a tape allowance.
pub fn has_allowance(level: u64) -> bool {
    TAPE_LEVELS.contains(&level)
}

/// The number of whole and part metres in a level in 0.1 mm.
pub fn metres(level: u64) -> u64 {
    level.div_ceil(METRE)
}
