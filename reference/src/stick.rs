//! The stick checked against the tape at one level, by section 14 of GOST R 8.787: refusals 28 and 29.
//!
//! The stick level is in 0.1 mm, readings of the tape are in mm, differences and allowances in 0.01 mm.

use std::ops::RangeInclusive;

use crate::level::{has_allowance, in_tenths, tape_allowance, HIGHEST};
use crate::refusal::{ensure, Refusal};
use crate::rounding::nearest;

/// Places for readings of the tape.
pub const TAPE_READINGS: usize = 20;

/// How many readings may be given.
const COUNTS: RangeInclusive<u32> = 10..=20;

/// What the tape may read.
const READINGS: RangeInclusive<u32> = 1..=HIGHEST;

/// So many tenths of a mm the stick may lie from the mean of the tape, either way.
const FURTHEST: u64 = 20;

/// What is found of a stick.
#[derive(Clone, Copy, Debug, PartialEq, Eq)]
pub struct StickCheck {
    /// Stick level minus mean of the tape, a half going away from zero.
    pub difference: i64,
    /// Whether the difference before rounding is at most 2 mm either way.
    pub passes: bool,
    /// The tape allowance at the stick level.
    pub allowance: u32,
}

/// The stick level against the first so many readings of the tape; the places behind them are not
/// looked at: refusals 28 and 29.
pub fn stick_against_tape(
    stick: u64,
    count: u32,
    readings: [u32; TAPE_READINGS],
) -> Result<StickCheck, Refusal> {
    ensure(COUNTS.contains(&count), Refusal::TapeReadingCount)?;
    let given = readings.iter().take(count as usize);
    ensure(given.clone().all(|reading| READINGS.contains(reading)), Refusal::StickOrTapeLevel)?;
    ensure(has_allowance(stick), Refusal::StickOrTapeLevel)?;
    let sum: u64 = given.copied().map(in_tenths).sum();
    let apart = (stick * u64::from(count)) as i64 - sum as i64;
    let passes = apart.unsigned_abs() <= FURTHEST * u64::from(count);
    Ok(StickCheck {
        difference: hundredths(apart, count),
        passes,
        allowance: tape_allowance(stick)?,
    })
}

/// A difference in 0.01 mm, from what it comes to in 0.1 mm over so many readings, a half going away
/// from zero.
fn hundredths(apart: i64, count: u32) -> i64 {
    let size = nearest(10 * apart.unsigned_abs(), u64::from(count));
    apart.signum() * size as i64
}
