//! The tape allowance at a level as the reference and its rewritten copy answer it.

use reference::level::tape_allowance;

use crate::draw::Draw;
use crate::turned::level as turned;

/// What a caller sees: 0 and the allowance, or the refusal and none.
macro_rules! seen {
    ($answer:expr) => {
        match $answer {
            Ok(allowance) => [0, allowance],
            Err(refusal) => [refusal.number(), 0],
        }
        .map(u32::to_ne_bytes)
        .concat()
    };
}

pub fn right(level: u64) -> Vec<u8> {
    seen!(tape_allowance(level))
}

pub fn turned(level: u64) -> Vec<u8> {
    seen!(turned::tape_allowance(level))
}

/// Levels by lot in 0.1 mm, never 0: up to 40,000, around the ends of a metre, up to the largest number of
/// 32 bits, and past it by as much as a level.
pub fn drawn(count: u64) -> impl Iterator<Item = u64> {
    (0..count).map(|seed| {
        let mut draw = Draw::new(seed);
        let ends = [10, 10_000, 20_000, 30_000, 36_000];
        match draw.between(0, 3) {
            0 => draw.between(1, 40_000).into(),
            1 => (ends[draw.between(0, 4) as usize] + draw.between(0, 20) - 9).into(),
            2 => draw.between(1, u32::MAX).into(),
            _ => (1 << draw.between(32, 63)) + u64::from(draw.between(1, 40_000)),
        }
    })
}
