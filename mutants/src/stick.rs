//! A stick set against the tape as the reference and its rewritten copy answer it.

use reference::conformance::vectors::stick::Vector;
use reference::stick::TAPE_READINGS;

use crate::draw::Draw;
use crate::hooks;
use crate::turned::stick as turned;

/// What a caller sees: 0, the difference, whether it passes and the allowance, or the refusal and none.
macro_rules! seen {
    ($answer:expr) => {
        match $answer {
            Ok(check) => [0, check.difference, check.passes.into(), check.allowance.into()],
            Err(refusal) => [refusal.number().into(), 0, 0, 0],
        }
        .map(i64::to_ne_bytes)
        .concat()
    };
}

pub fn right(vector: &Vector) -> Vec<u8> {
    seen!(vector.work_out())
}

pub fn turned(vector: &Vector) -> Vec<u8> {
    let Vector { stick, count, readings, .. } = *vector;
    seen!(hooks::reordered(|| turned::stick_against_tape(stick, count, readings)))
}

/// Sticks by lot: a level in 0.1 mm and readings within some mm of it, any numbers in the places behind
/// them, one time in four a number out of range in one place.
pub fn drawn(count: u64) -> impl Iterator<Item = Vector> {
    (0..count).map(|seed| {
        let mut draw = Draw::new(seed);
        let (stick, given) = (draw.between(0, 36_010), draw.between(9, 21));
        let near = stick / 10;
        let wide = [1, 3, 3_600][draw.between(0, 2) as usize];
        let unused = [3_600, u32::MAX][draw.between(0, 1) as usize];
        let mut readings = [0; TAPE_READINGS].map(|_| draw.between(1, unused));
        for reading in readings.iter_mut().take(given as usize) {
            *reading = draw.between(near.saturating_sub(wide), near + wide).clamp(1, 3_600);
        }
        if draw.between(0, 3) == 0 {
            let place = draw.between(1, TAPE_READINGS as u32) as usize - 1;
            readings[place] = [0, 3_601][draw.between(0, 1) as usize];
        }
        Vector { name: format!("stick by lot {seed}"), stick: stick.into(), count: given, readings }
    })
}
