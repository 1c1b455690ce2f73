//! Drawing the readings of a car: two or four, agreeing, one of them far off, four whose three closest
//! have a mean with thirds of a millimetre, and four whose three closest are just within the span of
//! refusal 23 or just past it.

use super::random::Random;
use crate::car::Car;
use crate::level::{self, in_tenths};

/// The largest number that a field holds.
pub const FAR: u32 = 99_999_999;

/// Three readings of so many mm are a little more than 2³² twentieths of a mm.
const OF_32_BITS: u32 = 71_582_789;

/// Two or four readings whose mean is the level or close to it, and not above the highest.
pub fn draw(random: &mut Random, car: &mut Car, level: u32, highest: u32) {
    car.given = random.pick(&[2, 4]);
    let [first, second] = agreeing(random, level);
    car.readings = match (car.given, random.below(5)) {
        (2, _) => [first, second, 0, 0],
        (_, 0) => {
            let others = [0, 1, level, level + 4, highest, FAR];
            [first, second, random.pick(&others), random.pick(&others)]
        }
        (_, 1) => {
            // One reading lies far off, in any place.
            let mut readings = [level, level - 1, level, level.saturating_sub(2)];
            readings[random.below(4)] = random.pick(&[0, level + 9, 3_700, FAR]);
            readings
        }
        (_, 2) => thirds(random, level - 1),
        _ => {
            let span = random.pick(&[1, 2, 3, 3]);
            spanning(random, level, span)
        }
    };
    let passes = level::mean(car.given, car.readings).is_ok_and(|mean| mean <= in_tenths(highest));
    if !passes {
        car.given = 2;
        car.readings = [level, level, 0, 0];
    }
}

/// Two readings of a level above 0, at most 1 mm apart.
fn agreeing(random: &mut Random, level: u32) -> [u32; 2] {
    random.pick(&[[level, level], [level, level - 1], [level - 1, level]])
}

/// Four readings whose three closest have a mean at a level, or a third or two thirds of a mm past it.
fn thirds(random: &mut Random, level: u32) -> [u32; 4] {
    let [third, fourth] = random.pick(&[[0, 0], [0, 1], [1, 0], [1, 1]]);
    let [first, second] = random.pick(&[[0, 2], [2, 0]]);
    [first, second, third, fourth].map(|more| level + more)
}

/// Four readings in any order whose three closest span so many mm up to `top`; the fourth makes a
/// second triple as close, or lies further off on either side.
fn spanning(random: &mut Random, top: u32, span: u32) -> [u32; 4] {
    let low = top.saturating_sub(span);
    let middle = random.between(low, top);
    let beyond = span + random.pick(&[0, 1, 2, 90]);
    let fourth = if random.one_in(2) { middle + beyond } else { middle.saturating_sub(beyond) };
    let mut readings = [low, middle, top, fourth];
    for place in 0..4 {
        readings.swap(place, random.below(4));
    }
    readings
}

/// Makes 14, 15, 16 or 23 turn the car away, or come close to it.
pub fn spoil(random: &mut Random, car: &mut Car, highest: u32) {
    match random.below(8) {
        0 => car.given = random.pick(&[0, 1, 2, 3, 4, 5, FAR]),
        1 => car.readings[random.between(2, 3) as usize] = random.pick(&[0, 1, highest, FAR]),
        2 => car.readings[random.below(2)] += random.pick(&[1, 2, 3, 1_000]),
        3 => {
            let level = random.pick(&[0, highest, highest + 1, highest + 2, FAR]);
            let beside = level.saturating_sub(1);
            let pairs = [[level, level], [level, beside], [beside, level]];
            car.readings[..2].copy_from_slice(&random.pick(&pairs));
        }
        4 => {
            let level = random.pick(&[0, highest - 1, highest, OF_32_BITS + 150]);
            car.given = 4;
            car.readings = thirds(random, level);
        }
        _ => {
            let span = random.pick(&[2, 3, 4, 5]);
            car.given = 4;
            car.readings = spanning(random, car.readings[0].min(highest + 2), span);
        }
    }
}
