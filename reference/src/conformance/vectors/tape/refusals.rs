//! Levels that 16 turns away, also those that are small where bits are cut off.

use super::{Group, Vector};

/// A level that is answered, in 0.1 mm.
const SOUND: u64 = 10_000;

/// The largest number of 32 bits.
const OF_32_BITS: u64 = (1 << 32) - 1;

pub fn groups() -> Vec<Group<Vector>> {
    vec![
        Group { about: "16: levels outside 10 to 36000", vectors: outside() },
        Group { about: "16: levels that are small where bits are cut off", vectors: cut_off() },
        Group {
            about: "16: levels that are small where a product or a sum is cut off",
            vectors: overflown(),
        },
    ]
}

fn refusal(name: &str, level: u64) -> Vector {
    Vector::new(format!("refusal-16-level-{name}"), level)
}

fn outside() -> Vec<Vector> {
    let plain = [
        0,
        1,
        3,
        5,
        7,
        9,
        36_001,
        36_002,
        36_009,
        36_010,
        39_999,
        40_000,
        40_001,
        65_535,
        65_536,
        99_999_999,
        100_000_000,
        999_999_990,
        (1 << 31) - 1,
        1 << 31,
        OF_32_BITS - 1,
        OF_32_BITS,
        1 << 32,
        (1 << 32) + 9,
        10 * OF_32_BITS,
        1 << 63,
        u64::MAX - 1,
        u64::MAX,
    ]
    .map(|level: u64| refusal(&level.to_string(), level));
    let hundredths =
        [SOUND, 36_000].map(|level| refusal(&format!("{level}-in-hundredths"), 10 * level));
    plain.into_iter().chain(hundredths).collect()
}

fn cut_off() -> Vec<Vector> {
    vec![
        refusal("in-16-bits", (1 << 16) + SOUND),
        refusal("36000-in-16-bits", (1 << 16) + 36_000),
        refusal("in-24-bits", (1 << 24) + SOUND),
        refusal("in-31-bits", (1 << 31) + SOUND),
        refusal("in-32-bits", (1 << 32) + SOUND),
        refusal("10-in-32-bits", (1 << 32) + 10),
        refusal("36000-in-32-bits", (1 << 32) + 36_000),
        refusal("in-33-bits", (1 << 33) + SOUND),
        refusal("in-48-bits", (1 << 48) + SOUND),
        refusal("in-63-bits", (1 << 63) + SOUND),
        refusal("that-is-negative-in-32-bits", OF_32_BITS - (SOUND - 1)),
        refusal("that-is-negative-in-64-bits", u64::MAX - (SOUND - 1)),
    ]
}

fn overflown() -> Vec<Vector> {
    vec![
        // 10, 15 and 100 times as much is a little more than that of the sound level.
        refusal("times-10-in-32-bits", 429_496_730 + SOUND),
        refusal("times-15-in-32-bits", 286_331_154 + SOUND),
        refusal("times-100-in-32-bits", 42_949_673 + SOUND),
        refusal("times-10-in-64-bits", 1_844_674_407_370_955_162 + SOUND),
        refusal("times-15-in-64-bits", 1_229_782_938_247_303_442 + SOUND),
        refusal("times-100-in-64-bits", 184_467_440_737_095_517 + SOUND),
        // With 9,999 added it is 0.
        refusal("plus-9999-in-32-bits", OF_32_BITS - 9_998),
        refusal("plus-9999-in-64-bits", u64::MAX - 9_998),
    ]
}
