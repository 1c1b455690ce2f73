//! Densities that 19 turns away, also those that come into range where bits are cut off.

use super::{Group, Vector};

/// A density that is answered, in 0.1 kg/m³.
const SOUND: u32 = 9_500;

pub fn groups() -> Vec<Group<Vector>> {
    vec![
        Group { about: "19: densities outside 9000 to 9900", vectors: outside() },
        Group {
            about: "19: densities that are in range where bits are cut off",
            vectors: cut_off(),
        },
        Group {
            about: "19: densities whose place in the list, r − 9000, is in range where bits are cut off",
            vectors: places(),
        },
    ]
}

fn refusal(name: &str, density: u32) -> Vector {
    Vector::new(format!("refusal-19-{name}"), density)
}

fn outside() -> Vec<Vector> {
    let plain = [
        0,
        1,
        900,
        901,
        8_998,
        8_999,
        9_901,
        9_902,
        9_999,
        10_000,
        65_535,
        65_536,
        99_999_999,
        100_000_000,
        (1 << 31) - 1,
        1 << 31,
        u32::MAX - 1,
        u32::MAX,
    ]
    .map(|density: u32| refusal(&format!("density-{density}"), density));
    let units = [
        refusal("density-in-whole-kilograms", SOUND / 10),
        refusal("density-in-hundredths", 10 * SOUND),
        refusal("density-at-20-of-9000", 8_965),
    ];
    plain.into_iter().chain(units).collect()
}

fn cut_off() -> Vec<Vector> {
    let of_16 = [9_000, SOUND, 9_600, 9_900]
        .map(|density| refusal(&format!("density-{density}-in-16-bits"), (1 << 16) + density));
    let others = [
        refusal("density-in-14-bits", (1 << 14) + SOUND),
        refusal("density-in-15-bits", (1 << 15) + SOUND),
        refusal("density-in-17-bits", (1 << 17) + SOUND),
        refusal("density-in-24-bits", (1 << 24) + SOUND),
        refusal("density-in-31-bits", (1 << 31) + SOUND),
        refusal("density-of-all-bits-in-16-bits", u32::MAX - 0xffff + SOUND),
        refusal("density-that-is-negative-in-32-bits", u32::MAX - (SOUND - 1)),
    ];
    of_16.into_iter().chain(others).collect()
}

fn places() -> Vec<Vector> {
    let of_10 = [0, 500, 900]
        .map(|place| refusal(&format!("place-{place}-in-10-bits"), 9_000 + (1 << 10) + place));
    let others = [
        refusal("place-in-12-bits", (1 << 12) + SOUND),
        refusal("place-without-its-sign", 9_000 - 500),
        refusal("place-900-without-its-sign", 9_000 - 900),
        refusal("place-901-from-the-end", 9_000 - 901),
    ];
    of_10.into_iter().chain(others).collect()
}
