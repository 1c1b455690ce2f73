//! Zeros, the smallest floats, the largest whose tenths are given and the least that 32 turns away.

use super::{as_each, by_turns, told, Group, Vector};

pub fn groups() -> Vec<Group<Vector>> {
    vec![
        Group { about: "Zeros, and floats so small that no tenth is left", vectors: small() },
        Group { about: "The first floats that give a tenth, two and so on", vectors: first() },
        Group { about: "Where quarters and halves of a mm end", vectors: coarse() },
        Group {
            about: "The largest that are given, the least that 32 turns away",
            vectors: large(),
        },
        Group { about: "Tenths that are small where bits are cut off", vectors: cut_off() },
    ]
}

fn small() -> Vec<Vector> {
    let floats = [
        ("zero", 0.0),
        ("minus-zero", -0.0),
        ("smallest-denormal", f32::from_bits(1)),
        ("largest-denormal", f32::MIN_POSITIVE.next_down()),
        ("smallest-normal", f32::MIN_POSITIVE),
        ("no-tenth-0.01", 0.01),
        ("no-tenth-0.04", 0.04),
    ];
    floats.into_iter().flat_map(|(name, float)| as_each(name, float)).collect()
}

/// Whole tenths, as near as floats come to them.
fn first() -> Vec<Vector> {
    let tenths = (1..=20).chain([99, 100, 101, 200, 399, 400, 900, 901]);
    let further = [8_999, 9_000, 9_900, 9_901, 15_000, 15_005, 29_999, 30_000, 36_000, 36_001];
    by_turns(tenths.chain(further).map(|tenths| {
        let float = tenths as f32 / 10.0;
        (format!("tenths-{tenths}"), float)
    }))
}

fn coarse() -> Vec<Vector> {
    let floats = [
        2_097_151.875,
        2_097_152.0,
        2_097_152.25,
        4_194_303.5,
        4_194_304.0,
        4_194_304.5,
        4_194_305.0,
        8_388_606.5,
        8_388_607.0,
        8_388_607.5,
        8_388_608.0,
        8_388_609.0,
        8_388_610.0,
    ];
    by_turns(floats.map(|float: f32| (format!("coarse-{}", f64::from(float)), float)))
}

fn large() -> Vec<Vector> {
    let name = |float: f32| told(&format!("large-{float:?}"), float);
    let last = [9_999_998.0, 9_999_999.0, 10_000_000.0, f32::MAX];
    let mut vectors: Vec<Vector> =
        last.into_iter().flat_map(|float| as_each(&name(float), float)).collect();
    let further = [
        9_999_990.0,
        9_999_997.0,
        10_000_001.0,
        10_000_002.0,
        12_345_678.0,
        16_777_215.0,
        16_777_216.0,
        16_777_218.0,
        99_999_992.0,
        100_000_000.0,
        429_496_704.0,
        f32::MAX.next_down(),
    ];
    vectors.extend(by_turns(further.map(|float| (name(float), float))));
    vectors
}

/// Tenths past 8, 15 and 16 bits are given; such as 32 bits or 64 cut to few are refused.
fn cut_off() -> Vec<Vector> {
    let given =
        [12.7, 12.8, 25.5, 25.6, 25.7, 3_276.7, 3_276.8, 6_553.5, 6_553.6, 6_553.7, 1_677_721.6];
    let refused = [
        // Ten times it is little more than 2^32 or 2^33, or 0 in 32 bits.
        429_496_736.0,
        429_496_800.0,
        858_993_472.0,
        2_147_483_648.0,
        // 2^32, 2^63 and 2^64, ten times which is 0 in as many bits, and the floats above two of them.
        4_294_967_296.0,
        4_294_967_808.0,
        9.223_372e18,
        1.844_674_4e19,
        1.844_674_6e19,
    ];
    by_turns(
        given
            .into_iter()
            .chain(refused)
            .map(|float: f32| (told(&format!("bits-{float:?}"), float), float)),
    )
}
