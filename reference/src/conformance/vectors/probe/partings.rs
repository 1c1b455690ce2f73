//! Floats that are answered otherwise by a program that takes the wrong way named.

use super::{by_turns, Group, Vector, SET};
use crate::probe::Set;

pub fn groups() -> Vec<Group<Vector>> {
    vec![
        Group { about: "How tenths are rounded", vectors: of_rounding() },
        Group { about: "What floating point of 32 bits misses", vectors: of_floating_point() },
        Group { about: "What decimal text misses", vectors: of_text() },
        Group { about: "How the bits are taken apart", vectors: of_bits() },
        Group { about: "What 31 turns away", vectors: of_31() },
        Group { about: "What 32 turns away", vectors: of_32() },
        Group { about: "Which fault of a set is given", vectors: of_sets() },
    ]
}

fn partings<const N: usize>(ways: [(&str, f32); N]) -> Vec<Vector> {
    by_turns(ways.map(|(way, float)| (format!("parting-{way}"), float)))
}

fn of_rounding() -> Vec<Vector> {
    partings([
        ("half-to-even", 0.25),
        ("half-to-even-large", 2_097_152.25),
        ("half-going-down", 0.75),
        ("half-going-down-large", 4_194_303.75),
        ("half-going-to-odd", 0.75),
        ("printf-with-one-decimal", 1.25),
        ("cut", 0.19),
        ("cut-just-past-a-half", 0.05),
        ("cut-just-short-of-a-tenth", 1_499.999_9),
        ("rounded-up", 0.11),
        ("rounded-up-from-hardly-anything", 1e-45),
        ("whole-numbers", 1.4),
        ("whole-numbers-cut", 1.9),
        ("whole-numbers-rounded-up", 1.1),
        ("hundredths-first", 0.046),
        ("hundredths-first-at-a-level", 1_500.046),
        ("thousandths-first", 0.0496),
        ("six-decimals-first", 0.049_999_997),
        ("in-hundredths", 0.5),
        ("not-times-ten", 15.0),
        ("tenths-cut-to-halves", 0.7),
    ])
}

fn of_floating_point() -> Vec<Vector> {
    partings([
        ("product-and-half-added", 0.35),
        ("product-and-half-added-at-a-density", 990.05),
        ("half-added-just-short-of-it", 0.049_999_997),
        ("half-added-to-an-odd-product", 838_860.9),
        ("product-rounded", 0.45),
        ("product-rounded-large", 3_355_443.25),
        ("product-rounded-of-the-largest", 9_999_999.0),
        ("product-half-to-even", 0.05),
        ("product-cut", 0.15),
        ("product-of-whole-and-rest", 0.849_999_96),
        ("product-of-whole-and-rest-past-1", 1.65),
        ("eightfold-and-twofold-added", 0.65),
        ("divided-by-a-tenth", 0.95),
        ("a-twentieth-added-first", 1.65),
        ("a-twentieth-added-first-at-a-level", 1_000.05),
        ("fused-product-and-half", 1.05),
    ])
}

fn of_text() -> Vec<Vector> {
    partings([
        ("shortest-text", 0.35),
        ("shortest-text-at-a-density", 990.05),
        ("shortest-text-at-a-level", 2_047.45),
        ("six-digits", 1_500.049_9),
        ("seven-digits", 0.349_999_96),
        ("eight-digits", 1.05),
        ("text-without-its-exponent", 1.5e-5),
    ])
}

fn of_bits() -> Vec<Vector> {
    partings([
        ("leading-bit-left-out", 1_500.0),
        ("exponent-one-too-high", 0.1),
        ("exponent-one-too-low", 0.6),
        ("last-bits-left-out", f32::from_bits(0x3d4c_cccd)),
        ("sixteen-bits-behind-the-point-cut", 0.05),
        ("sixteen-bits-behind-the-point-rounded", f32::from_bits(0x3d4c_c800)),
        ("bytes-turned-round", f32::from_bits(0x44bb_8000)),
        ("shift-by-32-taken-for-none", f32::from_bits(118 << 23)),
        ("shift-by-33-taken-for-1", f32::from_bits(117 << 23)),
        ("shift-by-64-taken-for-none", f32::from_bits(86 << 23)),
        ("shift-by-149-taken-for-21", f32::from_bits(0x7f_ffff)),
        ("tenths-in-8-bits", 25.6),
        ("tenths-in-15-bits", 3_276.8),
        ("tenths-in-16-bits", 6_553.6),
        ("significand-times-ten-in-24-bits", 1_677_721.6),
        ("tenths-in-floats", 1_677_721.875),
    ])
}

fn of_31() -> Vec<Vector> {
    partings([
        ("minus-zero-refused", -0.0),
        ("negative-rounded-to-zero", -0.01),
        ("negative-rounded-to-zero-at-0.04", -0.04),
        ("half-going-up-to-zero", -0.049_999_997),
        ("negative-denormal-taken-for-zero", -1e-45),
        ("sign-left-out", -1_500.0),
        ("negative-cut-to-zero", -0.09),
        ("negative-taken-for-0", -1_500.0),
        ("negative-in-32-bits-by-32", -1.0),
        ("infinity-by-32", f32::INFINITY),
        ("infinity-as-a-number", f32::INFINITY),
        ("minus-infinity-by-32", f32::NEG_INFINITY),
        ("not-a-number-taken-for-0", f32::NAN),
        ("not-a-number-by-32", f32::from_bits(0x7f80_0001)),
        ("not-a-number-with-sign-taken-for-0", f32::from_bits(0xffc0_0000)),
        ("only-one-not-a-number-known", f32::from_bits(0x7fc0_0001)),
        ("signalling-not-known", f32::from_bits(0x7fbf_ffff)),
        ("denormals-refused", 1e-45),
        ("zero-refused", 0.0),
        ("largest-by-31", f32::MAX),
    ])
}

fn of_32() -> Vec<Vector> {
    partings([
        ("limit-as-a-float", 10_000_000.0),
        ("limit-of-99999999-mm", 12_345_678.0),
        ("limit-of-99999999-mm-as-a-float", 99_999_992.0),
        ("limit-not-tested", 16_777_216.0),
        ("largest-refused", 9_999_999.0),
        ("limit-of-2-to-23", 8_388_609.0),
        ("limit-of-2-to-22", 4_194_304.5),
        ("limit-of-3600-mm", 3_600.1),
        ("limit-of-the-fields", 100.0),
        ("product-in-32-bits", 429_496_736.0),
        ("product-in-32-bits-far-above", 4_294_967_296.0),
        ("product-in-64-bits", 1.844_674_4e19),
        ("large-shift-by-32-taken-for-none", f32::from_bits(182 << 23)),
        ("large-shift-by-64-taken-for-none", f32::from_bits(214 << 23)),
        ("large-shift-pushes-all-bits-out", f32::from_bits(200 << 23)),
        ("too-large-cut-to-the-limit", 1e30),
        ("31-for-32", 20_000_000.0),
    ])
}

fn of_sets() -> Vec<Vector> {
    let (by_31, by_32) = (f32::NAN, 1e7);
    let ways = [
        ("any-31-before-32", Set { level: by_32, temperature: by_31, ..SET }),
        ("any-31-before-32-in-the-density", Set { temperature: by_32, density: by_31, ..SET }),
        ("any-31-before-32-from-end-to-end", Set { level: by_32, density: by_31, ..SET }),
        ("any-32-before-31", Set { level: by_31, temperature: by_32, ..SET }),
        ("temperature-first", Set { level: by_32, temperature: -1.0, ..SET }),
        ("density-first", Set { level: by_31, density: by_32, ..SET }),
        ("density-before-temperature", Set { temperature: by_31, density: by_32, ..SET }),
        ("last-fault-given", Set { level: by_31, temperature: by_31, density: by_32 }),
        ("level-alone-tested", Set { density: by_31, ..SET }),
        ("density-not-tested", Set { density: by_32, ..SET }),
        ("temperature-and-density-exchanged", SET),
        ("level-and-temperature-exchanged", Set { level: 60.0, temperature: 1_500.0, ..SET }),
        ("temperature-in-kelvin", Set { temperature: 0.0, ..SET }),
        ("density-at-20", Set { density: 958.4, ..SET }),
        ("refused-where-it-is-out-of-range", Set { temperature: 91.0, density: 999.9, ..SET }),
        ("level-0-refused-by-16", Set { level: 0.0, ..SET }),
    ];
    ways.into_iter().map(|(way, set)| Vector::set(format!("parting-{way}"), set)).collect()
}
