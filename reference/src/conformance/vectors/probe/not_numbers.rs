//! 31: infinities, what is not a number, and numbers below zero.

use super::{as_each, Group, Vector};

/// Quiet and signalling, with either sign and several payloads, by their bits.
const NOT_NUMBERS: [(&str, u32); 12] = [
    ("quiet", 0x7fc0_0000),
    ("quiet-with-sign", 0xffc0_0000),
    ("quiet-payload-1", 0x7fc0_0001),
    ("quiet-largest-payload", 0x7fff_ffff),
    ("quiet-all-bits", 0xffff_ffff),
    ("quiet-of-1500-mm", 0x7ffb_8000),
    ("signalling", 0x7f80_0001),
    ("signalling-with-sign", 0xff80_0001),
    ("signalling-largest-payload", 0x7fbf_ffff),
    ("signalling-largest-payload-with-sign", 0xffbf_ffff),
    ("signalling-mixed-payload", 0x7faa_5a5b),
    ("signalling-lowest-of-the-upper-half", 0x7fa0_0000),
];

pub fn groups() -> Vec<Group<Vector>> {
    vec![
        Group { about: "31: what is infinite", vectors: infinite() },
        Group { about: "31: what is not a number", vectors: not_numbers() },
        Group { about: "31: what is below zero", vectors: negative() },
    ]
}

fn infinite() -> Vec<Vector> {
    let floats = [("infinity", f32::INFINITY), ("minus-infinity", f32::NEG_INFINITY)];
    floats.into_iter().flat_map(refusal).collect()
}

fn not_numbers() -> Vec<Vector> {
    NOT_NUMBERS.into_iter().flat_map(|(name, bits)| refusal((name, f32::from_bits(bits)))).collect()
}

fn negative() -> Vec<Vector> {
    let floats = [
        ("minus-smallest-denormal", -f32::from_bits(1)),
        ("minus-largest-denormal", -f32::MIN_POSITIVE.next_down()),
        ("minus-smallest-normal", -f32::MIN_POSITIVE),
        ("minus-0.01", -0.01),
        ("minus-0.05", -0.05),
        ("minus-0.25", -0.25),
        ("minus-1", -1.0),
        ("minus-1500", -1500.0),
        ("minus-9999999", -9_999_999.0),
        ("minus-10000000", -10_000_000.0),
        ("minus-largest", f32::MIN),
    ];
    floats.into_iter().flat_map(refusal).collect()
}

fn refusal((name, float): (&str, f32)) -> [Vector; 3] {
    as_each(&format!("refusal-31-{name}"), float)
}
