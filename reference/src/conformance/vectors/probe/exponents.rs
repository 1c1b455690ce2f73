//! Every exponent, with the first significand, the last and a mixed one.

use super::{by_turns, told, Group, Vector};
use crate::probe::Set;

/// The last 23 bits: none, all, some.
const SIGNIFICANDS: [(&str, u32); 3] = [("first", 0), ("last", 0x7f_ffff), ("mixed", 0x2a_5a5b)];

/// Up to this exponent no tenth is left; 16 more would be needed for one.
const SMALL: u32 = 106;

/// From this exponent on, 2^26, all are too large; 255 is infinite or not a number.
const LARGE: u32 = 153;
const NOT_NUMBERS: u32 = 255;

pub fn groups() -> Vec<Group<Vector>> {
    vec![
        Group {
            about: "Small exponents in sets: the first, the last and a mixed float of each",
            vectors: (0..=SMALL).map(in_a_set).collect(),
        },
        Group {
            about: "Exponents around those that give tenths, with each significand",
            vectors: by_turns((SMALL + 1..LARGE).flat_map(with_each)),
        },
        Group {
            about: "32: large exponents, the first float of each and others of every eighth",
            vectors: by_turns((LARGE..NOT_NUMBERS).flat_map(large)),
        },
        Group {
            about: "31: every exponent with the sign, by turns with each significand",
            vectors: by_turns((0..=NOT_NUMBERS).map(negative)),
        },
    ]
}

/// A float with one of the significands; of exponent 0 the first is the smallest that is not zero.
fn of(exponent: u32, significand: usize) -> (String, f32) {
    let (name, last) = SIGNIFICANDS[significand];
    let last = if (exponent, last) == (0, 0) { 1 } else { last };
    (format!("exponent-{exponent}-{name}"), f32::from_bits((exponent << 23) | last))
}

fn in_a_set(exponent: u32) -> Vector {
    let [level, temperature, density] = [0, 1, 2].map(|significand| of(exponent, significand).1);
    Vector::set(format!("set-of-exponent-{exponent}"), Set { level, temperature, density })
}

fn with_each(exponent: u32) -> [(String, f32); 3] {
    [0, 1, 2].map(|significand| behind_refusal(of(exponent, significand)))
}

fn large(exponent: u32) -> Vec<(String, f32)> {
    let significands = if exponent % 8 == 0 { 0..3 } else { 0..1 };
    significands.map(|significand| behind_refusal(of(exponent, significand))).collect()
}

fn negative(exponent: u32) -> (String, f32) {
    let (name, float) = of(exponent, exponent as usize % 3);
    behind_refusal((format!("negative-{name}"), -float))
}

fn behind_refusal((name, float): (String, f32)) -> (String, f32) {
    (told(&name, float), float)
}
