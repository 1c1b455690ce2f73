//! Decimal halves of a tenth that are no floats: the floats on both sides of each, of which one is what the
//! decimal reads as.

use super::{by_turns, Group, Vector};

/// Halves at the bounds of levels, temperatures and densities and at powers of ten, in hundredths.
const FURTHER: [u32; 40] = [
    1_005,
    1_235,
    1_995,
    2_005,
    3_995,
    4_005,
    8_995,
    9_005,
    9_995,
    10_005,
    89_995,
    90_005,
    95_845,
    96_345,
    98_995,
    99_005,
    99_995,
    100_005,
    123_445,
    123_465,
    150_005,
    150_015,
    150_035,
    150_045,
    150_055,
    150_065,
    150_085,
    150_095,
    299_995,
    300_005,
    359_995,
    360_005,
    999_995,
    1_000_005,
    9_999_995,
    10_000_005,
    12_345_685,
    99_999_985,
    99_999_995,
    100_000_005,
];

pub fn groups() -> Vec<Group<Vector>> {
    let near = (5..1_000).step_by(10).filter(|hundredths| hundredths % 25 != 0);
    vec![
        Group {
            about: "Decimal halves below 10: the last float short of each and the first past it",
            vectors: around_all(near),
        },
        Group {
            about: "Decimal halves at bounds of the fields and at powers of ten",
            vectors: around_all(FURTHER),
        },
    ]
}

fn around_all(all: impl IntoIterator<Item = u32>) -> Vec<Vector> {
    by_turns(all.into_iter().flat_map(|hundredths| {
        let decimal = f64::from(hundredths) / 100.0;
        let [below, above] = around(hundredths);
        [(format!("short-of-{decimal}"), below), (format!("past-{decimal}"), above)]
    }))
}

/// The floats next below and above so many hundredths. Twenty times a float is a number of 64 bits
/// without loss.
pub fn around(hundredths: u32) -> [f32; 2] {
    let near = (f64::from(hundredths) / 100.0) as f32;
    if f64::from(near) * 20.0 < f64::from(hundredths / 5) {
        [near, near.next_up()]
    } else {
        [near.next_down(), near]
    }
}
