//! Levels that are answered: those of the rack card and the one a tenth past its first, and the ends and the
//! middle of every metre.

use super::{Group, Vector};

/// The levels of each metre, in 0.1 mm, from the first on: its first two, one a millimetre from them, two
/// in the middle, its last two.
const LEVELS: [[u64; 7]; 4] = [
    [10, 11, 20, 5_000, 5_005, 9_999, 10_000],
    [10_001, 10_002, 10_010, 15_000, 15_005, 19_999, 20_000],
    [20_001, 20_002, 20_010, 25_000, 25_005, 29_999, 30_000],
    [30_001, 30_002, 30_010, 33_000, 33_005, 35_999, 36_000],
];

pub fn groups() -> Vec<Group<Vector>> {
    let card = [10_000, 10_001, 10_010].map(|level| Vector::new(format!("card-{level}"), level));
    let of_metre = |(metre, levels): (u32, [u64; 7])| {
        levels.map(|level| Vector::new(format!("metre-{metre}-level-{level}"), level))
    };
    vec![
        Group {
            about: "The levels of the rack card, and the one a tenth past its first",
            vectors: card.to_vec(),
        },
        Group {
            about: "The first levels of every metre, two in its middle, and its last two",
            vectors: (1..).zip(LEVELS).flat_map(of_metre).collect(),
        },
    ]
}
