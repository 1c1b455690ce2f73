//! Pairs of sheets with buffers of every size: what a merge hands back, and refusal 1.

mod text;

use std::sync::OnceLock;

use super::super::merges::{pairs, Pair};
use super::Group;
use crate::merge::{merge, Merge, MERGED_BYTES};

/// A pair of the kit by its name, the bytes of the buffer that is lent for it, and a name that says what
/// they try.
#[derive(Clone, Debug, PartialEq)]
pub struct Vector {
    pub name: String,
    pub pair: String,
    pub buffer: usize,
}

/// What the bytes of a buffer are before a merge.
pub const LENT: u8 = 0xa5;

impl Vector {
    fn new(name: String, pair: &str, buffer: usize) -> Self {
        Self { name, pair: format!("merge-{pair}"), buffer }
    }

    /// The two sheets.
    ///
    /// # Panics
    ///
    /// If the kit has no such pair.
    pub fn sheets(&self) -> &'static Pair {
        static PAIRS: OnceLock<Vec<Pair>> = OnceLock::new();
        let all = PAIRS.get_or_init(pairs);
        all.iter().find(|pair| pair.name == self.pair).unwrap_or_else(|| panic!("no {}", self.pair))
    }

    /// What this package hands back, and the buffer.
    pub fn work_out(&self) -> (Merge, Vec<u8>) {
        let Pair { first, second, .. } = self.sheets();
        let mut buffer = vec![LENT; self.buffer];
        let handed_back = merge(first, second, &mut buffer);
        (handed_back, buffer)
    }
}

/// Pairs that are merged, with the length of the merged sheet.
const MERGED: [(&str, usize); 4] = [
    ("tables-smallest-sheets", 71),
    ("paper-sheet-and-another-car", 495),
    ("size-sixty-cars-and-none", 7_771),
    ("longest-merged-sheet-39771-bytes", MERGED_BYTES),
];

/// Pairs that are refused, with the refusal in two digits.
const REFUSED: [(&str, &str); 12] = [
    ("02", "refusal-02-too-long-of-the-first"),
    ("02", "refusal-02-too-long-of-the-second"),
    ("03", "refusal-03-empty-of-the-first"),
    ("03", "refusal-03-empty-of-the-second"),
    ("09", "refusal-09-the-count-of-cars-of-the-first"),
    ("09", "refusal-09-the-count-of-cars-of-the-second"),
    ("33", "refusal-33-capacity-of-the-last-row"),
    ("33", "refusal-33-unknown-type-on-the-first"),
    ("34", "refusal-34-accepted-on-both"),
    ("35", "refusal-35-four-types-and-one"),
    ("35", "refusal-35-sixty-cars-and-one"),
    ("33", "order-33-before-34-and-35"),
];

fn groups() -> Vec<Group<Vector>> {
    vec![
        Group { about: "Every pair with the smallest buffer", vectors: least() },
        Group {
            about: "1: buffers that are too short for sheets that would be merged",
            vectors: short(),
        },
        Group { about: "1 before every other refusal", vectors: first() },
        Group {
            about: "Longer buffers, whose bytes past the merged sheet stay",
            vectors: longer(),
        },
    ]
}

fn least() -> Vec<Vector> {
    let of = |pair: Pair| Vector {
        name: format!("least-{}", pair.name.trim_start_matches("merge-")),
        pair: pair.name,
        buffer: MERGED_BYTES,
    };
    pairs().into_iter().map(of).collect()
}

fn short() -> Vec<Vector> {
    let of = |(pair, length): (&str, usize)| {
        let mut buffers = vec![0, 1, length - 1, length, length + 1, 8_101, MERGED_BYTES - 1];
        buffers.retain(|&buffer| buffer < MERGED_BYTES);
        buffers.sort_unstable();
        buffers.dedup();
        let named = |buffer| Vector::new(format!("refusal-01-{pair}-in-{buffer}"), pair, buffer);
        buffers.into_iter().map(named).collect::<Vec<_>>()
    };
    MERGED.into_iter().flat_map(of).collect()
}

fn first() -> Vec<Vector> {
    let of = |(number, pair): (&str, &str)| {
        let buffers = [0, 39, MERGED_BYTES - 1];
        buffers.map(|buffer| {
            let name = format!("order-01-before-{number}-{pair}-in-{buffer}");
            Vector::new(name, pair, buffer)
        })
    };
    REFUSED.into_iter().flat_map(of).collect()
}

fn longer() -> Vec<Vector> {
    // In 16 bits the last two are 0 and one too few.
    let buffers = [MERGED_BYTES + 1, 48_111, 1 << 16, (1 << 16) + MERGED_BYTES - 1];
    let of = |pair: &'static str| {
        buffers.map(|buffer| Vector::new(format!("longer-{pair}-in-{buffer}"), pair, buffer))
    };
    let merged = MERGED.into_iter().map(|(pair, _)| pair);
    merged.chain(REFUSED.into_iter().map(|(_, pair)| pair)).flat_map(of).collect()
}
