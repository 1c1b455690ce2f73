//! Two sheets and a buffer for the merged one, as the reference and its rewritten copy answer them.

use reference::conformance::vectors::merge::{Vector, LENT};
use reference::merge::MERGED_BYTES;

use crate::turned;

/// Two sheets, and the bytes that are lent for the merged one.
pub struct Asked {
    pub name: String,
    first: Vec<u8>,
    second: Vec<u8>,
    buffer: usize,
}

/// What a caller sees: length, number and line, and the whole buffer.
macro_rules! seen {
    ($merge:path, $asked:expr) => {{
        let mut out = vec![LENT; $asked.buffer];
        let handed_back = $merge(&$asked.first, &$asked.second, &mut out);
        let numbers = [handed_back.length as u32, handed_back.number, handed_back.line];
        out.extend(numbers.into_iter().flat_map(u32::to_ne_bytes));
        out
    }};
}

impl Asked {
    pub fn right(&self) -> Vec<u8> {
        seen!(reference::merge::merge, self)
    }

    pub fn turned(&self) -> Vec<u8> {
        seen!(turned::merge::merge, self)
    }
}

/// The pairs of the kit, each with the smallest buffer and some with others.
pub fn of_vectors() -> Vec<Asked> {
    let of = |vector: Vector| {
        let pair = vector.sheets();
        let (first, second) = (pair.first.clone(), pair.second.clone());
        Asked { name: vector.name, first, second, buffer: vector.buffer }
    };
    reference::conformance::vectors::all::<Vector>().into_iter().map(of).collect()
}

/// Generated pairs, one in ten with a buffer that is too short and two in ten with a longer one, of which
/// one is too short in 16 bits.
pub fn drawn(count: u64) -> impl Iterator<Item = Asked> {
    (0..count).map(|seed| {
        let (first, second) = reference::sheets::pair(seed);
        let buffer = match seed % 10 {
            0 => MERGED_BYTES - 1,
            1 => MERGED_BYTES + 1,
            2 => (1 << 16) + MERGED_BYTES - 1,
            _ => MERGED_BYTES,
        };
        Asked { name: format!("pair {seed}"), first, second, buffer }
    })
}
