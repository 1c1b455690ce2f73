//! Buffers that are lent to programs, with a margin around them.

use outside::random::mix;

/// Bytes on both sides of a buffer, which no program may touch.
const MARGIN: usize = 64;

/// A buffer with its margins.
#[derive(Clone, PartialEq)]
pub struct Lent(Vec<u8>);

impl Lent {
    /// A buffer of so many bytes, which with its margins holds what is the seed's own.
    pub fn new(room: usize, seed: u64) -> Self {
        let mut bytes = vec![0; room + 2 * MARGIN];
        for (place, eight) in (0..).zip(bytes.chunks_mut(8)) {
            eight.copy_from_slice(&mix(seed ^ place << 32).to_le_bytes()[..eight.len()]);
        }
        Self(bytes)
    }

    fn room(&self) -> usize {
        self.0.len() - 2 * MARGIN
    }

    pub fn buffer(&mut self) -> &mut [u8] {
        let end = MARGIN + self.room();
        &mut self.0[MARGIN..end]
    }

    /// The first bytes of the buffer, as far as there are so many.
    pub fn start(&self, length: usize) -> &[u8] {
        &self.0[MARGIN..MARGIN + length.min(self.room())]
    }

    /// Tells of the first byte that differs, if one does.
    pub fn report_difference(&self, other: &Self) {
        let place = self.0.iter().zip(&other.0).position(|(one, other)| one != other);
        if let Some(place) = place {
            println!("first byte that differs: {} of the buffer", place as isize - MARGIN as isize);
        }
    }
}

/// A sheet to be shown, line by line.
pub fn lines(sheet: &[u8]) -> String {
    sheet.escape_ascii().to_string().replace("\\n", "\n")
}
