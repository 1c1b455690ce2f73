//! One line: a letter, fields of nine columns, a line feed.

use crate::field::{self, COLUMNS};
use crate::refusal::Refusal;

/// Bytes of a line with this many fields, letter and line feed included.
pub const fn length(fields: usize) -> usize {
    1 + fields * COLUMNS + 1
}

/// Reads the `N` fields of the line at the head of `rest`, whose letter is known to be right.
pub fn read<const N: usize>(rest: &[u8]) -> Result<[u32; N], Refusal> {
    read_sound(rest).ok_or_else(|| fault(rest, length(N)))
}

/// The fields, if the line is without fault.
fn read_sound<const N: usize>(rest: &[u8]) -> Option<[u32; N]> {
    let (&last, line) = rest.get(..length(N))?.split_last()?;
    if last != b'\n' {
        return None;
    }
    let (fields, _) = line[1..].as_chunks();
    let mut numbers = [0; N];
    for (number, field) in numbers.iter_mut().zip(fields) {
        *number = field::read(field)?;
    }
    Some(numbers)
}

/// What is wrong with a line that could not be read. It runs to the first line feed.
#[cold]
fn fault(rest: &[u8], length: usize) -> Refusal {
    match rest.iter().position(|&byte| byte == b'\n') {
        None => Refusal::LineMissing,
        Some(end) if end + 1 != length => Refusal::LineLength,
        Some(_) => Refusal::Field,
    }
}

/// Writes a line at the head of `buffer` and returns its length.
///
/// # Panics
///
/// If the buffer is shorter than the line.
pub fn write<const N: usize>(buffer: &mut [u8], letter: u8, numbers: [u32; N]) -> usize {
    let line = &mut buffer[..length(N)];
    line[0] = letter;
    let (fields, end) = line[1..].as_chunks_mut();
    for (field, number) in fields.iter_mut().zip(numbers) {
        field::write(field, number);
    }
    end[0] = b'\n';
    length(N)
}
