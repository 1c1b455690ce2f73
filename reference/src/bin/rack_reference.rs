//! The rack program: answers the sheet on standard input with a listing on standard output.

use std::io::{self, Read, Write};

use reference::{answer_sheet, ANSWER_BYTES, SHEET_BYTES};

fn main() -> io::Result<()> {
    // One byte more than the longest sheet tells a sheet that is too long.
    let mut sheet = Vec::with_capacity(SHEET_BYTES + 1);
    io::stdin().lock().take(SHEET_BYTES as u64 + 1).read_to_end(&mut sheet)?;

    let mut answer = [0; ANSWER_BYTES];
    let (length, _) = answer_sheet(&sheet, &mut answer);
    io::stdout().lock().write_all(&answer[..length])
}
