//! Answers the sheet in a file or on standard input: answer [FILE].
//! Ends with the sheet's refusal number as its status, 0 where it has none, 100 for other trouble.
//!
//! At the top of the repository:
//!     bin/library
//!     rustc --edition 2021 -O -L target/staticlib -l static=rack examples/answer.rs -o answer
//!     ./answer crates/rack/stdin

use std::fs::File;
use std::io::{self, Read, Write};
use std::process::ExitCode;

/// Bytes of the longest sheet that is read.
const SHEET_BYTES: u64 = 48_111;

/// Bytes that an answer buffer must have.
const ANSWER_BYTES: usize = 8_101;

const TROUBLE: u8 = 100;

extern "C" {
    /// A slice is handed over as its address and its length; `include/rack.h` says the rest.
    fn rack_answer_sheet(
        text: *const u8,
        text_len: usize,
        out: *mut u8,
        out_len: usize,
        number: *mut u32,
    ) -> usize;
}

/// The length of the listing in `answer`, and the refusal number of the sheet or 0.
fn answer_sheet(sheet: &[u8], answer: &mut [u8]) -> (usize, u32) {
    let mut number = 0;
    // SAFETY: both slices are valid for their lengths, and nothing else refers to `answer` or
    // `number` during the call.
    let length = unsafe {
        rack_answer_sheet(
            sheet.as_ptr(),
            sheet.len(),
            answer.as_mut_ptr(),
            answer.len(),
            &mut number,
        )
    };
    (length, number)
}

fn run() -> io::Result<u8> {
    let input: Box<dyn Read> = match std::env::args_os().nth(1) {
        Some(path) => Box::new(File::open(path)?),
        None => Box::new(io::stdin()),
    };
    // One byte more than the longest sheet, so that a longer one is seen to be too long.
    let mut sheet = Vec::new();
    input.take(SHEET_BYTES + 1).read_to_end(&mut sheet)?;

    let mut answer = [0; ANSWER_BYTES];
    let (length, number) = answer_sheet(&sheet, &mut answer);
    io::stdout().write_all(&answer[..length])?;
    Ok(number as u8)
}

fn main() -> ExitCode {
    match run() {
        Ok(number) => ExitCode::from(number),
        Err(error) => {
            eprintln!("answer: {error}");
            ExitCode::from(TROUBLE)
        }
    }
}
