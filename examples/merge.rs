//! Makes one sheet of the sheets in two files, and prints it and behind it its listing: merge FIRST SECOND.
//! Ends with the refusal of the merge as its status, 0 where it has none, 100 for other trouble.
//!
//! At the top of the repository:
//!     bin/library
//!     rustc --edition 2021 -O -L target/staticlib -l static=rack examples/merge.rs -o merge
//!     ./merge examples/front.txt examples/rear.txt

use std::fs::File;
use std::io::{self, Read, Write};
use std::process::ExitCode;

/// Bytes of the longest sheet that is read.
const SHEET_BYTES: u64 = 48_111;

/// Bytes that an answer buffer must have, and one for a merged sheet.
const ANSWER_BYTES: usize = 8_101;
const MERGE_BYTES: usize = 39_771;

const TROUBLE: u8 = 100;

// A slice is handed over as its address and its length; `include/rack.h` says the rest.
#[rustfmt::skip]
extern "C" {
    fn rack_answer_sheet(text: *const u8, text_len: usize, out: *mut u8, out_len: usize, number: &mut u32) -> usize;
    fn rack_merge_sheets(
        first: *const u8, first_len: usize, second: *const u8, second_len: usize, out: *mut u8, out_len: usize,
        number: &mut u32, line: &mut u32,
    ) -> usize;
}

// SAFETY of both calls below: each slice is valid for its length, and no other name reaches what is lent to
// be written.

/// The merged sheet, or the refusal's number and its line.
fn merge_sheets(first: &[u8], second: &[u8]) -> Result<Vec<u8>, (u32, u32)> {
    let (mut out, mut number, mut line) = (vec![0; MERGE_BYTES], 0, 0);
    let length = unsafe {
        rack_merge_sheets(
            first.as_ptr(),
            first.len(),
            second.as_ptr(),
            second.len(),
            out.as_mut_ptr(),
            out.len(),
            &mut number,
            &mut line,
        )
    };
    out.truncate(length);
    if number == 0 {
        Ok(out)
    } else {
        Err((number, line))
    }
}

/// The listing of a sheet, which has one line where the sheet is refused.
fn answer_sheet(sheet: &[u8]) -> Vec<u8> {
    let (mut out, mut number) = (vec![0; ANSWER_BYTES], 0);
    let length = unsafe {
        rack_answer_sheet(sheet.as_ptr(), sheet.len(), out.as_mut_ptr(), out.len(), &mut number)
    };
    out.truncate(length);
    out
}

/// Reads a sheet, one byte more than the longest at most, so that a longer one is seen to be too long.
fn read_sheet(name: &str) -> io::Result<Vec<u8>> {
    let mut sheet = Vec::new();
    File::open(name)?.take(SHEET_BYTES + 1).read_to_end(&mut sheet)?;
    Ok(sheet)
}

fn run(first: &str, second: &str) -> io::Result<u8> {
    match merge_sheets(&read_sheet(first)?, &read_sheet(second)?) {
        Ok(merged) => {
            io::stdout().write_all(&merged)?;
            io::stdout().write_all(&answer_sheet(&merged))?;
            Ok(0)
        }
        Err((number, line)) => {
            eprintln!("merge: refusal {number}, line {line}");
            Ok(number as u8)
        }
    }
}

fn main() -> ExitCode {
    let names: Vec<String> = std::env::args().skip(1).collect();
    let [first, second] = &names[..] else {
        eprintln!("usage: merge FIRST SECOND");
        return ExitCode::from(TROUBLE);
    };
    match run(first, second) {
        Ok(number) => ExitCode::from(number),
        Err(error) => {
            eprintln!("merge: {error}");
            ExitCode::from(TROUBLE)
        }
    }
}
