//! The merge program: `merge_reference FIRST SECOND` writes the merged sheet of two to standard output.
//! Where the merge is refused it tells the refusal on standard error and ends with status 4.

use std::fs::File;
use std::io::{self, Read, Write};
use std::process::ExitCode;

use reference::sheet::Rejection;
use reference::{merge, SHEET_BYTES};

fn main() -> ExitCode {
    let arguments: Vec<String> = std::env::args().skip(1).collect();
    let [first, second] = arguments.as_slice() else {
        eprintln!("usage: merge_reference FIRST SECOND");
        return ExitCode::from(2);
    };
    match merge_files(first, second) {
        Ok(status) => status,
        Err(error) => {
            eprintln!("merge_reference: {error}");
            ExitCode::FAILURE
        }
    }
}

fn merge_files(first: &str, second: &str) -> io::Result<ExitCode> {
    match merge::of(&read(first)?, &read(second)?) {
        Ok(merged) => io::stdout().lock().write_all(&merged).map(|()| ExitCode::SUCCESS),
        Err(Rejection { line, refusal }) => {
            let line = if line > 0 { format!(", line {line}") } else { String::new() };
            eprintln!("merge_reference: refusal {}{line}", refusal.number());
            Ok(ExitCode::from(4))
        }
    }
}

/// A sheet, or one byte more than the longest, which tells one that is too long.
fn read(path: &str) -> io::Result<Vec<u8>> {
    let mut sheet = Vec::with_capacity(SHEET_BYTES + 1);
    File::open(path)?.take(SHEET_BYTES as u64 + 1).read_to_end(&mut sheet)?;
    Ok(sheet)
}
