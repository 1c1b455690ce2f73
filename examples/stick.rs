//! Prints how far a stick level of 1500.4 mm lies from the mean of sixteen tape readings, and whether it passes.
//! Ends with the refusal as its status where there is one.
//!
//! At the top of the repository:
//!
//!     bin/library
//!     rustc --edition 2021 -O -L target/staticlib -l static=rack examples/stick.rs -o stick
//!     ./stick

use std::process::ExitCode;

const TAPE_READINGS: usize = 20;
const STICK: usize = 4;

extern "C" {
    fn rack_stick_against_tape(
        stick: u64,
        count: u32,
        readings: *const u32,
        readings_len: usize,
        figures: *mut u32,
        figures_len: usize,
    ) -> u32;
}

/// The sign, size, pass and allowance of a stick level, in 0.1 mm, against as many readings, in mm; or the
/// refusal.
fn stick_against_tape(stick: u64, given: &[u32]) -> Result<[u32; STICK], u32> {
    let mut readings = [0; TAPE_READINGS];
    readings[..given.len()].copy_from_slice(given);
    let mut figures = [0; STICK];
    // SAFETY: each pointer is that of as many numbers as stand behind it, and `figures` is no other's.
    let number = unsafe {
        rack_stick_against_tape(
            stick,
            given.len() as u32,
            readings.as_ptr(),
            TAPE_READINGS,
            figures.as_mut_ptr(),
            STICK,
        )
    };
    match number {
        0 => Ok(figures),
        refusal => Err(refusal),
    }
}

fn main() -> ExitCode {
    let mut readings = [1_500; 16];
    readings[10..].fill(1_501);
    match stick_against_tape(15_004, &readings) {
        Ok([sign, size, passes, allowance]) => {
            let sign = if sign == 1 { "-" } else { "" };
            let passes = if passes == 1 { "passes" } else { "does not pass" };
            let mm = |hundredths: u32| format!("{}.{:02} mm", hundredths / 100, hundredths % 100);
            println!("{sign}{}, {passes}; tape allowance {}", mm(size), mm(allowance));
            ExitCode::SUCCESS
        }
        Err(refusal) => {
            eprintln!("stick: refusal {refusal}");
            ExitCode::from(refusal as u8)
        }
    }
}
