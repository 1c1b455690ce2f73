//! Prints the density at 15 °C of oil whose density a laboratory reports at its own temperature.
//! Ends with the refusal as its status where there is one.
//!
//! At the top of the repository, with a density in 0.1 kg/m³ and a temperature in 0.1 °C:
//!
//!     bin/library
//!     rustc --edition 2021 -O -L target/staticlib -l static=rack examples/density.rs -o density
//!     ./density 9300 500

use std::process::ExitCode;

extern "C" {
    fn rack_density_at_15(reported: u32, temperature: u32, density: *mut u32) -> u32;
}

/// The density at 15 °C in 0.1 kg/m³, or the refusal.
fn density_at_15(reported: u32, temperature: u32) -> Result<u32, u32> {
    let mut density = 0;
    // SAFETY: the pointer is that of one number, which is no other's.
    match unsafe { rack_density_at_15(reported, temperature, &mut density) } {
        0 => Ok(density),
        refusal => Err(refusal),
    }
}

fn main() -> ExitCode {
    let arguments: Vec<String> = std::env::args().skip(1).collect();
    let numbers: Vec<u32> = arguments.iter().flat_map(|argument| argument.parse()).collect();
    let ([_, _], &[reported, temperature]) = (&arguments[..], &numbers[..]) else {
        eprintln!("density: give the density reported and its temperature, both in tenths");
        return ExitCode::from(2);
    };
    match density_at_15(reported, temperature) {
        Ok(density) => {
            println!("{}.{} kg/m3 at 15 C", density / 10, density % 10);
            ExitCode::SUCCESS
        }
        Err(refusal) => {
            eprintln!("density: refusal {refusal}");
            ExitCode::from(refusal as u8)
        }
    }
}
