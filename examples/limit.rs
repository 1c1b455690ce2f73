//! Prints the gross mass of the first car of the rules' sheet with the limit of its permitted error.
//! Ends with the refusal as its status where there is one.
//!
//! At the top of the repository:
//!
//!     bin/library
//!     rustc --edition 2021 -O -L target/staticlib -l static=rack examples/limit.rs -o limit
//!     ./limit

use std::process::ExitCode;

const TABLES: usize = 4;
const PLACES: usize = 1_600;
const PERMITTED: usize = 8;

extern "C" {
    fn rack_permitted_error(
        count: u32,
        types: *const u32,
        types_len: usize,
        rows: *const u32,
        rows_len: usize,
        levels: *const u32,
        levels_len: usize,
        capacities: *const u32,
        capacities_len: usize,
        car: *const u32,
        car_len: usize,
        errors: *const u32,
        errors_len: usize,
        figures: *mut u32,
        figures_len: usize,
    ) -> u32;
}

/// The numbers, and 0 in the other places.
fn places(numbers: &[u32]) -> [u32; PLACES] {
    let mut places = [0; PLACES];
    places[..numbers.len()].copy_from_slice(numbers);
    places
}

/// The six figures of a car on the rules' own table, the limit, and 1 where it is within; or the refusal.
fn permitted_error(car: &[u32; 14], errors: &[u32; 6]) -> Result<[u32; PERMITTED], u32> {
    let (types, rows) = ([1, 0, 0, 0], [4, 0, 0, 0]);
    let levels = places(&[0, 1_000, 2_000, 3_000]);
    let capacities = places(&[0, 20_000, 50_000, 70_000]);
    let mut figures = [0; PERMITTED];
    // SAFETY: each pointer is that of as many numbers as stand behind it, and `figures` is no other's.
    let number = unsafe {
        rack_permitted_error(
            1,
            types.as_ptr(),
            TABLES,
            rows.as_ptr(),
            TABLES,
            levels.as_ptr(),
            PLACES,
            capacities.as_ptr(),
            PLACES,
            car.as_ptr(),
            car.len(),
            errors.as_ptr(),
            errors.len(),
            figures.as_mut_ptr(),
            PERMITTED,
        )
    };
    match number {
        0 => Ok(figures),
        refusal => Err(refusal),
    }
}

fn main() -> ExitCode {
    let car = [50_000_001, 1, 3, 1, 2, 1_500, 1_500, 0, 0, 0, 600, 9_500, 50, 20];
    // capacity 0.50 %, density 0.16 %, processing 0.05 %, both temperatures 0.5 °C, level 3.0 mm
    let errors = [5_000, 1_600, 500, 5, 5, 30];
    match permitted_error(&car, &errors) {
        Ok([_, _, _, _, gross, _, limit, within]) => {
            let allowed = if gross < 100_000 { "0.65" } else { "0.50" };
            let within = if within == 1 { "within" } else { "not within" };
            println!("{gross} kg, {}.{:04} %, {within} {allowed} %", limit / 10_000, limit % 10_000);
            ExitCode::SUCCESS
        }
        Err(refusal) => {
            eprintln!("limit: refusal {refusal}");
            ExitCode::from(refusal as u8)
        }
    }
}
