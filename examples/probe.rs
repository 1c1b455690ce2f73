//! Prints the set of a portable probe in tenths, the masses of its car alone, and the totals of a train that
//! holds the first car of the rules' sheet and, behind it, the probe's. Ends with the refusal as its status
//! where there is one.
//!
//! At the top of the repository, with a level in mm, a temperature in °C and a density in kg/m³ at 15 °C:
//!
//!     bin/library
//!     rustc --edition 2021 -O -L target/staticlib -l static=rack examples/probe.rs -o probe
//!     ./probe 1500.35 60.15 950.15

use std::process::ExitCode;

/// Lengths of slices, as `include/rack.h` has them.
const FIELDS: usize = 14;
const PROBE_FIELDS: usize = 7;
const SET: usize = 3;
const TABLES: usize = 4;
const PLACES: usize = 1_600;
const FIGURES: usize = 6;
const TRAIN: usize = 266;

// A slice is handed over as its address and its length; `include/rack.h` says the rest.
#[rustfmt::skip]
extern "C" {
    fn rack_set_tenths(level: f32, temperature: f32, density: f32, tenths: *mut u32, tenths_len: usize) -> u32;
    fn rack_work_out_probe(
        count: u32, types: *const u32, types_len: usize, rows: *const u32, rows_len: usize,
        levels: *const u32, levels_len: usize, capacities: *const u32, capacities_len: usize,
        car: *const u32, car_len: usize, level: f32, temperature: f32, density: f32,
        figures: *mut u32, figures_len: usize,
    ) -> u32;
    fn rack_train_empty(train: *mut u32, train_len: usize) -> u32;
    fn rack_train_enter(
        train: *mut u32, train_len: usize, count: u32, types: *const u32, types_len: usize, rows: *const u32, rows_len: usize,
        levels: *const u32, levels_len: usize, capacities: *const u32, capacities_len: usize,
        car: *const u32, car_len: usize, figures: *mut u32, figures_len: usize,
    ) -> u32;
    fn rack_train_enter_probe(
        train: *mut u32, train_len: usize, count: u32, types: *const u32, types_len: usize, rows: *const u32, rows_len: usize,
        levels: *const u32, levels_len: usize, capacities: *const u32, capacities_len: usize,
        car: *const u32, car_len: usize, level: f32, temperature: f32, density: f32,
        figures: *mut u32, figures_len: usize,
    ) -> u32;
}

// SAFETY of every call below: each slice is valid for its length, and no other name reaches what is
// lent to be written.

/// Level in mm, temperature in °C, density in kg/m³ at 15 °C.
type Set = [f32; SET];

/// Tables by their types, how many rows they have, and the places of these.
struct Tables {
    types: [u32; TABLES],
    rows: [u32; TABLES],
    levels: [u32; PLACES],
    capacities: [u32; PLACES],
}

impl Tables {
    /// The rules' own table.
    fn new() -> Self {
        let (mut levels, mut capacities) = ([0; PLACES], [0; PLACES]);
        levels[..4].copy_from_slice(&[0, 1_000, 2_000, 3_000]);
        capacities[..4].copy_from_slice(&[0, 20_000, 50_000, 70_000]);
        Self { types: [1, 0, 0, 0], rows: [4, 0, 0, 0], levels, capacities }
    }

    /// The figures of a probe's car alone: number, level in 0.1 mm, V0, V15, gross and net.
    #[rustfmt::skip]
    fn work_out(&self, car: &[u32; PROBE_FIELDS], [level, temperature, density]: Set) -> Result<[u32; FIGURES], u32> {
        let mut figures = [0; FIGURES];
        check(unsafe {
            rack_work_out_probe(
                1, self.types.as_ptr(), TABLES, self.rows.as_ptr(), TABLES,
                self.levels.as_ptr(), PLACES, self.capacities.as_ptr(), PLACES,
                car.as_ptr(), PROBE_FIELDS, level, temperature, density, figures.as_mut_ptr(), FIGURES,
            )
        })?;
        Ok(figures)
    }

    #[rustfmt::skip]
    fn enter(&self, train: &mut [u32; TRAIN], car: &[u32; FIELDS]) -> Result<(), u32> {
        let mut figures = [0; FIGURES];
        check(unsafe {
            rack_train_enter(
                train.as_mut_ptr(), TRAIN, 1, self.types.as_ptr(), TABLES, self.rows.as_ptr(), TABLES,
                self.levels.as_ptr(), PLACES, self.capacities.as_ptr(), PLACES,
                car.as_ptr(), FIELDS, figures.as_mut_ptr(), FIGURES,
            )
        })
    }

    #[rustfmt::skip]
    fn enter_probe(&self, train: &mut [u32; TRAIN], car: &[u32; PROBE_FIELDS], [level, temperature, density]: Set) -> Result<(), u32> {
        let mut figures = [0; FIGURES];
        check(unsafe {
            rack_train_enter_probe(
                train.as_mut_ptr(), TRAIN, 1, self.types.as_ptr(), TABLES, self.rows.as_ptr(), TABLES,
                self.levels.as_ptr(), PLACES, self.capacities.as_ptr(), PLACES,
                car.as_ptr(), PROBE_FIELDS, level, temperature, density, figures.as_mut_ptr(), FIGURES,
            )
        })
    }
}

/// A number handed back: none, or the refusal.
fn check(number: u32) -> Result<(), u32> {
    match number {
        0 => Ok(()),
        refusal => Err(refusal),
    }
}

/// A set in tenths.
fn tenths_of([level, temperature, density]: Set) -> Result<[u32; SET], u32> {
    let mut tenths = [0; SET];
    check(unsafe { rack_set_tenths(level, temperature, density, tenths.as_mut_ptr(), SET) })?;
    Ok(tenths)
}

fn run(set: Set) -> Result<(), u32> {
    let dipped = [50_000_001, 1, 3, 1, 2, 1_500, 1_500, 0, 0, 0, 600, 9_500, 50, 20];
    // number, type, grade, stick, water level in mm, water and impurities in 0.01 %
    let car = [50_000_003, 1, 3, 2, 0, 50, 20];
    let tables = Tables::new();

    let [level, temperature, density] = tenths_of(set)?.map(|n| format!("{}.{}", n / 10, n % 10));
    println!("{level} mm, {temperature} C, {density} kg/m3");
    let [_, _, _, _, gross, net] = tables.work_out(&car, set)?;
    println!("{gross} kg gross, {net} kg net");

    let mut train = [0; TRAIN];
    check(unsafe { rack_train_empty(train.as_mut_ptr(), TRAIN) })?;
    tables.enter(&mut train, &dipped)?;
    tables.enter_probe(&mut train, &car, set)?;
    // no total needs its high half: none passes 12,000,000 kg
    println!("train: {} cars, {} kg gross, {} kg net", train[0], train[1], train[3]);
    Ok(())
}

fn main() -> ExitCode {
    let arguments: Vec<String> = std::env::args().skip(1).collect();
    let numbers: Vec<f32> = arguments.iter().flat_map(|argument| argument.parse()).collect();
    let ([_, _, _], &[level, temperature, density]) = (&arguments[..], &numbers[..]) else {
        eprintln!("probe: give a level in mm, a temperature in C and a density in kg/m3 at 15 C");
        return ExitCode::from(2);
    };
    match run([level, temperature, density]) {
        Ok(()) => ExitCode::SUCCESS,
        Err(refusal) => {
            eprintln!("probe: refusal {refusal}");
            ExitCode::from(refusal as u8)
        }
    }
}
