//! Enters the cars of a sheet in a train and strikes them from it, each as its line comes, and prints a
//! line for each, the totals and those of each grade: train [FILE]. Ends with the refusal of the first
//! line that cannot be read as its status, 100 for other trouble.
//!
//! At the top of the repository:
//!     bin/library
//!     rustc --edition 2021 -O -L target/staticlib -l static=rack examples/train.rs -o train
//!     ./train examples/strikes.txt

use std::fs::File;
use std::io::{self, Read, Write};
use std::process::ExitCode;

/// Lengths of slices, as `include/rack.h` has them.
const FIELDS: usize = 14;
const TABLES: usize = 4;
const PLACES: usize = 1_600;
const FIGURES: usize = 6;
const TRAIN: usize = 266;
const ROWS: usize = PLACES / TABLES;

const TROUBLE: u32 = 100;

// A slice is handed over as its address and its length; `include/rack.h` says the rest.
#[rustfmt::skip]
extern "C" {
    fn rack_read_line(text: *const u8, text_len: usize, letter: &mut u8, numbers: *mut u32, numbers_len: usize) -> u32;
    fn rack_write_line(letter: u8, numbers: *const u32, numbers_len: usize, out: *mut u8, out_len: usize, length: &mut usize) -> u32;
    fn rack_train_empty(train: *mut u32, train_len: usize) -> u32;
    fn rack_train_enter(
        train: *mut u32, train_len: usize, count: u32, types: *const u32, types_len: usize, rows: *const u32, rows_len: usize,
        levels: *const u32, levels_len: usize, capacities: *const u32, capacities_len: usize,
        car: *const u32, car_len: usize, figures: *mut u32, figures_len: usize,
    ) -> u32;
    fn rack_train_strike(train: *mut u32, train_len: usize, number: u32) -> u32;
}

// SAFETY of every call below: each slice is valid for its length, and no other name reaches what is
// lent to be written.

/// The tables read so far, how many rows of the last, and the train.
struct Rack {
    tables: usize,
    row: usize,
    types: [u32; TABLES],
    rows: [u32; TABLES],
    levels: [u32; PLACES],
    capacities: [u32; PLACES],
    train: [u32; TRAIN],
}

impl Rack {
    fn new() -> Self {
        let mut train = [0; TRAIN];
        unsafe { rack_train_empty(train.as_mut_ptr(), TRAIN) };
        let (levels, capacities) = ([0; PLACES], [0; PLACES]);
        Self { tables: 0, row: 0, types: [0; TABLES], rows: [0; TABLES], levels, capacities, train }
    }

    /// Takes a line in; whether it had a place.
    fn take(&mut self, letter: u8, numbers: &[u32; FIELDS]) -> io::Result<bool> {
        match letter {
            b'T' if self.tables < TABLES => {
                self.types[self.tables] = numbers[0];
                self.rows[self.tables] = numbers[1];
                self.tables += 1;
                self.row = 0;
            }
            b'R' if self.tables > 0 && self.row < ROWS => {
                let place = ROWS * (self.tables - 1) + self.row;
                self.levels[place] = numbers[0];
                self.capacities[place] = numbers[1];
                self.row += 1;
            }
            b'C' => self.enter(numbers)?,
            b'K' => self.strike(numbers[0])?,
            _ => return Ok(false),
        }
        Ok(true)
    }

    fn enter(&mut self, car: &[u32; FIELDS]) -> io::Result<()> {
        let mut answer = [0; FIELDS];
        let number = unsafe {
            rack_train_enter(
                self.train.as_mut_ptr(),
                TRAIN,
                self.tables as u32,
                self.types.as_ptr(),
                TABLES,
                self.rows.as_ptr(),
                TABLES,
                self.levels.as_ptr(),
                PLACES,
                self.capacities.as_ptr(),
                PLACES,
                car.as_ptr(),
                FIELDS,
                answer.as_mut_ptr(),
                FIGURES,
            )
        };
        if number == 0 {
            return print(b'A', &answer);
        }
        (answer[0], answer[1]) = (car[0], number);
        print(b'X', &answer)
    }

    /// Takes the car of a number out of the train, if it is held; its place and number may be used again.
    fn strike(&mut self, car_number: u32) -> io::Result<()> {
        let number = unsafe { rack_train_strike(self.train.as_mut_ptr(), TRAIN, car_number) };
        let mut answer = [0; FIELDS];
        (answer[0], answer[1]) = (car_number, number);
        print(if number == 0 { b'K' } else { b'X' }, &answer)
    }

    /// Accepted cars, gross and net of a grade, 1 to 4, or of all by 0. No mass needs its high half:
    /// none passes 12,000,000 kg.
    fn totals(&self, grade: usize) -> [u32; 3] {
        let places = &self.train[5 * grade..];
        [places[0], places[1], places[3]]
    }

    /// Prints the S line and the four G lines.
    fn print_totals(&self) -> io::Result<()> {
        let mut line = [0; FIELDS];
        line[..3].copy_from_slice(&self.totals(0));
        print(b'S', &line)?;
        for grade in 1..=4 {
            line[0] = grade as u32;
            line[1..4].copy_from_slice(&self.totals(grade));
            print(b'G', &line)?;
        }
        Ok(())
    }
}

/// Prints a line of the letter, of which each number is small enough.
fn print(letter: u8, numbers: &[u32; FIELDS]) -> io::Result<()> {
    let (mut line, mut length) = ([0; 128], 0);
    unsafe {
        rack_write_line(
            letter,
            numbers.as_ptr(),
            FIELDS,
            line.as_mut_ptr(),
            line.len(),
            &mut length,
        );
    }
    io::stdout().write_all(&line[..length])
}

fn run() -> io::Result<u32> {
    let mut sheet = Vec::new();
    match std::env::args_os().nth(1) {
        Some(path) => File::open(path)?.read_to_end(&mut sheet)?,
        None => io::stdin().read_to_end(&mut sheet)?,
    };
    let mut rack = Rack::new();
    let mut rest = &sheet[..];
    loop {
        let (mut letter, mut numbers) = (0, [0; FIELDS]);
        let number = unsafe {
            rack_read_line(rest.as_ptr(), rest.len(), &mut letter, numbers.as_mut_ptr(), FIELDS)
        };
        if number != 0 {
            return Ok(number);
        }
        if letter == b'E' {
            break;
        }
        if !rack.take(letter, &numbers)? {
            return Ok(TROUBLE);
        }
        let end = rest.iter().position(|&byte| byte == b'\n').expect("the line that was read");
        rest = &rest[end + 1..];
    }
    rack.print_totals()?;
    Ok(0)
}

fn main() -> ExitCode {
    match run() {
        Ok(number) => ExitCode::from(number as u8),
        Err(error) => {
            eprintln!("train: {error}");
            ExitCode::from(TROUBLE as u8)
        }
    }
}
