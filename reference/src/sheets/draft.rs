//! A sheet before it is written as bytes, and how large it is to be.

use std::io::Write;

use super::random::Random;
use super::tables::{self, Table};
use crate::car;
use crate::sheet::{Event, CAR_LINES, STRIKE_LINES};
use crate::table::{ROWS, TABLES};
use crate::train::CARS;

/// How many tables, rows of a table, cars and strikes a draft is to have.
#[derive(Clone, Copy)]
pub struct Size {
    pub tables: usize,
    pub rows: Option<usize>,
    pub cars: usize,
    pub strikes: usize,
}

/// The largest tables and as many cars as a train holds.
pub const FULL: Size = Size { tables: TABLES, rows: Some(ROWS), cars: CARS, strikes: 0 };

/// The largest sheet.
pub const FULLEST: Size = Size { cars: CAR_LINES, strikes: STRIKE_LINES, ..FULL };

impl Size {
    /// Mostly small, now and then large, a third with strikes; each table has a number of rows of its
    /// own.
    pub fn draw(random: &mut Random) -> Self {
        let cars = match random.below(12) {
            0 => 0,
            1..=4 => random.between(1, 5) as usize,
            5..=10 => random.between(6, CARS as u32) as usize,
            _ => CARS,
        };
        let tables = random.between(1, TABLES as u32) as usize;
        let size = Self { tables, rows: None, cars, strikes: 0 };
        if random.one_in(3) {
            size.with_strikes(random)
        } else {
            size
        }
    }

    /// Mostly a few strikes, and at times more cars than a train holds.
    fn with_strikes(self, random: &mut Random) -> Self {
        let strikes = match random.below(8) {
            0..=3 => random.between(1, 5) as usize,
            4..=6 => random.between(6, STRIKE_LINES as u32) as usize,
            _ => STRIKE_LINES,
        };
        let cars = match random.below(8) {
            0..=5 => self.cars,
            6 => random.between(CARS as u32 + 1, CAR_LINES as u32) as usize,
            _ => CAR_LINES,
        };
        Self { cars, strikes, ..self }
    }
}

#[derive(Clone)]
pub struct Draft {
    pub tables: Vec<Table>,
    /// The lines behind the tables.
    pub events: Vec<Event>,
    /// The number on the last line, if it is not to be the number of cars.
    pub end: Option<u32>,
}

impl Draft {
    /// Sound tables, and no cars or strikes yet.
    pub fn draw_tables(random: &mut Random, size: Size) -> Self {
        let mut drawn: Vec<Table> = Vec::with_capacity(size.tables);
        while drawn.len() < size.tables {
            let car_type = match random.below(4) {
                0 => random.pick(&[1, 2, 9_998, 9_999]),
                1 => random.between(1, 9_999),
                _ => random.between(1, 99),
            };
            if drawn.iter().all(|table| table.car_type != car_type) {
                let rows = size.rows.unwrap_or_else(|| tables::draw_row_count(random));
                drawn.push(tables::draw(random, car_type, rows));
            }
        }
        Self { tables: drawn, events: Vec::new(), end: None }
    }

    /// The bytes of the sheet.
    pub fn write(&self) -> Vec<u8> {
        let mut sheet = Vec::new();
        for table in &self.tables {
            write_line(&mut sheet, 'T', &[table.car_type, table.announced]);
            for row in &table.rows {
                write_line(&mut sheet, 'R', &[row.level, row.capacity]);
            }
        }
        for event in &self.events {
            match event {
                Event::Enter(car) => {
                    write_line(&mut sheet, 'C', &<[u32; car::FIELDS]>::from(*car));
                }
                Event::Strike(number) => write_line(&mut sheet, 'K', &[*number]),
            }
        }
        write_line(&mut sheet, 'E', &[self.end.unwrap_or(self.cars() as u32)]);
        sheet
    }

    /// How many C lines there are.
    pub fn cars(&self) -> usize {
        self.events.iter().filter(|event| matches!(event, Event::Enter(_))).count()
    }
}

fn write_line(sheet: &mut Vec<u8>, letter: char, numbers: &[u32]) {
    let written = write!(sheet, "{letter}");
    let written = numbers
        .iter()
        .fold(written, |written, number| written.and_then(|()| write!(sheet, "{number:>9}")));
    written.and_then(|()| writeln!(sheet)).expect("writing to memory does not fail");
}
