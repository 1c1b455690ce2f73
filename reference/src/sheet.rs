//! Reading a whole sheet: its tables, its cars and strikes, and the refusals 2 to 9.

use crate::car::{self, Car};
use crate::line;
use crate::refusal::Refusal;
use crate::table::{Row, Tables, ROWS, TABLES};

/// C lines of a sheet, at most.
pub const CAR_LINES: usize = 120;
/// K lines of a sheet, at most.
pub const STRIKE_LINES: usize = 60;

/// Bytes of a sheet, at most: four tables of 400 rows, the lines of cars and strikes and the last
/// line.
pub const SHEET_BYTES: usize = TABLES * (1 + ROWS) * line::length(2)
    + CAR_LINES * line::length(car::FIELDS)
    + STRIKE_LINES * line::length(1)
    + line::length(1);

const _: () = assert!(SHEET_BYTES == 48_111);

/// A refused sheet: the line at fault, counted from 1, or 0 for the sheet as a whole.
#[derive(Clone, Copy, Debug, PartialEq, Eq)]
pub struct Rejection {
    pub line: u32,
    pub refusal: Refusal,
}

/// What a line behind the tables asks of the train.
#[derive(Clone, Copy, Debug, PartialEq, Eq)]
pub enum Event {
    /// A C line: a car is to be entered.
    Enter(Car),
    /// A K line: the car with this number is to be struck.
    Strike(u32),
}

/// What stands on a sheet.
pub struct Sheet {
    pub tables: Tables,
    events: Vec<Event>,
    /// How many of the events are cars.
    cars: usize,
}

impl Sheet {
    /// Reads a sheet in one pass.
    pub fn read(bytes: &[u8]) -> Result<Self, Rejection> {
        if bytes.len() > SHEET_BYTES {
            return Err(Rejection { line: 0, refusal: Refusal::SheetLength });
        }
        let events = Vec::with_capacity(CAR_LINES + STRIKE_LINES);
        let mut sheet = Self { tables: Tables::new(), events, cars: 0 };
        let mut lines = Lines { rest: bytes, number: 0 };
        let mut may_come: &[u8] = b"T";
        loop {
            match lines.letter(may_come)? {
                b'T' => {
                    sheet.read_table(&mut lines)?;
                    may_come = b"TCKE";
                }
                b'C' => {
                    sheet.read_car(&mut lines)?;
                    may_come = b"CKE";
                }
                b'K' => {
                    sheet.read_strike(&mut lines)?;
                    may_come = b"CKE";
                }
                _ => {
                    sheet.read_end(&mut lines)?;
                    return Ok(sheet);
                }
            }
        }
    }

    /// The cars and strikes, in the order of the sheet.
    pub fn events(&self) -> &[Event] {
        &self.events
    }

    /// The cars alone, in the order of the sheet.
    pub fn cars(&self) -> impl Iterator<Item = &Car> {
        self.events.iter().filter_map(|event| match event {
            Event::Enter(car) => Some(car),
            Event::Strike(_) => None,
        })
    }

    fn read_table(&mut self, lines: &mut Lines) -> Result<(), Rejection> {
        let [car_type, rows] = lines.fields()?;
        self.tables.begin(car_type, rows).map_err(|refusal| lines.reject(refusal))?;
        for _ in 0..rows {
            lines.letter(b"R")?;
            let [level, capacity] = lines.fields()?;
            let row = Row { level, capacity };
            self.tables.add(row).map_err(|refusal| lines.reject(refusal))?;
        }
        Ok(())
    }

    fn read_car(&mut self, lines: &mut Lines) -> Result<(), Rejection> {
        let fields: [u32; car::FIELDS] = lines.fields()?;
        if self.cars == CAR_LINES {
            return Err(lines.reject(Refusal::Count));
        }
        self.events.push(Event::Enter(Car::from(fields)));
        self.cars += 1;
        Ok(())
    }

    fn read_strike(&mut self, lines: &mut Lines) -> Result<(), Rejection> {
        let [number] = lines.fields()?;
        if self.events.len() - self.cars == STRIKE_LINES {
            return Err(lines.reject(Refusal::Count));
        }
        self.events.push(Event::Strike(number));
        Ok(())
    }

    fn read_end(&mut self, lines: &mut Lines) -> Result<(), Rejection> {
        let [cars] = lines.fields()?;
        if cars as usize != self.cars {
            return Err(lines.reject(Refusal::Count));
        }
        if !lines.rest.is_empty() {
            lines.number += 1;
            return Err(lines.reject(Refusal::Count));
        }
        Ok(())
    }
}

/// The lines of a sheet that are still to be read.
struct Lines<'a> {
    rest: &'a [u8],
    /// The number of the line being read.
    number: u32,
}

impl Lines<'_> {
    /// Goes to the next line and looks at its letter.
    fn letter(&mut self, may_come: &[u8]) -> Result<u8, Rejection> {
        self.number += 1;
        match self.rest.first() {
            Some(letter) if may_come.contains(letter) => Ok(*letter),
            _ if self.rest.contains(&b'\n') => Err(self.reject(Refusal::Letter)),
            _ => Err(self.reject(Refusal::LineMissing)),
        }
    }

    /// Reads the fields of the line whose letter was looked at.
    fn fields<const N: usize>(&mut self) -> Result<[u32; N], Rejection> {
        let fields = line::read(self.rest).map_err(|refusal| self.reject(refusal))?;
        self.rest = &self.rest[line::length(N)..];
        Ok(fields)
    }

    fn reject(&self, refusal: Refusal) -> Rejection {
        Rejection { line: self.number, refusal }
    }
}
