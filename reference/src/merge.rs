//! Merging two sheets: one sheet of their types and of the cars still held, and the refusals 33 to 35.

use crate::car::{self, Car, Measured};
use crate::line;
use crate::refusal::{ensure, Refusal};
use crate::sheet::{Event, Rejection, Sheet};
use crate::table::{Row, ROWS, TABLES};
use crate::train::{Train, CARS};

/// Bytes that the buffer of a merge must hold: four tables of 400 rows, sixty cars and the last line.
pub const MERGED_BYTES: usize =
    TABLES * (1 + ROWS) * line::length(2) + CARS * line::length(car::FIELDS) + line::length(1);

const _: () = assert!(MERGED_BYTES == 39_771);

/// What a merge hands back: the length of the merged sheet, 0 and 0; or 0, the refusal and the line at
/// fault of the sheet that is refused, which is 0 where no line is.
#[derive(Clone, Copy, Debug, PartialEq, Eq)]
pub struct Merge {
    pub length: usize,
    pub number: u32,
    pub line: u32,
}

/// Merges two sheets. The merged one is written from the start of `out`, whose bytes past it stay as they
/// were; where the merge is refused, all of them do.
pub fn merge(first: &[u8], second: &[u8], out: &mut [u8]) -> Merge {
    match merge_into(first, second, out) {
        Ok(length) => Merge { length, number: 0, line: 0 },
        Err(Rejection { line, refusal }) => Merge { length: 0, number: refusal.number(), line },
    }
}

/// The merged sheet in a vector of its own, or why there is none.
pub fn of(first: &[u8], second: &[u8]) -> Result<Vec<u8>, Rejection> {
    let mut out = vec![0; MERGED_BYTES];
    let length = merge_into(first, second, &mut out)?;
    out.truncate(length);
    Ok(out)
}

fn merge_into(first: &[u8], second: &[u8], out: &mut [u8]) -> Result<usize, Rejection> {
    ensure(out.len() >= MERGED_BYTES, Refusal::AnswerBuffer).map_err(of_no_line)?;
    let first = Half::read(first)?;
    let second = Half::read(second)?;
    let merged = Merged::of(&first, &second).map_err(of_no_line)?;
    Ok(merged.write(out))
}

/// The refusal of a merge itself.
fn of_no_line(refusal: Refusal) -> Rejection {
    Rejection { line: 0, refusal }
}

/// One of the two sheets, with the cars that are held when it is done.
struct Half {
    sheet: Sheet,
    held: Vec<Held>,
}

/// A held car, and what refuses it if something does.
#[derive(Clone, Copy)]
struct Held {
    car: Car,
    refusal: Option<Refusal>,
}

impl Half {
    /// Reads a sheet and works it out: refusals 2 to 9.
    fn read(bytes: &[u8]) -> Result<Self, Rejection> {
        let sheet = Sheet::read(bytes)?;
        let held = held(&sheet);
        Ok(Self { sheet, held })
    }

    /// The rows of a type.
    fn rows(&self, car_type: u32) -> Option<&[Row]> {
        self.sheet.tables.find(car_type).map(|table| table.rows())
    }

    /// The types of held cars that 12 refuses.
    fn unknown_types(&self) -> Vec<u32> {
        let unknown = self.held.iter().filter(|held| held.refusal == Some(Refusal::Type));
        unknown.map(|held| held.car.car_type).collect()
    }

    fn has_any_of(&self, types: &[u32]) -> bool {
        types.iter().any(|&car_type| self.rows(car_type).is_some())
    }

    fn holds(&self, number: u32) -> bool {
        self.held.iter().any(|held| held.car.number == number)
    }
}

/// The cars that are held when a sheet is done, by the lines that entered them.
fn held(sheet: &Sheet) -> Vec<Held> {
    let mut train = Train::default();
    let mut held: Vec<Held> = Vec::new();
    for event in sheet.events() {
        match event {
            Event::Enter(car) => {
                match train.enter_sound(&Measured::from(car), &sheet.tables).err() {
                    Some(Refusal::Count | Refusal::CarNumber | Refusal::CarTwice) => {}
                    refusal => held.push(Held { car: *car, refusal }),
                }
            }
            Event::Strike(number) => {
                if train.strike_sound(*number).is_ok() {
                    held.retain(|held| held.car.number != *number);
                }
            }
        }
    }
    held
}

/// The rows of a type that one of two sheets has at least: refusal 33 where they differ.
fn rows<'a>(first: &'a Half, second: &'a Half, car_type: u32) -> Result<&'a [Row], Refusal> {
    match (first.rows(car_type), second.rows(car_type)) {
        (Some(rows), Some(others)) if rows != others => Err(Refusal::MergedTables),
        (rows, others) => Ok(rows.or(others).unwrap_or_default()),
    }
}

/// Each type of two sheets once with its rows, rising.
fn tables<'a>(first: &'a Half, second: &'a Half) -> Result<Vec<(u32, &'a [Row])>, Refusal> {
    let types = first.sheet.tables.types().chain(second.sheet.tables.types());
    let mut types: Vec<u32> = types.collect();
    types.sort_unstable();
    types.dedup();
    let mut tables = Vec::new();
    for car_type in types {
        tables.push((car_type, rows(first, second, car_type)?));
    }
    Ok(tables)
}

/// What a merged sheet is to hold.
struct Merged<'a> {
    /// Each type with its rows, rising by type.
    tables: Vec<(u32, &'a [Row])>,
    /// The cars, rising by number.
    cars: Vec<Car>,
}

impl<'a> Merged<'a> {
    /// Puts two sheets together: refusals 33, 34 and 35.
    fn of(first: &'a Half, second: &'a Half) -> Result<Self, Refusal> {
        let tables = tables(first, second)?;
        let finds_its_type =
            second.has_any_of(&first.unknown_types()) || first.has_any_of(&second.unknown_types());
        ensure(!finds_its_type, Refusal::MergedTables)?;

        let is_held_twice = first.held.iter().any(|held| second.holds(held.car.number));
        ensure(!is_held_twice, Refusal::HeldTwice)?;

        let held = first.held.iter().chain(&second.held);
        let mut cars: Vec<Car> = held.map(|held| held.car).collect();
        cars.sort_unstable_by_key(|car| car.number);
        ensure(tables.len() <= TABLES && cars.len() <= CARS, Refusal::MergedSize)?;
        Ok(Self { tables, cars })
    }

    /// Writes the sheet and returns its length.
    fn write(&self, out: &mut [u8]) -> usize {
        let mut sheet = Writer { out, length: 0 };
        for (car_type, rows) in &self.tables {
            sheet.write(b'T', [*car_type, rows.len() as u32]);
            for row in *rows {
                sheet.write(b'R', [row.level, row.capacity]);
            }
        }
        for car in &self.cars {
            sheet.write(b'C', <[u32; car::FIELDS]>::from(*car));
        }
        sheet.write(b'E', [self.cars.len() as u32]);
        sheet.length
    }
}

/// A sheet being written to a buffer.
struct Writer<'a> {
    out: &'a mut [u8],
    length: usize,
}

impl Writer<'_> {
    fn write<const N: usize>(&mut self, letter: u8, numbers: [u32; N]) {
        self.length += line::write(&mut self.out[self.length..], letter, numbers);
    }
}
