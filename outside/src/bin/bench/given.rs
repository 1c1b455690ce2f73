//! What the programs are given: the rules' own sheet, its table and its first car, and four full tables.

use outside::FIELDS;
use reference::car::Car;
use reference::operations::{self, HandedIn};
use reference::table::Row;

/// The sheet printed in the rules: a table of four rows and two cars, of which the first is accepted.
pub const SHEET: &[u8] = include_bytes!("../../../../crates/rack/stdin");

/// Lines of its table, the T line and the rows; the first car's line follows.
const TABLE_LINES: usize = 5;

fn lines() -> impl Iterator<Item = &'static [u8]> {
    SHEET.split_inclusive(|&byte| byte == b'\n')
}

fn numbers(line: &[u8]) -> Vec<u32> {
    operations::read_line(line).expect("a line without fault").1
}

/// The bytes of the sheet's table.
pub fn table_text() -> Vec<u8> {
    lines().take(TABLE_LINES).flatten().copied().collect()
}

/// The sheet's table.
pub fn small_table() -> Vec<HandedIn> {
    let mut lines = lines().take(TABLE_LINES).map(numbers);
    let head = lines.next().expect("a T line");
    vec![table(head[0], lines.map(|row| (row[0], row[1])))]
}

/// The sheet's first car, with this number.
pub fn car(number: u32) -> Car {
    let fields = numbers(lines().nth(TABLE_LINES).expect("a C line"));
    let fields: [u32; FIELDS] = fields.try_into().expect("a car's fields");
    Car { number, ..Car::from(fields) }
}

/// Four tables of 400 rows each, of the types 1 to 4.
pub fn four_full_tables() -> Vec<HandedIn> {
    (1..=4).map(|car_type| table(car_type, (0..400).map(|row| (9 * row, 450 * row)))).collect()
}

/// A table whose rows have these levels in mm and capacities in dm³.
fn table(car_type: u32, rows: impl Iterator<Item = (u32, u32)>) -> HandedIn {
    let rows: Vec<Row> = rows.map(|(level, capacity)| Row { level, capacity }).collect();
    HandedIn { car_type, announced: rows.len() as u32, rows }
}
