//! The longer wrong ways to merge two sheets, which the edits name.

use reference::conformance::vectors::merge::LENT;

use crate::turned::car::{Car, FIELDS};
use crate::turned::sheet::{Event, Sheet};
use crate::turned::table::Row;

/// A sheet that has nothing on it but the smallest table, of a type that no other has.
pub fn empty() -> Sheet {
    let bytes = b"T     9998        2\nR        0        0\nR        1        1\nE        0\n";
    Sheet::read(bytes).unwrap_or_else(|_| panic!("a sound sheet"))
}

/// How many lines a sheet has.
pub fn lines(sheet: &Sheet) -> u32 {
    let rows = |of: u32| sheet.tables.find(of).map_or(0, |table| 1 + table.rows().len());
    let tables: usize = sheet.tables.types().map(rows).sum();
    (tables + sheet.events().len() + 1) as u32
}

/// Changes the text at the start of a buffer and gives its new length. What it leaves free is as it was
/// lent.
pub fn edited(out: &mut [u8], length: usize, change: impl FnOnce(&str) -> String) -> usize {
    let text = change(std::str::from_utf8(&out[..length]).expect("a merged sheet"));
    out[..length].fill(LENT);
    out[..text.len()].copy_from_slice(text.as_bytes());
    text.len()
}

/// A merged sheet with the K lines of both sheets before its last line.
pub fn with_strikes(text: &str, sheets: [&Sheet; 2]) -> String {
    let line = |event: &Event| match event {
        Event::Strike(number) => format!("K{number:>9}\n"),
        Event::Enter(_) => String::new(),
    };
    let strikes: String = sheets.iter().flat_map(|sheet| sheet.events()).map(line).collect();
    text.replace("\nE", &format!("\n{strikes}E"))
}

/// A merged sheet with another number on its last line.
pub fn with_end(text: &str, count: usize) -> String {
    let end = text.find('E').unwrap_or(text.len());
    format!("{}E{count:>9}\n", &text[..end])
}

pub fn cars_first(text: &str) -> String {
    let (cars, others): (Vec<&str>, Vec<&str>) =
        text.split_inclusive('\n').partition(|line| line.starts_with('C'));
    cars.concat() + &others.concat()
}

/// A zero in the place of the last space before each number.
pub fn with_zeros(text: &str) -> String {
    let bytes = text.as_bytes();
    let next = |at: usize| bytes.get(at + 1).is_some_and(u8::is_ascii_digit);
    text.char_indices().map(|(at, c)| if c == ' ' && next(at) { '0' } else { c }).collect()
}

pub fn to_the_left(text: &str) -> String {
    let set = |line: &str| {
        let words = line[1..].split_whitespace().map(|word| format!(" {word:<8}"));
        line[..1].to_string() + &words.collect::<String>() + "\n"
    };
    text.lines().map(set).collect()
}

/// The lines of a sheet behind its tables, the last first.
pub fn turned_round(sheet: &Sheet) -> &'static [Event] {
    let events: Vec<Event> = sheet.events().iter().rev().copied().collect();
    events.leak()
}

/// Whether some rows differ in what is looked at, or are not as many.
pub fn differ(rows: &[Row], others: &[Row], by: fn(&Row) -> (u32, u32)) -> bool {
    !rows.iter().map(by).eq(others.iter().map(by))
}

/// The sums of levels and capacities.
pub fn sums(rows: &[Row]) -> (u32, u32) {
    rows.iter()
        .fold((0, 0), |(levels, capacities), row| (levels + row.level, capacities + row.capacity))
}

/// Leaves out what came before.
pub fn each_once(types: &mut Vec<u32>) {
    let all = std::mem::take(types);
    for car_type in all {
        if !types.contains(&car_type) {
            types.push(car_type);
        }
    }
}

/// How many types two sheets have together.
pub fn types(sheets: [&Sheet; 2]) -> usize {
    let mut types: Vec<u32> = sheets.iter().flat_map(|sheet| sheet.tables.types()).collect();
    each_once(&mut types);
    types.len()
}

/// How many types some cars have.
pub fn named(cars: &[Car]) -> usize {
    let mut types: Vec<u32> = cars.iter().map(|car| car.car_type).collect();
    each_once(&mut types);
    types.len()
}

/// The cars without those that are like an earlier one but for the number.
pub fn that_differ(cars: Vec<Car>) -> Vec<Car> {
    let mut found: Vec<Car> = Vec::new();
    for car in cars {
        if !found.iter().any(|other| Car { number: car.number, ..*other } == car) {
            found.push(car);
        }
    }
    found
}

/// One of the first so many cars and one of the others by turns.
pub fn by_turns(cars: &mut [Car], first: usize) {
    let all = cars.to_vec();
    let (one, other) = all.split_at(first);
    let place = |(at, car)| (2 * at, car);
    let mut placed: Vec<(usize, &Car)> = one.iter().enumerate().map(place).collect();
    placed.extend(other.iter().enumerate().map(|(at, car)| (2 * at + 1, car)));
    placed.sort_by_key(|(at, _)| *at);
    for (car, (_, next)) in cars.iter_mut().zip(placed) {
        *car = *next;
    }
}

/// A car's fields with one changed, counted from 0.
pub fn but(car: Car, field: usize, by: impl Fn(u32) -> u32) -> [u32; FIELDS] {
    let mut fields = <[u32; FIELDS]>::from(car);
    fields[field] = by(fields[field]);
    fields
}

fn agree(car: &Car) -> bool {
    car.readings[0].abs_diff(car.readings[1]) <= 1
}

/// A car's fields without the third and fourth reading where the first two agree.
pub fn plain(car: Car) -> [u32; FIELDS] {
    let [first, second, ..] = car.readings;
    let readings = if agree(&car) { [first, second, 0, 0] } else { car.readings };
    Car { readings, ..car }.into()
}

/// A car's fields with its readings rising.
pub fn in_order(car: Car) -> [u32; FIELDS] {
    Car { readings: crate::wrong::sorted(car.readings), ..car }.into()
}

/// A car's fields with the first two readings exchanged.
pub fn exchanged(car: Car) -> [u32; FIELDS] {
    let [first, second, third, fourth] = car.readings;
    Car { readings: [second, first, third, fourth], ..car }.into()
}
