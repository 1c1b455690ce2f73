//! Single operations, for a caller who has one line, some tables, some fields or one car and no sheet.
//!
//! Each gives those refusals that test what it is handed, in the listed order; 31 and 32 of a probe's car
//! come before 7 and 8 of its tables. The mean level and the tape allowance stand in [`crate::level`], a
//! laboratory's density in [`crate::laboratory`], the check of a stick in [`crate::stick`], a probe's
//! readings and sets by themselves in [`crate::probe`].

use std::sync::LazyLock;

use crate::car::{self, Car, Figures};
use crate::field;
use crate::level::in_tenths;
use crate::line;
use crate::permitted::{self, Errors, PermittedError};
use crate::probe::ProbeCar;
use crate::refusal::Refusal;
use crate::table::{Row, Tables};
use crate::thermal::{self, Density15, Density20};
use crate::train::Train;

/// Refusal 22, which no listing shows.
pub const WRITING: u32 = 22;

/// The largest number that a field holds.
const LARGEST: u32 = 99_999_999;

/// Without a grade: the temperatures in 0.1 °C, and the highest water and impurities in 0.01 %.
const TEMPERATURES: std::ops::RangeInclusive<u32> = 200..=900;
const CONTENT: u32 = 100;

/// Fields of a line with this letter, of a sheet or of a listing.
pub const fn fields(letter: u8) -> Option<usize> {
    match letter {
        b'T' | b'R' | b'X' | b'Z' => Some(2),
        b'C' => Some(car::FIELDS),
        b'K' | b'E' => Some(1),
        b'A' => Some(6),
        b'S' => Some(3),
        b'G' => Some(4),
        _ => None,
    }
}

/// The letter and the numbers of a sheet line read alone, which ends at its first line feed:
/// refusals 3 to 6.
pub fn read_line(text: &[u8]) -> Result<(u8, Vec<u32>), Refusal> {
    let end = text.iter().position(|&byte| byte == b'\n').ok_or(Refusal::LineMissing)?;
    let line = &text[..=end];
    let letter = line[0];
    let numbers = match letter {
        b'T' | b'R' => line::read::<2>(line)?.to_vec(),
        b'C' => line::read::<{ car::FIELDS }>(line)?.to_vec(),
        b'K' | b'E' => line::read::<1>(line)?.to_vec(),
        _ => return Err(Refusal::Letter),
    };
    Ok((letter, numbers))
}

/// Writes a line with any letter at the head of `buffer` and returns its length; nothing is refusal
/// 22, and nothing is written.
///
/// # Panics
///
/// If it is no letter, or there are not as many numbers as its fields.
pub fn write_line(buffer: &mut [u8], letter: u8, numbers: &[u32]) -> Option<usize> {
    assert_eq!(fields(letter), Some(numbers.len()));
    let length = line::length(numbers.len());
    if numbers.iter().any(|&number| number > LARGEST) {
        return None;
    }
    let line = buffer.get_mut(..length)?;
    line[0] = letter;
    let (fields, end) = line[1..].as_chunks_mut();
    for (field, &number) in fields.iter_mut().zip(numbers) {
        field::write(field, number);
    }
    end[0] = b'\n';
    Some(length)
}

/// A table handed in without a sheet. Rows past those announced are not looked at, and a table has
/// as many as it announces unless refusal 7 turns that number away.
#[derive(Clone, Debug, PartialEq, Eq)]
pub struct HandedIn {
    pub car_type: u32,
    pub announced: u32,
    pub rows: Vec<Row>,
}

/// Tables handed in without a sheet: refusals 7 and 8, line by line.
pub fn check_tables(handed_in: &[HandedIn]) -> Result<Tables, Refusal> {
    let mut tables = Tables::new();
    for table in handed_in {
        tables.begin(table.car_type, table.announced)?;
        for &row in &table.rows[..table.announced as usize] {
            tables.add(row)?;
        }
    }
    Ok(tables)
}

/// V0 in 0.01 dm³, from a type, a mean level in 0.1 mm and a water level in mm: refusals 7, 8, 12, 16
/// and 17.
pub fn volume(
    handed_in: &[HandedIn],
    car_type: u32,
    level: u64,
    water_level: u32,
) -> Result<u64, Refusal> {
    let tables = check_tables(handed_in)?;
    let table = tables.find(car_type).ok_or(Refusal::Type)?;
    if level == 0 || level > in_tenths(table.last_level()) {
        return Err(Refusal::Level);
    }
    let water_level = in_tenths(water_level);
    if water_level >= level {
        return Err(Refusal::WaterLevel);
    }
    Ok(table.capacity(level) - table.capacity(water_level))
}

/// A car that no refusal turns away on [`FLAT`]: with some fields set it is turned away by those
/// that test these fields, in the listed order.
const SOUND: Car = Car {
    number: 1,
    car_type: 1,
    grade: 3,
    stick: 1,
    given: 2,
    readings: [1, 1, 0, 0],
    water_level: 0,
    temperature: 400,
    density: 9_000,
    water: 0,
    impurities: 0,
};

static FLAT: LazyLock<Tables> = LazyLock::new(|| {
    let rows = [0, 1].map(|number| Row { level: number, capacity: number }).to_vec();
    check_tables(&[HandedIn { car_type: 1, announced: 2, rows }]).expect("a sound table")
});

/// Whether some fields of a car, set in [`SOUND`], turn it away.
fn test(fields: Car) -> Result<(), Refusal> {
    fields.work_out(&FLAT).map(drop)
}

fn check_density(density: u32) -> Result<Density15, Refusal> {
    test(Car { density, ..SOUND }).map(|()| Density15(density))
}

/// B of step 4: refusal 19.
pub fn coefficient(density: u32) -> Result<u64, Refusal> {
    check_density(density).map(thermal::coefficient)
}

/// E of step 6 between a temperature, in 0.1 °C, and 15 °C: refusals 18 and 19.
pub fn contraction(density: u32, temperature: u32) -> Result<u64, Refusal> {
    if !TEMPERATURES.contains(&temperature) {
        return Err(Refusal::Temperature);
    }
    let density = check_density(density)?;
    Ok(thermal::contraction(density, temperature - 150))
}

/// The density at 20 °C: refusal 19.
pub fn density_at_20(density: u32) -> Result<Density20, Refusal> {
    check_density(density).map(thermal::density_at_20)
}

/// The density at 20 °C of oil of a grade: refusals 13, 19 and 21.
pub fn density_at_20_of_grade(grade: u32, density: u32) -> Result<Density20, Refusal> {
    test(Car { grade, density, ..SOUND })?;
    Ok(thermal::density_at_20(Density15(density)))
}

/// What is left beside water and impurities, in 0.01 %, for a grade: refusals 13 and 20.
pub fn oil_share_of_grade(grade: u32, water: u32, impurities: u32) -> Result<u32, Refusal> {
    test(Car { grade, water, impurities, ..SOUND })?;
    Ok(10_000 - water - impurities)
}

/// The same where no grade is given: refusal 20.
pub fn oil_share(water: u32, impurities: u32) -> Result<u32, Refusal> {
    if water.max(impurities) > CONTENT {
        return Err(Refusal::WaterOrImpurities);
    }
    Ok(10_000 - water - impurities)
}

/// A car worked out alone: refusals 7, 8, 10, 12 to 21 and 23.
pub fn work_out(handed_in: &[HandedIn], car: &Car) -> Result<Figures, Refusal> {
    car.work_out(&check_tables(handed_in)?)
}

/// A car worked out alone, with its permitted error: refusals 7, 8, 10, 12 to 21 and 23 to 25.
pub fn permitted_error(
    handed_in: &[HandedIn],
    car: &Car,
    errors: &Errors,
) -> Result<PermittedError, Refusal> {
    permitted::work_out(car, &check_tables(handed_in)?, errors)
}

/// A car entered in a train with the tables that are handed in with it: refusals 7 to 21 and 23.
pub fn enter(train: &mut Train, handed_in: &[HandedIn], car: &Car) -> Result<Figures, Refusal> {
    train.enter(car, &check_tables(handed_in)?)
}

/// A probe's car worked out alone: refusals 31 and 32, then 7, 8, 10, 12, 13 and 16 to 21.
pub fn work_out_probe(handed_in: &[HandedIn], car: &ProbeCar) -> Result<Figures, Refusal> {
    let measured = car.measured()?;
    measured.work_out(&check_tables(handed_in)?)
}

/// A probe's car worked out alone, with its permitted error: refusals 31 and 32, then 7, 8, 10, 12,
/// 13, 16 to 21, 24 and 25.
pub fn permitted_error_probe(
    handed_in: &[HandedIn],
    car: &ProbeCar,
    errors: &Errors,
) -> Result<PermittedError, Refusal> {
    let measured = car.measured()?;
    permitted::of(&measured, &check_tables(handed_in)?, errors)
}

/// A probe's car entered in a train with the tables that are handed in with it: refusals 31 and 32,
/// then 7 to 13 and 16 to 21.
pub fn enter_probe(
    train: &mut Train,
    handed_in: &[HandedIn],
    car: &ProbeCar,
) -> Result<Figures, Refusal> {
    let measured = car.measured()?;
    train.enter_measured(&measured, &check_tables(handed_in)?)
}

/// The car with a number struck from a train: refusals 9 and 30.
pub fn strike(train: &mut Train, number: u32) -> Result<(), Refusal> {
    train.strike(number)
}
