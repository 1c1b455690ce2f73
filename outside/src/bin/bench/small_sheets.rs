//! Sheets of accepted cars on the rules' own table of four rows, where the cars take most of the time.

use outside::random::Random;
use outside::FIELDS;
use reference::car::Car;
use reference::{line, operations, ANSWER_BYTES};

use crate::given;

/// The least and the greatest first reading, in mm; the second is the same or 1 mm more.
const READINGS: (u32, u32) = (1, 2_999);

/// Densities at 15 °C that 21 accepts of every grade, in 0.1 kg/m³.
const DENSITIES: (u32, u32) = (9_000, 9_580);

/// Eight sheets of so many cars of a grade, which differ in readings and densities. Sheets of
/// another grade differ from these in nothing else.
pub fn eight(cars: u32, grade: u32) -> Vec<Vec<u8>> {
    (0..8).map(|seed| sheet(&mut Random::new(seed), cars, grade)).collect()
}

fn sheet(random: &mut Random, cars: u32, grade: u32) -> Vec<u8> {
    let mut sheet = given::table_text();
    for number in 1..=cars {
        let car = draw(random, 50_000_000 + number, grade);
        put_line(&mut sheet, b'C', &<[u32; FIELDS]>::from(car));
    }
    put_line(&mut sheet, b'E', &[cars]);
    assert_eq!(accepted(&sheet), cars as usize, "a car is refused");
    sheet
}

/// A car with so little water and impurities, in 0.01 %, that 20 accepts it of every grade.
fn draw(random: &mut Random, number: u32, grade: u32) -> Car {
    let reading = random.between(READINGS.0, READINGS.1);
    Car {
        grade,
        readings: [reading, reading + random.between(0, 1), 0, 0],
        density: random.between(DENSITIES.0, DENSITIES.1),
        water: 30,
        impurities: 10,
        ..given::car(number)
    }
}

fn put_line(sheet: &mut Vec<u8>, letter: u8, numbers: &[u32]) {
    let start = sheet.len();
    sheet.resize(start + line::length(numbers.len()), 0);
    operations::write_line(&mut sheet[start..], letter, numbers).expect("numbers of eight digits");
}

/// How many cars of a sheet the reference accepts.
fn accepted(sheet: &[u8]) -> usize {
    let mut answer = [0; ANSWER_BYTES];
    let (length, _) = reference::answer_sheet(sheet, &mut answer);
    answer[..length].split(|&byte| byte == b'\n').filter(|line| line.starts_with(b"A")).count()
}
