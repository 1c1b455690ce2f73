//! Every bound of 16 to 21 from both sides, for each grade in each of four tables, with either
//! stick and with two and four readings.

use super::rack::cars_on;
use super::Case;
use crate::car::Car;

/// Four tables with ends of their own, uneven, none of them on a common scale.
pub const TABLES: &str = "
    T 7 4
    R 0 0
    R 701 9001
    R 1500 33333
    R 2800 70865
    T 9999 3
    R 0 0
    R 3 1
    R 3300 91000
    T 1 2
    R 0 0
    R 2400 48001
    T 62 4
    R 0 0
    R 1000 200
    R 2600 150000
    R 3100 190000";

/// Type and last level of each.
pub const ENDS: [(u32, u32); 4] = [(7, 2800), (9_999, 3300), (1, 2400), (62, 3100)];

/// Lowest temperature, highest water, impurities and density at 15 °C of each grade.
const GRADES: [[u32; 4]; 4] =
    [[200, 30, 10, 9_584], [200, 30, 12, 9_634], [400, 100, 50, 9_900], [400, 100, 100, 9_900]];

/// Bounds of a car: the end of its table, its water level, temperature, density, water and
/// impurities, each just inside and just outside.
const BOUNDS: usize = 15;

pub fn cases() -> Vec<Case> {
    let mut listings = include_str!("each_car.txt").split("--\n");
    let of_grades = (0..4)
        .zip(&mut listings)
        .map(|(grade, listing)| {
            let cars: Vec<Car> = (0..BOUNDS * 4)
                .map(|place| Car { number: 60_000_000 + place as u32, ..car(grade, place) })
                .collect();
            let name = format!("refusal-16-to-21-of-grade-{}", grade + 1);
            Case::new(name.leak(), cars_on(TABLES, &cars), listing)
        })
        .collect::<Vec<Case>>();
    let flat = flat(listings.next().expect("a listing"));
    of_grades.into_iter().chain([flat, own_end()]).collect()
}

/// The longest table first, then a shorter one: 16 goes by the car's own.
fn own_end() -> Case {
    let tables = "T 1 2\nR 0 0\nR 3000 60000\nT 2 2\nR 0 0\nR 2000 40000";
    let at = |number, car_type, level| Car {
        number,
        car_type,
        readings: [level, level, 0, 0],
        ..super::rack::CAR
    };
    Case::new(
        "refusal-16-by-the-end-of-the-own-table",
        cars_on(tables, &[at(1, 1, 3000), at(2, 1, 3001), at(3, 2, 2000), at(4, 2, 2001)]),
        "A 1 30000 6000000 5815740 55250 54863
         X 2 16
         A 3 20000 4000000 3877160 36833 36575
         X 4 16
         S 2 92083 91438
         G 1 0 0 0
         G 2 0 0 0
         G 3 2 92083 91438
         G 4 0 0 0",
    )
}

/// Tables so flat that the oil above the water has no volume, and water levels above the oil: for
/// each grade in each table, with grades that are none.
fn flat(listing: &str) -> Case {
    let tables: String = [3, 300, 30, 5_000]
        .iter()
        .map(|car_type| format!("T {car_type} 2\nR 0 0\nR 3600 1\n"))
        .collect();
    let cars: Vec<Car> = (0..60)
        .map(|place: u32| {
            let (table, grade, turn) = (place % 4, place / 4 % 4, place / 16);
            // The last four have a stick that is none, one of each grade.
            let grade = if place < 56 { grade } else { table };
            let level = 1_000 + 40 * place;
            let mut car = Car {
                number: 70_000_001 + place,
                car_type: [3, 300, 30, 5_000][table as usize],
                grade: grade + 1,
                stick: 1 + (table + grade + turn) % 2,
                water_level: [level - 1, level + 1, 65_536 + place, 0][turn as usize],
                temperature: 500,
                density: 9_300,
                ..Car::default()
            };
            if place >= 56 {
                car.stick = 3;
            } else if turn == 3 {
                car.grade = [5, 256 + grade, 65_536 + grade][(grade as usize) % 3];
            }
            read(&mut car, level, (table + turn) as usize, grade as usize);
            car
        })
        .collect();
    Case::new("refusal-13-and-17-on-flat-tables", cars_on(&tables, &cars), listing)
}

/// The car of a place: its bound, its table, and then stick and readings by turns.
fn car(grade: usize, place: usize) -> Car {
    let (bound, table) = (place / 4, place % 4);
    let (car_type, end) = ENDS[table];
    let [coolest, water, impurities, densest] = GRADES[grade];
    let mut car = Car {
        car_type,
        grade: grade as u32 + 1,
        stick: 1 + ((bound + table + grade / 2) % 2) as u32,
        water_level: (37 * place as u32) % 700,
        temperature: coolest + 300 + place as u32,
        density: 9_100 + 7 * place as u32,
        water: place as u32 % (water + 1),
        impurities: place as u32 % (impurities + 1),
        ..Car::default()
    };
    let mut level = end - 900 - 11 * place as u32;
    match bound {
        0 => level = end,
        1 => level = end + 1,
        2 => car.water_level = level - 1,
        3 => car.water_level = level,
        4 => car.temperature = coolest - 1,
        5 => car.temperature = coolest,
        6 => car.temperature = 900,
        7 => car.temperature = 901,
        8 => car.density = 8_999,
        9 => car.density = 9_000,
        10 => car.density = densest,
        11 => car.density = densest + 1,
        12 => (car.water, car.impurities) = (water, impurities),
        13 => car.water = water + 1,
        _ => car.impurities = impurities + 1,
    }
    read(&mut car, level, bound + table / 2 + grade, table + grade / 2);
    car
}

/// Two or four readings whose mean lies half or a third of a mm below a level, and is none of them.
fn read(car: &mut Car, level: u32, four: usize, order: usize) {
    car.given = if four % 2 == 0 { 2 } else { 4 };
    car.readings = match (car.given, order % 2) {
        (2, 0) => [level - 1, level, 0, 0],
        (2, _) => [level, level - 1, 0, 0],
        (_, 0) => [level + 9, level, level - 1, level],
        _ => [level, level + 9, level, level - 1],
    };
}
