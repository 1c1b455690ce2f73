//! Drawing cars: sound ones with many values at the bounds, and spoiled ones for each refusal.

use super::random::Random;
use super::readings::{self, FAR};
use super::tables::Table;
use crate::car::{Car, FIELDS};
use crate::level;

/// Lowest temperature, highest water, highest impurities and the density at 15 °C above which
/// the grade is too dense at 20 °C, for each grade.
const GRADES: [(u32, u32, u32, u32); 4] =
    [(200, 30, 10, 9_584), (200, 30, 12, 9_634), (400, 100, 50, 9_900), (400, 100, 100, 9_900)];

/// A car that no rule turns away, unless its number has been drawn before.
pub fn draw(random: &mut Random, tables: &[Table]) -> Car {
    let table = &tables[random.below(tables.len())];
    let grade = random.below(4);
    let (coolest, water, impurities, densest) = GRADES[grade];
    let mut car = Car {
        number: draw_number(random),
        car_type: table.car_type,
        grade: grade as u32 + 1,
        stick: random.between(1, 2),
        temperature: near_ends(random, coolest, 900),
        density: draw_density(random, densest),
        water: near_ends(random, 0, water),
        impurities: near_ends(random, 0, impurities),
        ..Car::default()
    };
    let level = draw_level(random, table);
    let highest = table.rows.last().map_or(0, |row| row.level);
    readings::draw(random, &mut car, level, highest);
    if let Ok(level) = level::mean(car.given, car.readings) {
        let below = highest_below(level);
        car.water_level = match random.below(5) {
            0 => 0,
            1 => below,
            2 => below.saturating_sub(1),
            3 => draw_level(random, table).min(below),
            _ => random.between(0, below.min(200)),
        };
    }
    car
}

/// The highest water level, in mm, below a mean level in 0.1 mm.
fn highest_below(level: u64) -> u32 {
    ((level - 1) / 10) as u32
}

/// A car number, at times at the ends of the range.
pub fn draw_number(random: &mut Random) -> u32 {
    match random.below(20) {
        0 => random.pick(&[1, 2, 99_999_998, 99_999_999]),
        1 => random.between(1, 60),
        _ => random.between(50_000_000, 69_999_999),
    }
}

/// A density, often a round one, for which masses come to a half, or 9,600, for which B does.
fn draw_density(random: &mut Random, densest: u32) -> u32 {
    match random.below(4) {
        0 => random.pick(&[9_000, 9_200, 9_250, 9_400, 9_500, 9_600]).min(densest),
        _ => near_ends(random, 9_000, densest),
    }
}

/// A number from `low` to `high`, often one of the ends or beside it.
fn near_ends(random: &mut Random, low: u32, high: u32) -> u32 {
    match random.below(8) {
        0 => low,
        1 => low + 1,
        2 => high - 1,
        3 => high,
        _ => random.between(low, high),
    }
}

/// A level in a table's reach, often that of a row or beside it.
fn draw_level(random: &mut Random, table: &Table) -> u32 {
    let highest = table.rows.last().map_or(1, |row| row.level);
    let level = match random.below(6) {
        0 => random.pick(&[1, 2, highest - 1, highest]),
        1 | 2 => table.rows[random.below(table.rows.len())].level + random.between(0, 2),
        _ => random.between(1, highest),
    };
    level.clamp(1, highest)
}

/// Makes one or two rules for cars turn the car away, or come close to it; `earlier` are the numbers of
/// the cars before it.
pub fn spoil(random: &mut Random, car: &mut Car, tables: &[Table], earlier: &[u32]) {
    let times = random.pick(&[1, 1, 1, 2]);
    for _ in 0..times {
        spoil_once(random, car, tables, earlier);
    }
}

/// Makes a field so much too high that a program with narrow words would not see it.
fn raise(random: &mut Random, car: &mut Car) {
    let mut fields = <[u32; FIELDS]>::from(*car);
    let place = 1 + random.below(FIELDS - 1);
    fields[place] = fields[place].saturating_add(random.pick(&[256, 65_536])).min(99_999_999);
    *car = Car::from(fields);
}

fn spoil_once(random: &mut Random, car: &mut Car, tables: &[Table], earlier: &[u32]) {
    let table = tables.iter().find(|table| table.car_type == car.car_type);
    let highest = table.and_then(|table| table.rows.last()).map_or(1, |row| row.level);
    match random.below(18) {
        0..=5 => spoil_kind(random, car, earlier),
        6..=11 => readings::spoil(random, car, highest),
        12..=16 => spoil_contents(random, car),
        _ => raise(random, car),
    }
}

/// Refusals 10 to 13.
fn spoil_kind(random: &mut Random, car: &mut Car, earlier: &[u32]) {
    match random.below(6) {
        0 => car.number = 0,
        1 | 2 => {
            if !earlier.is_empty() {
                car.number = random.pick(earlier);
            }
        }
        3 => car.car_type = random.pick(&[0, car.car_type + 1, 10_000, FAR]),
        4 => car.grade = random.pick(&[0, 5, 6, FAR]),
        _ => car.stick = random.pick(&[0, 3, FAR]),
    }
}

/// Refusals 17 to 21.
fn spoil_contents(random: &mut Random, car: &mut Car) {
    let (coolest, water, impurities, densest) = GRADES[(car.grade as usize).clamp(1, 4) - 1];
    match random.below(5) {
        0 => {
            let below = highest_below(level::mean(car.given, car.readings).unwrap_or(1));
            let around = [below.saturating_sub(1), below, below + 1, below + 2];
            // Ten times the last two is 4 and 10 in 16 bits.
            let far = [(10 * below).min(FAR), FAR, 6_554, 65_537];
            car.water_level = random.pick(&[around, far].concat());
        }
        1 => {
            let beyond = [199, 200, 399, 400, 900, 901, 0, FAR, coolest - 1];
            car.temperature = random.pick(&beyond);
        }
        2 => car.density = random.pick(&[0, 8_999, 9_000, 9_900, 9_901, FAR]),
        3 => {
            if random.one_in(2) {
                car.water = random.pick(&[water, water + 1, 10_001, FAR]);
            } else {
                car.impurities = random.pick(&[impurities, impurities + 1, 10_001, FAR]);
            }
        }
        _ => {
            car.grade = random.between(1, 2);
            car.water = car.water.min(30);
            car.impurities = car.impurities.min(10);
            car.density = random.between(densest.min(9_640) - 60, densest.min(9_640) + 6);
        }
    }
}
