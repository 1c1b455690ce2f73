//! Sheets of sixty accepted cars with figures of all kinds, which tell most wrong calculations.

use super::rack::cars_on;
use super::Case;
use crate::car::Car;
use crate::sheets::random::Random;

/// Seeds chosen so that wrong calculations show on few sheets.
const SEEDS: [u64; 9] = [700, 416, 974, 996, 906, 697, 981, 3_863, 3_004];

pub fn cases() -> Vec<Case> {
    let listings = include_str!("figures.txt").split("--\n");
    SEEDS
        .into_iter()
        .zip(listings)
        .zip(1..)
        .map(|((seed, listing), number)| {
            let name = format!("figures-of-sixty-cars-{number}");
            Case::new(name.leak(), sheet(seed), listing)
        })
        .collect()
}

/// Lowest temperature, highest water, impurities and density at 15 °C of each grade.
const GRADES: [[u32; 4]; 4] =
    [[200, 30, 10, 9_584], [200, 30, 12, 9_634], [400, 100, 50, 9_900], [400, 100, 100, 9_900]];

/// Four tables and sixty accepted cars, drawn by lot.
pub fn sheet(seed: u64) -> Vec<u8> {
    let mut random = Random::new(seed);
    let mut tables = String::new();
    let mut ends = Vec::new();
    for car_type in [31, 4_007, 8_192, 905] {
        let rows = rows(&mut random);
        ends.push((car_type, rows[rows.len() - 1].0));
        tables.push_str(&format!("T {car_type} {}\n", rows.len()));
        rows.iter()
            .for_each(|(level, capacity)| tables.push_str(&format!("R {level} {capacity}\n")));
    }
    let cars: Vec<Car> = (0..60).map(|place| car(&mut random, place, &ends)).collect();
    cars_on(&tables, &cars)
}

/// A few rows up to about 200,000 dm³, with steps whose quotients have halves and odd parts.
fn rows(random: &mut Random) -> Vec<(u32, u32)> {
    let mut rows = vec![(0, 0)];
    let (mut level, mut capacity) = (0, 0);
    for _ in 0..random.between(1, 7) {
        level += random.pick(&[1, 3, 200, 400, 8, 501, 97]);
        capacity += random.between(1, 24_000);
        rows.push((level, capacity));
    }
    let top = random.between(level + 1, 3_600).max(2_000);
    rows.push((top, random.between(capacity + 1, 200_000).max(180_000)));
    rows
}

fn car(random: &mut Random, place: u32, ends: &[(u32, u32)]) -> Car {
    let grade = (place / 4 % 4) as usize;
    let (car_type, end) = ends[place as usize % 4];
    let [coolest, water, impurities, densest] = GRADES[grade];
    let lowest = if random.one_in(3) { 3 } else { end - end / 4 };
    let level = random.between(lowest, end);
    let level = if random.one_in(6) { 400.min(end) / random.between(1, 4) } else { level };
    let (given, readings) = match random.below(4) {
        0 => (4, [level - 2, level, level, level + 7]),
        1 => (2, [level - 1, level, 0, 0]),
        2 => (4, [level, level - 1, 0, level + 1]),
        _ => (2, [level, level, 0, 0]),
    };
    Car {
        number: 10_000_000 + 1_357_931 * place,
        car_type,
        grade: grade as u32 + 1,
        stick: random.between(1, 2),
        given,
        readings,
        water_level: random.between(0, (level - 3).min(200)),
        temperature: random.between(coolest, 900),
        density: random.between(9_000, densest),
        water: random.between(0, water),
        impurities: random.between(0, impurities),
    }
}
