//! A car alone: every field at every limit, every two fields together, then cars by lot.

use outside::random::Random;
use outside::{BAD_LENGTH, FIELDS, FIGURES};
use reference::car::{Car, Figures};
use reference::operations;
use reference::refusal::Refusal;

use crate::figures::ENDS;
use crate::tables::Given;
use crate::tally::{Lent, Tally, LENT};

/// A car that no refusal turns away on a table of type 1 that reaches 9 mm.
pub const SOUND: [u32; FIELDS] = [50_000_001, 1, 3, 1, 2, 9, 9, 0, 0, 3, 600, 9_500, 50, 20];

/// Numbers near the limits of each field of a car.
pub const LIMITS: [&[u32]; FIELDS] = [
    &[0, 1, 99_999_999, 100_000_000],
    &[0, 1, 2, 4, 5, 9_999],
    &[0, 1, 2, 3, 4, 5],
    &[0, 1, 2, 3],
    &[0, 1, 2, 3, 4, 5],
    &[0, 1, 7, 8, 9, 10, 11],
    &[0, 1, 7, 8, 9, 10, 11],
    &[0, 1, 8, 9],
    &[0, 1, 8, 9],
    &[0, 1, 7, 8, 9, 10, 429_496_730],
    &[199, 200, 399, 400, 900, 901],
    &[8_999, 9_000, 9_584, 9_585, 9_634, 9_635, 9_900, 9_901],
    &[0, 30, 31, 100, 101, 10_000],
    &[0, 10, 11, 12, 13, 50, 51, 100, 101, 10_000],
];

/// Figures as the exported operations write them.
pub fn numbers(figures: Figures) -> [u32; FIGURES] {
    let Figures { number, level, volume, volume_at_15, gross, net } = figures;
    [number, level, volume, volume_at_15, gross, net]
}

/// A car's answer in lent figures.
pub fn handed(answer: Result<Figures, Refusal>, mut lent: Lent) -> (u32, Lent) {
    match answer {
        Ok(figures) => {
            lent.slice().copy_from_slice(&numbers(figures));
            (0, lent)
        }
        Err(refusal) => (refusal.number(), lent),
    }
}

fn compare_car(tally: &mut Tally, given: &Given, car: &[u32], length: usize) {
    let lent = Lent::new(&vec![LENT; length]);
    let mut figures = lent.clone();
    let number = outside::work_out(given.lent(), car, figures.slice());
    let expected = match <[u32; FIELDS]>::try_from(car) {
        Ok(fields) if given.fits() && length == FIGURES => {
            handed(operations::work_out(&given.handed_in(), &Car::from(fields)), lent)
        }
        _ => (BAD_LENGTH, lent),
    };
    tally.compare((car, given), (number, figures), expected);
}

/// Tables whose first reaches 9 mm, so that every level of it can be tried.
pub fn low_tables(random: &mut Random) -> Given {
    let mut given = Given::sound(random, &[3, 2, 4, 5]);
    given.levels[..3].copy_from_slice(&[0, 4, 9]);
    given.capacities[..3].copy_from_slice(&[0, 30_001, 70_000]);
    given
}

/// The number of readings and these: two that agree; two with a mean of 8.5 mm; four with one of 8.33 mm and
/// 8.67 mm; four of which the three used span 2 mm, 3 mm and 4 mm; two and four that come to 6.1 mm to 7.4 mm
/// where ten times each, ten times their sum or twice that is held in 32 bits.
const READINGS: [[u32; 5]; 13] = [
    [2, 9, 9, 0, 0],
    [2, 8, 9, 0, 0],
    [4, 8, 10, 8, 9],
    [4, 8, 10, 9, 9],
    [4, 9, 6, 8, 7],
    [4, 9, 5, 8, 6],
    [4, 9, 4, 8, 5],
    [2, 429_496_737, 429_496_737, 0, 0],
    [2, 214_748_371, 214_748_371, 0, 0],
    [2, 107_374_189, 107_374_189, 0, 0],
    [4, 429_496_736, 429_496_738, 429_496_736, 429_496_737],
    [4, 143_165_582, 143_165_584, 143_165_583, 143_165_583],
    [4, 71_582_794, 71_582_796, 71_582_794, 71_582_795],
];

/// Cars of each grade, each with one field, and each two fields, at a limit.
pub fn cars_at_limits() -> Vec<[u32; FIELDS]> {
    let mut cars = Vec::new();
    for grade in 1..=4 {
        for readings in READINGS {
            let mut sound = SOUND;
            sound[2] = grade;
            sound[4..9].copy_from_slice(&readings);
            (sound[12], sound[13]) = (10, 5);
            cars.push(sound);
            for first in 0..FIELDS {
                for &number in LIMITS[first].iter().chain(&ENDS) {
                    let mut car = sound;
                    car[first] = number;
                    cars.push(car);
                    for second in first + 1..FIELDS {
                        for &number in LIMITS[second] {
                            car[second] = number;
                            cars.push(car);
                        }
                        car[second] = sound[second];
                    }
                }
            }
        }
    }
    cars
}

/// A car for some tables, with no fault or a few.
pub fn draw(random: &mut Random, given: &Given) -> [u32; FIELDS] {
    let table = random.below((given.count as usize).clamp(1, 4));
    let last = given.last_level(table).clamp(1, 3_600);
    let level = random.between(1, last);
    let grade = random.between(1, 4);
    let coolest = if grade < 3 { 200 } else { 400 };
    // mm that the readings lie apart at most: three of four may span more than 3
    let spread = random.pick(&[1, 3, 5, 9]);
    let [a, b, c, d] = [(); 4].map(|()| level - random.between(0, spread).min(level - 1));
    let highest_water = random.pick(&[0, level - 1, level, last]);
    let water_level =
        if random.one_in(4) { highest_water } else { random.between(0, highest_water) };
    let four = random.one_in(2) || a.abs_diff(b) > 1;
    let mut car = [
        random.between(1, 99_999_999),
        given.types[table],
        grade,
        random.between(1, 2),
        if four { 4 } else { 2 },
        a,
        b,
        if four { c } else { 0 },
        if four { d } else { 0 },
        water_level,
        random.between(coolest, 900),
        random.between(9_000, if grade < 3 { 9_600 } else { 9_900 }),
        random.between(0, 30),
        random.between(0, 10),
    ];
    for _ in 0..random.pick(&[0, 0, 1, 2]) {
        let field = random.below(FIELDS);
        car[field] = random.pick(LIMITS[field]);
    }
    car
}

/// Lengths other than the one that is asked for.
pub fn wrong_lengths(right: usize) -> [usize; 4] {
    [right - 1, right + 1, 0, 2 * right]
}

pub fn work_out(times: u64) -> Tally {
    let mut tally = Tally::new("work_out");
    let mut random = Random::new(6);
    let given = low_tables(&mut random);
    for misfit in given.misfits() {
        compare_car(&mut tally, &misfit, &SOUND, FIGURES);
    }
    for length in wrong_lengths(FIELDS) {
        compare_car(&mut tally, &given, &vec![1; length], FIGURES);
    }
    for length in wrong_lengths(FIGURES) {
        compare_car(&mut tally, &given, &SOUND, length);
    }
    for car in cars_at_limits() {
        compare_car(&mut tally, &given, &car, FIGURES);
    }
    for _ in 0..times / 16 {
        let given = draw_tables(&mut random);
        for _ in 0..16 {
            let car = draw(&mut random, &given);
            compare_car(&mut tally, &given, &car, FIGURES);
        }
    }
    tally
}

/// Tables that are sound, but for one in eight.
pub fn draw_tables(random: &mut Random) -> Given {
    let mut given = Given::draw(random);
    match random.below(16) {
        0 => given.levels[0] = 1,
        1 => given.rows[0] = 1,
        _ => {}
    }
    given
}
