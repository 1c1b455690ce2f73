//! A capacity table before it is written, and drawing sound ones: like a car's, flat, steep,
//! uneven, and up to the limits.

use super::random::Random;
use crate::level;
use crate::table::{Row, ROWS};

/// The largest capacity, in dm³.
const LARGEST: u32 = 200_000;

/// A table and the number of rows that its first line announces.
#[derive(Clone)]
pub struct Table {
    pub car_type: u32,
    pub announced: u32,
    pub rows: Vec<Row>,
}

/// Mostly few rows, now and then many.
pub fn draw_row_count(random: &mut Random) -> usize {
    let count = match random.below(40) {
        0 => ROWS as u32,
        1 => random.between(2, ROWS as u32),
        2..=9 => random.between(10, 60),
        10..=29 => random.between(3, 10),
        _ => 2,
    };
    count as usize
}

/// A table of so many rows, at least two.
pub fn draw(random: &mut Random, car_type: u32, rows: usize) -> Table {
    let steps = rows - 1;
    let (levels, capacities) = match random.below(8) {
        0..=3 => {
            let height = random.between(2_400, level::HIGHEST);
            let content = random.between(20_000, 140_000);
            (even(steps, height), cylinder(steps, content))
        }
        4 => {
            let content = steps as u32 + random.between(0, 40);
            (even(steps, level::HIGHEST), uneven(random, steps, content))
        }
        5 => {
            let height = steps as u32 + random.between(0, 10);
            (uneven(random, steps, height), even(steps, LARGEST))
        }
        6 => (uneven(random, steps, level::HIGHEST), uneven(random, steps, LARGEST)),
        _ => {
            let height = random.between(steps as u32, level::HIGHEST);
            let content = random.between(steps as u32, LARGEST);
            (uneven(random, steps, height), uneven(random, steps, content))
        }
    };
    let rows: Vec<Row> = levels
        .into_iter()
        .zip(capacities)
        .map(|(level, capacity)| Row { level, capacity })
        .collect();
    Table { car_type, announced: rows.len() as u32, rows }
}

/// Numbers from 0 to `top` in steps as equal as can be.
fn even(steps: usize, top: u32) -> Vec<u32> {
    (0..=steps).map(|step| (step as u64 * u64::from(top) / steps as u64) as u32).collect()
}

/// Numbers from 0 to `top` in random steps.
fn uneven(random: &mut Random, steps: usize, top: u32) -> Vec<u32> {
    let mut numbers = vec![0];
    let mut reached = 0;
    for left in (1..steps as u32).rev() {
        let room = top - reached - left;
        let step = random.between(1, (room / (left + 1) * 2).clamp(1, room));
        reached += step;
        numbers.push(reached);
    }
    numbers.push(top);
    numbers
}

/// Numbers from 0 to `top` that rise slowly at both ends, as in a lying cylinder.
fn cylinder(steps: usize, top: u32) -> Vec<u32> {
    let all = steps as u64;
    let mut before = None;
    (0..=all)
        .map(|step| {
            let curve = u64::from(top) * step * step * (3 * all - 2 * step) / (all * all * all);
            let number = before.map_or(0, |before: u64| curve.max(before + 1));
            before = Some(number);
            number as u32
        })
        .collect()
}
