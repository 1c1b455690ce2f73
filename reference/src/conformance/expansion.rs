//! B of every density field: cars of the largest volume at 90 °C, whose V15 tells B to the unit.

use super::rack::cars_on;
use super::tenths::{with_listings, Named};
use super::Case;
use crate::car::Car;
use crate::laboratory::{DENSEST, LIGHTEST};
use crate::train::CARS;

/// A table whose last row has the largest capacity, in dm³.
const TABLE: &str = "T 1 2\nR 0 0\nR 3600 200000";

pub fn cases() -> Vec<Case> {
    let densities: Vec<u32> = (LIGHTEST..=DENSEST).collect();
    with_listings(densities.chunks(CARS).map(sheet), include_str!("expansion.txt"))
}

/// A sheet with a car of each density.
fn sheet(densities: &[u32]) -> Named {
    let cars: Vec<Car> = densities.iter().copied().map(car).collect();
    let name = match densities {
        [first, .., last] => format!("expansion-{first}-to-{last}"),
        _ => format!("expansion-{}", densities[0]),
    };
    (name.leak(), cars_on(TABLE, &cars))
}

/// A full car of a density, with which its number ends. Grade, stick, water and impurities change from one
/// to the next.
fn car(density: u32) -> Car {
    Car {
        number: 40_000_000 + density,
        car_type: 1,
        grade: 3 + density % 2,
        stick: 1 + density / 2 % 2,
        given: 2,
        readings: [3_600, 3_600, 0, 0],
        water_level: 0,
        temperature: 900,
        density,
        water: density % 101,
        impurities: density % 51,
    }
}
