//! A probe's readings, sets and cars by lot.

use reference::conformance::vectors::{self, probe, probe_car, probe_error, probe_train};
use reference::operations::HandedIn;
use reference::probe::{ProbeCar, Reading, Set};

use crate::draw::Draw;
use crate::probe::Asked;
use crate::{permitted, train};

/// So many readings or sets, and as many cars alone, entered in trains and with errors.
pub fn drawn(count: u64) -> impl Iterator<Item = Asked> {
    let kit = vectors::all::<probe_car::Vector>();
    (0..count).flat_map(move |seed| {
        let kit = &kit[seed as usize % kit.len()];
        let mut draw = Draw::new(seed);
        let draw = &mut draw;
        [
            tenths(draw, seed),
            Asked::Car(draw_car(draw, kit, seed)),
            entered(draw, kit, seed),
            with_error(draw, kit, seed),
        ]
    })
}

fn tenths(draw: &mut Draw, seed: u64) -> Asked {
    let number = float(draw);
    let asked = match draw.between(0, 3) {
        0 => probe::Asked::One(Reading::Level(number)),
        1 => probe::Asked::One(Reading::Temperature(number)),
        2 => probe::Asked::One(Reading::Density(number)),
        _ => {
            let set = Set { level: number, temperature: float(draw), density: float(draw) };
            probe::Asked::Three(set)
        }
    };
    Asked::Tenths(probe::Vector { name: format!("by lot {seed}"), asked })
}

fn entered(draw: &mut Draw, kit: &probe_car::Vector, seed: u64) -> Asked {
    let train = train::draw_handed_in(draw);
    let probe_car::Vector { name, tables, mut car } = draw_car(draw, kit, seed);
    if draw.between(0, 3) == 0 {
        car.number = draw.between(0, 200);
    }
    Asked::Train(Box::new(probe_train::Vector { name, train, tables, car }))
}

fn with_error(draw: &mut Draw, kit: &probe_car::Vector, seed: u64) -> Asked {
    let probe_car::Vector { name, tables, car } = draw_car(draw, kit, seed);
    Asked::Error(probe_error::Vector { name, tables, car, errors: permitted::draw_errors(draw) })
}

/// A car of the kit with a set by lot, most of it near bounds of its table and its grade, now and then with
/// another water level, or with a number of the probe that is any.
fn draw_car(draw: &mut Draw, kit: &probe_car::Vector, seed: u64) -> probe_car::Vector {
    let mut vector = kit.clone();
    vector.name = format!("by lot {seed}");
    let car = &mut vector.car;
    if draw.between(0, 3) == 0 {
        car.water_level = a_level(draw, &vector.tables, car.car_type);
    }
    car.set = Set {
        level: level(draw, &vector.tables, car),
        temperature: near(draw, &[2_000, 4_000, 9_000], 4_000, 9_000),
        density: near(draw, &[90_000, 95_845, 96_345, 99_000], 90_000, 99_000),
    };
    if draw.between(0, 3) == 0 {
        let any = float(draw);
        match draw.between(0, 2) {
            0 => car.set.level = any,
            1 => car.set.temperature = any,
            _ => car.set.density = any,
        }
    }
    vector
}

/// The level of a row of the car's table, in mm.
fn a_level(draw: &mut Draw, tables: &[HandedIn], car_type: u32) -> u32 {
    let table = tables.iter().find(|table| table.car_type == car_type);
    let rows = table.map_or(&[][..], |table| &table.rows);
    match rows.len() {
        0 => draw.between(0, 3_600),
        count => rows[draw.between(1, count as u32) as usize - 1].level.min(3_700),
    }
}

/// A level near a row or the water, or any that the table may reach.
fn level(draw: &mut Draw, tables: &[HandedIn], car: &ProbeCar) -> f32 {
    let row = 100 * a_level(draw, tables, car.car_type);
    let water = 100 * car.water_level.min(3_700);
    near(draw, &[row, water], 0, 360_000)
}

/// A float near one of some numbers of hundredths, or between two.
fn near(draw: &mut Draw, some: &[u32], low: u32, high: u32) -> f32 {
    let hundredths = match draw.between(0, 2) {
        0 => draw.between(low, high),
        _ => some[draw.between(1, some.len() as u32) as usize - 1] + draw.between(0, 30),
    };
    beside(draw, (f64::from(hundredths.saturating_sub(15)) / 100.0) as f32)
}

/// A float or one of its neighbours, above or at 0.
fn beside(draw: &mut Draw, float: f32) -> f32 {
    f32::from_bits((float.to_bits() + draw.between(0, 2)).saturating_sub(1))
}

/// Any float: of every exponent, a half of a tenth, a decimal half, near the largest, below 0 or none.
fn float(draw: &mut Draw) -> f32 {
    match draw.between(0, 6) {
        0 => f32::from_bits(draw.between(0, u32::MAX - 1)),
        1 => of_exponent(draw),
        2 => {
            let highest = 1 << draw.between(2, 24);
            let quarters = draw.between(0, highest);
            beside(draw, quarters as f32 / 4.0)
        }
        3 => {
            let highest = 10 << draw.between(0, 22);
            let tenths = draw.between(0, highest);
            beside(draw, ((f64::from(tenths) + 0.5) / 10.0) as f32)
        }
        4 => f32::from_bits(10_000_000.0_f32.to_bits() + draw.between(0, 8) - 4),
        5 => odd(draw),
        _ => -near(draw, &[0, 5, 10], 0, 100_000),
    }
}

/// A float of any exponent, with the first, the last or any significand, one time in four below 0.
fn of_exponent(draw: &mut Draw) -> f32 {
    let last = [0, 1, 0x40_0000, 0x7f_ffff, draw.between(0, 0x7f_ffff)];
    let last = last[draw.between(0, 4) as usize];
    let sign = u32::from(draw.between(0, 3) == 0) << 31;
    f32::from_bits(sign | draw.between(0, 255) << 23 | last)
}

fn odd(draw: &mut Draw) -> f32 {
    let odd = [0.0, -0.0, f32::INFINITY, f32::NEG_INFINITY, f32::NAN, -f32::NAN, f32::MAX, 1e-45];
    odd[draw.between(0, odd.len() as u32 - 1) as usize]
}
