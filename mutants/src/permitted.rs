//! The permitted error of a car as the reference and its rewritten copy answer it.

use reference::car::{Car, FIELDS};
use reference::conformance::vectors::{self, permitted::Vector};
use reference::permitted::{Errors, PermittedError, ERRORS};
use reference::refusal::Refusal;

use crate::draw::Draw;
use crate::hooks;
use crate::tables;
use crate::turned;

/// What a caller sees: the figures, the limit and whether it is within, or the refusal.
macro_rules! seen {
    ($answer:expr) => {
        match $answer {
            Ok(permitted) => {
                format!("{:?} {} {}", permitted.figures, permitted.limit, permitted.within)
            }
            Err(refusal) => refusal.number().to_string(),
        }
        .into_bytes()
    };
}

pub fn shown(answer: Result<PermittedError, Refusal>) -> Vec<u8> {
    seen!(answer)
}

pub fn shown_turned(answer: Turned) -> Vec<u8> {
    seen!(answer)
}

pub fn right(vector: &Vector) -> Vec<u8> {
    shown(vector.work_out())
}

pub fn turned(vector: &Vector) -> Vec<u8> {
    shown_turned(hooks::reordered(|| work_out(vector)))
}

/// What the rewritten copy answers.
type Turned = Result<turned::permitted::PermittedError, turned::refusal::Refusal>;

fn work_out(vector: &Vector) -> Turned {
    let tables = tables::turned(&vector.tables)?;
    let car = turned::car::Car::from(<[u32; FIELDS]>::from(vector.car));
    let errors = turned::permitted::Errors::from(<[u32; ERRORS]>::from(vector.errors));
    turned::permitted::work_out(&car, &tables, &errors)
}

/// Vectors of the kit with level, temperature, density and errors by lot, one in four with numbers past 32 bits.
pub fn drawn(count: u64) -> impl Iterator<Item = Vector> {
    let kit = vectors::all::<Vector>();
    (0..count).map(move |seed| {
        let mut vector = kit[seed as usize % kit.len()].clone();
        let mut draw = Draw::new(seed);
        vector.name = format!("vector by lot {seed}");
        let level = draw.between(1, 3_600);
        vector.car.readings = [level, level - draw.between(0, 1), 0, 0];
        vector.car.given = 2;
        vector.car.temperature = draw.between(400, 900);
        vector.car.density = draw.between(9_000, 9_900);
        vector.errors = draw_errors(&mut draw);
        if draw.between(0, 3) == 0 {
            pass_32_bits(&mut vector.car, &mut draw);
        }
        vector
    })
}

/// Errors by lot, now and then one that is out of its range.
pub fn draw_errors(draw: &mut Draw) -> Errors {
    let highest = [10_000, 10_000, 10_000, 20, 20, 100];
    Errors::from(highest.map(|highest| {
        let top = [0, highest / 10, highest, highest + 1][draw.between(0, 3) as usize];
        draw.between(0, top)
    }))
}

/// Makes the water level or the readings so large that ten times them, ten times the readings' sum or twice
/// that is small where it is held in 32 bits; of readings, one time in two three of four are used.
fn pass_32_bits(car: &mut Car, draw: &mut Draw) {
    let place = draw.between(0, 3) as usize;
    if place == 3 {
        car.water_level = 429_496_730 + draw.between(0, car.readings[0]);
        return;
    }
    let low = car.readings[1];
    if draw.between(0, 1) == 0 {
        car.given = 4;
        car.readings = [low, low + 2, low + 1, low + 1]
            .map(|reading| reading + [429_496_730, 143_165_577, 71_582_789][place]);
    } else {
        let more = [429_496_730, 214_748_365, 107_374_183][place];
        car.readings = [low + more, car.readings[0] + more, 0, 0];
    }
}
