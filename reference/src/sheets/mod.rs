//! Test sheets: one for every seed, of all sizes and kinds, sound and damaged.

mod cars;
mod damage;
mod draft;
mod history;
mod pairs;
pub(crate) mod random;
mod readings;
mod rules;
mod tables;

use std::sync::OnceLock;

use crate::car::Car;
use crate::conformance;
use crate::sheet::{Event, SHEET_BYTES};
use crate::train::CARS;
use draft::Draft;
use history::History;
pub use pairs::{full_pair, fullest_pair, pair};
use random::Random;
use tables::Table;

/// The sheet of a seed. Equal seeds give equal sheets.
///
/// Three in ten are whole, with accepted and refused cars; the others bend one rule for whole
/// sheets at its bounds, on one side or the other, or have damaged bytes or lines, which does
/// not turn away every one of them. One in ten is a conformance sheet, as it is or damaged. A
/// third of the others have strikes.
pub fn sheet(seed: u64) -> Vec<u8> {
    let mut random = Random::new(seed);
    match random.below(200) {
        0 => {
            let size = random.pick(&[draft::FULL, draft::FULLEST]);
            return draw(&mut random, size).write();
        }
        1 => return near_the_longest(&mut random),
        2 => return damage::noise(&mut random),
        3..=22 => return of_the_kit(&mut random),
        _ => {}
    }
    let size = draft::Size::draw(&mut random);
    let mut draft = draw(&mut random, size);
    match random.below(10) {
        0..=2 => draft.write(),
        3 | 4 => {
            rules::bend(&mut random, &mut draft);
            draft.write()
        }
        5 => {
            rules::bend(&mut random, &mut draft);
            damage::damage(&mut random, draft.write())
        }
        _ => damage::damage(&mut random, draft.write()),
    }
}

/// A small conformance sheet, as it is, with its cars and strikes in another order, or damaged.
fn of_the_kit(random: &mut Random) -> Vec<u8> {
    static SHEETS: OnceLock<Vec<Vec<u8>>> = OnceLock::new();
    let sheets = SHEETS.get_or_init(|| {
        let cases = conformance::cases().into_iter().map(|case| case.sheet);
        cases.filter(|sheet| sheet.len() < 10_000).collect()
    });
    let sheet = sheets[random.below(sheets.len())].clone();
    match random.below(4) {
        0 => sheet,
        1 => damage::damage_one_field(random, sheet),
        2 => damage::shuffle_history(random, &sheet),
        _ => damage::damage(random, sheet),
    }
}

/// A sheet of 39,771 bytes: four tables of 400 rows and sixty cars that are accepted.
pub fn full_sheet(seed: u64) -> Vec<u8> {
    let mut random = Random::new(seed);
    let mut draft = Draft::draw_tables(&mut random, draft::FULL);
    for number in 1..=draft::FULL.cars {
        let car = draw_sound(&mut random, &draft.tables, 50_000_000 + number as u32);
        draft.events.push(Event::Enter(car));
    }
    draft.write()
}

/// A sheet of the greatest length, 48,111 bytes: four tables of 400 rows, sixty cars, then sixty strikes,
/// each with a car behind it that takes the free place and half of the time the number too. All 120
/// cars are accepted and all strikes are done.
pub fn fullest_sheet(seed: u64) -> Vec<u8> {
    let mut random = Random::new(seed);
    let mut draft = Draft::draw_tables(&mut random, draft::FULLEST);
    let mut history = History::default();
    for place in 1..=draft::FULLEST.cars {
        let mut number = 50_000_000 + place as u32;
        if place > CARS {
            let struck = history.strike_any(&mut random);
            number = random.pick(&[number, struck]);
        }
        history.enter(draw_sound(&mut random, &draft.tables, number));
    }
    draft.events = history.events;
    draft.write()
}

/// A car with this number that is accepted.
fn draw_sound(random: &mut Random, tables: &[Table], number: u32) -> Car {
    let car = cars::draw(random, tables);
    Car { number, density: car.density.min(9_500), ..car }
}

/// A draft with cars and strikes of all kinds.
fn draw(random: &mut Random, size: draft::Size) -> Draft {
    let mut draft = Draft::draw_tables(random, size);
    draft.events = History::draw(random, &draft.tables, size.cars, size.strikes).events;
    draft
}

/// Bytes after the last line that bring a sheet to the greatest length, or just past it.
fn near_the_longest(random: &mut Random) -> Vec<u8> {
    let size = draft::Size::draw(random);
    let mut sheet = draw(random, size).write();
    let length = random.pick(&[SHEET_BYTES - 1, SHEET_BYTES, SHEET_BYTES + 1, SHEET_BYTES + 1_000]);
    let filling = random.pick(b" \n0E");
    sheet.resize(length.max(sheet.len()), filling);
    sheet
}
