//! Bending one rule for whole sheets at its bounds, just inside or just outside.

use super::cars;
use super::draft::Draft;
use super::random::Random;
use super::tables::{self, Table};
use crate::sheet::{Event, CAR_LINES, STRIKE_LINES};
use crate::table::{Row, ROWS};
use crate::train::CARS;

/// Bends one rule.
pub fn bend(random: &mut Random, draft: &mut Draft) {
    let place = random.below(draft.tables.len());
    match random.below(18) {
        0 => draft.tables[place].car_type = random.pick(&[0, 1, 9_999, 10_000, 99_999_999]),
        1 => draft.tables[place].car_type = draft.tables[random.below(draft.tables.len())].car_type,
        2 => draft.tables[place].announced = random.pick(&[0, 1, 2, 400, 401, 99_999_999]),
        3 => resize(random, &mut draft.tables[place]),
        4 => add_table(random, draft),
        5 => draft.tables[place].rows[0] = random.pick(&[row(0, 1), row(1, 0), row(1, 1)]),
        6..=8 => bend_order(random, &mut draft.tables[place]),
        9 | 10 => bend_limit(random, &mut draft.tables[place]),
        11 => drop_or_add_row(random, &mut draft.tables[place]),
        12 | 13 => fill_with_cars(random, draft),
        14 | 15 => fill_with_strikes(random, draft),
        16 => draft.end = Some(random.pick(&[0, 1, 60, 61, 120, 121, 99_999_999])),
        _ => {
            let cars = draft.cars() as u32;
            let with_strikes = draft.events.len() as u32;
            draft.end = Some(random.pick(&[cars.saturating_sub(1), cars, cars + 1, with_strikes]));
        }
    }
}

fn row(level: u32, capacity: u32) -> Row {
    Row { level, capacity }
}

/// One or 401 rows, and 2 or 400, all announced.
fn resize(random: &mut Random, table: &mut Table) {
    let rows = random.pick(&[1, 2, ROWS, ROWS + 1]);
    let drawn = tables::draw(random, table.car_type, rows.max(2));
    *table = drawn;
    table.rows.truncate(rows);
    table.announced = rows as u32;
}

/// Further tables, so that there are four or five.
fn add_table(random: &mut Random, draft: &mut Draft) {
    let count = random.pick(&[4, 5]);
    for car_type in 200.. {
        if draft.tables.len() == count {
            break;
        }
        if draft.tables.iter().all(|table| table.car_type != car_type) {
            draft.tables.push(tables::draw(random, car_type, 2));
        }
    }
}

/// A later row that does not exceed the row before in one number or both, or barely does.
fn bend_order(random: &mut Random, table: &mut Table) {
    let last = table.rows.len() - 1;
    let place = if random.one_in(3) { last } else { 1 + random.below(last) };
    let before = table.rows[place - 1];
    let bent = &mut table.rows[place];
    let steps = [before.level.saturating_sub(1), before.level, before.level + 1];
    match random.below(3) {
        0 => bent.level = random.pick(&steps),
        1 => {
            bent.capacity = random.pick(&[
                before.capacity.saturating_sub(1),
                before.capacity,
                before.capacity + 1,
            ]);
        }
        _ => *bent = before,
    }
}

/// A last row at the limits of level and capacity, or past one of them.
fn bend_limit(random: &mut Random, table: &mut Table) {
    if let Some(last) = table.rows.last_mut() {
        match random.below(3) {
            0 => last.level = random.pick(&[3_600, 3_601, 99_999_999]),
            1 => last.capacity = random.pick(&[200_000, 200_001, 99_999_999]),
            _ => *last = random.pick(&[row(3_600, 200_000), row(3_601, 200_001)]),
        }
    }
}

/// One row less or more than announced.
fn drop_or_add_row(random: &mut Random, table: &mut Table) {
    if random.one_in(2) {
        table.rows.pop();
    } else if let Some(last) = table.rows.last().copied() {
        table.rows.push(row(last.level + 1, last.capacity + 1));
    }
}

/// As many cars as a train or a sheet takes, or one more.
fn fill_with_cars(random: &mut Random, draft: &mut Draft) {
    let count = random.pick(&[CARS, CAR_LINES]) + random.below(2);
    for _ in draft.cars()..count {
        draft.events.push(Event::Enter(cars::draw(random, &draft.tables)));
    }
}

/// As many strikes as a sheet takes, or one more, anywhere among the cars.
fn fill_with_strikes(random: &mut Random, draft: &mut Draft) {
    let count = STRIKE_LINES + random.below(2);
    for _ in draft.events.len() - draft.cars()..count {
        let place = random.below(draft.events.len() + 1);
        let number = match draft.events[..place].last() {
            Some(Event::Enter(car)) => car.number,
            Some(Event::Strike(number)) if random.one_in(2) => *number,
            _ => cars::draw_number(random),
        };
        draft.events.insert(place, Event::Strike(number));
    }
}
