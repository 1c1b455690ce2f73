//! What keeps two sheets from being merged, and what only looks like it.

use super::super::cars;
use super::super::random::Random;
use super::super::tables::{self, Table};
use super::half::Half;
use crate::car::Car;
use crate::level;
use crate::sheet::Event;
use crate::table::{Row, ROWS, TABLES};
use crate::train::CARS;

/// The largest capacity, in dm³.
const LARGEST: u32 = 200_000;

/// A type of both sheets with rows that differ: in a level, in a capacity, in both, in their number or in
/// all.
pub fn rows(random: &mut Random, halves: &mut [Half; 2]) {
    let one = random.below(2);
    let table = halves[1 - one].tables[random.below(halves[1 - one].tables.len())].clone();
    let other = differing(random, &table);
    let tables = &mut halves[one].tables;
    match tables.iter().position(|own| own.car_type == table.car_type) {
        Some(place) => tables[place] = other,
        None if tables.len() < TABLES => tables.push(other),
        None => tables[random.below(TABLES)] = other,
    }
}

/// A sound table of the same type that differs.
fn differing(random: &mut Random, table: &Table) -> Table {
    let mut rows = table.rows.clone();
    let last = rows.len() - 1;
    let any = 1 + random.below(last);
    let place = random.pick(&[1, last, last, any]);
    match random.below(10) {
        0 | 1 => rows[place].level += 1,
        2 | 3 => rows[place].capacity += 1,
        // Alike in 8 or 16 bits.
        4 if random.one_in(2) => rows[place].level += 256,
        4 => rows[place].capacity += 256,
        5 => rows[last].capacity += 65_536,
        // Of the same sums.
        6 => {
            rows[place].level += 1;
            rows[any].level -= 1;
        }
        7 => {
            rows[place].capacity += 1;
            rows[random.pick(&[place, any])].level -= 1;
        }
        8 => return tables::draw(random, table.car_type, rows.len()),
        _ => {}
    }
    if rows == table.rows || !is_sound(&rows) {
        rows = longer_or_shorter(&table.rows);
    }
    Table { car_type: table.car_type, announced: rows.len() as u32, rows }
}

/// The rows with one more at the end, or where that passes a limit one less; of two rows
/// that have no room above them the second is lowered.
fn longer_or_shorter(rows: &[Row]) -> Vec<Row> {
    let last = rows.len() - 1;
    let Row { level, capacity } = rows[last];
    let longer = [rows, &[Row { level: level + 1, capacity: capacity + 1 }]].concat();
    match (is_sound(&longer), last) {
        (true, _) => longer,
        (false, 1) if level > 1 => vec![rows[0], Row { level: level - 1, capacity }],
        (false, 1) => vec![rows[0], Row { level, capacity: capacity - 1 }],
        (false, _) => rows[..last].to_vec(),
    }
}

/// Whether the rows of a table rise within their limits.
fn is_sound(rows: &[Row]) -> bool {
    let rises = |pair: &[Row]| pair[0].level < pair[1].level && pair[0].capacity < pair[1].capacity;
    let within = |row: &Row| row.level <= level::HIGHEST && row.capacity <= LARGEST;
    rows.len() <= ROWS && rows.windows(2).all(rises) && rows.iter().all(within)
}

/// A held car whose type is on the other sheet only.
pub fn unknown_type(random: &mut Random, halves: &mut [Half; 2]) {
    let one = random.below(2);
    let Some(car) = car_of_the_other(random, halves, one) else { return };
    halves[one].hold(random, car);
    if random.one_in(3) {
        // No sheet has its type.
        let car = Car { car_type: 10_000, ..halves[one].fresh_car(random) };
        halves[one].hold(random, car);
    }
}

/// A sound car but for its type, which only the other sheet has; where it has none, a table goes.
fn car_of_the_other(random: &mut Random, halves: &mut [Half; 2], one: usize) -> Option<Car> {
    if halves[one].lacking(&halves[1 - one]).is_empty() && halves[one].tables.len() > 1 {
        let place = random.below(halves[one].tables.len());
        halves[one].tables.remove(place);
    }
    let types = halves[one].lacking(&halves[1 - one]);
    let car = halves[one].fresh_car(random);
    (!types.is_empty()).then(|| Car { car_type: random.pick(&types), ..car })
}

/// A car number that both sheets hold, be the car accepted or refused.
pub fn number_twice(random: &mut Random, halves: &mut [Half; 2]) {
    let one = random.below(2);
    let held = &halves[1 - one].history.held;
    let number = if held.is_empty() || random.one_in(2) {
        let number = halves[1 - one].fresh_car(random).number;
        hold_any(random, &mut halves[1 - one], number);
        number
    } else {
        random.pick(held)
    };
    hold_any(random, &mut halves[one], number);
    if random.one_in(2) {
        for half in halves {
            let car = half.fresh_car(random);
            half.hold(random, car);
        }
    }
}

/// Enters a car with a number, accepted or refused, so that it is held.
fn hold_any(random: &mut Random, half: &mut Half, number: u32) {
    let mut car = cars::draw(random, &half.tables);
    if random.one_in(2) {
        cars::spoil(random, &mut car, &half.tables, &[]);
    }
    half.hold(random, Car { number, ..car });
}

/// A number that one sheet holds and that is nearly one of the other's, in its last bits or digits.
pub fn nearly_the_number(random: &mut Random, halves: &mut [Half; 2]) {
    let [first, second] = halves.each_ref().map(|half| half.history.held.as_slice());
    if first.is_empty() || second.is_empty() {
        return;
    }
    let by = random.pick(&[1, 256, 1 << 16, 1 << 24, 10_000_000]);
    let (old, new) = (random.pick(second), random.pick(first) + by);
    let is_free = !halves.iter().any(|half| half.history.names(new));
    if new <= 99_999_999 && is_free {
        halves[1].history.renumber(old, new);
    }
}

/// A car of one sheet that has the other's line but for the number, if both have its type or neither.
pub fn nearly_the_line(random: &mut Random, halves: &mut [Half; 2]) {
    let one = random.below(2);
    let lines = halves[1 - one].history.events.iter();
    let cars = lines.filter_map(|event| match event {
        Event::Enter(car) => Some(*car),
        Event::Strike(_) => None,
    });
    let [own, other] = [&halves[one], &halves[1 - one]];
    let cars: Vec<Car> =
        cars.filter(|car| own.has(car.car_type) == other.has(car.car_type)).collect();
    let number = own.fresh_car(random).number;
    let held = own.history.held.len() + other.history.held.len();
    if !cars.is_empty() && !other.history.names(number) && held < CARS {
        let car = Car { number, ..random.pick(&cars) };
        halves[one].hold(random, car);
    }
}

/// A line that vanishes and would turn the merge away if it did not: a car of the other sheet's type that
/// is struck, typed twice or without a number, or a number that the other sheet holds and this one does
/// not any more.
pub fn vanishing(random: &mut Random, halves: &mut [Half; 2]) {
    let one = random.below(2);
    let types = halves[one].lacking(&halves[1 - one]);
    let mut car = halves[one].fresh_car(random);
    if !types.is_empty() && random.one_in(2) {
        car.car_type = random.pick(&types);
    } else if !halves[1 - one].history.held.is_empty() {
        car.number = random.pick(&halves[1 - one].history.held);
    }
    let history = &mut halves[one].history;
    match random.below(4) {
        0 if !history.held.is_empty() => car.number = random.pick(&history.held),
        1 => car.number = 0,
        _ => {}
    }
    let is_held = history.held.contains(&car.number);
    history.enter(car);
    if !is_held && history.held.contains(&car.number) {
        history.strike(car.number);
    }
}

/// A number that one sheet has and does not hold any more is held by the other.
pub fn vanished_number(random: &mut Random, halves: &mut [Half; 2]) {
    let one = random.below(2);
    let vanished = halves[1 - one].vanished();
    if vanished.is_empty() || halves[one].history.held.is_empty() {
        return;
    }
    let (old, new) = (random.pick(&halves[one].history.held), random.pick(&vanished));
    if !halves[one].history.names(new) {
        halves[one].history.renumber(old, new);
    }
}
