//! The sheet of the paper, its table and first car, and the figures on the rack card.

use super::text::columns;
use super::Case;
use crate::car::{Car, FIELDS};
use crate::sheet::Event;

/// The table of the paper's sheet.
pub const TABLE: &str = "
    T 1 4
    R 0 0
    R 1000 20000
    R 2000 50000
    R 3000 70000";

/// The first car of the paper's sheet.
pub const CAR: Car = Car {
    number: 50_000_001,
    car_type: 1,
    grade: 3,
    stick: 1,
    given: 2,
    readings: [1500, 1500, 0, 0],
    water_level: 0,
    temperature: 600,
    density: 9500,
    water: 50,
    impurities: 20,
};

/// What the sheet of the first car alone gives.
pub const LISTING: &str = "
    A 50000001 15000 3500000 3392515 32229 32003
    S 1 32229 32003
    G 1 0 0 0
    G 2 0 0 0
    G 3 1 32229 32003
    G 4 0 0 0";

/// What comes after the cars where none is accepted.
pub const NONE_ACCEPTED: &str = "
    S 0 0 0
    G 1 0 0 0
    G 2 0 0 0
    G 3 0 0 0
    G 4 0 0 0";

/// What comes after the cars where all that are accepted have the first car's grade.
pub fn totals(accepted: u32, gross: u32, net: u32) -> String {
    format!(
        "S {accepted} {gross} {net}
         G 1 0 0 0
         G 2 0 0 0
         G 3 {accepted} {gross} {net}
         G 4 0 0 0"
    )
}

/// The table and the first car: T on line 1, R on lines 2 to 5, C on line 6, E on line 7.
pub fn sheet() -> Vec<u8> {
    cars_on(TABLE, &[CAR])
}

/// A sheet of the given tables and cars.
pub fn cars_on(tables: &str, cars: &[Car]) -> Vec<u8> {
    let events: Vec<Event> = cars.iter().map(|car| Event::Enter(*car)).collect();
    events_on(tables, &events)
}

/// A sheet of the given tables, cars and strikes.
pub fn events_on(tables: &str, events: &[Event]) -> Vec<u8> {
    let mut text = String::from(tables);
    let mut cars = 0;
    for event in events {
        match event {
            Event::Enter(car) => {
                text.push_str("\nC");
                for number in <[u32; FIELDS]>::from(*car) {
                    text.push_str(&format!(" {number}"));
                }
                cars += 1;
            }
            Event::Strike(number) => text.push_str(&format!("\nK {number}")),
        }
    }
    text.push_str(&format!("\nE {cars}"));
    columns(&text)
}

/// Cars on the table of the paper's sheet, numbered from 1.
pub fn on_rack(cars: &[Car]) -> Vec<u8> {
    let numbers = 1..;
    let cars: Vec<Car> =
        cars.iter().zip(numbers).map(|(car, number)| Car { number, ..*car }).collect();
    cars_on(TABLE, &cars)
}

/// The same as a case.
pub fn numbered(name: &'static str, cars: &[Car], listing: &str) -> Case {
    Case::new(name, on_rack(cars), listing)
}

pub fn cases() -> Vec<Case> {
    let second = Car { number: 50_000_002, readings: [1500, 1501, 0, 0], water_level: 1501, ..CAR };
    vec![
        Case::new(
            "paper-sheet",
            cars_on(TABLE, &[CAR, second]),
            "A 50000001 15000 3500000 3392515 32229 32003
             X 50000002 17
             S 1 32229 32003
             G 1 0 0 0
             G 2 0 0 0
             G 3 1 32229 32003
             G 4 0 0 0",
        ),
        numbered(
            "card-levels",
            &[
                Car { given: 4, readings: [1500, 1504, 1501, 1502], ..CAR },
                Car { given: 4, readings: [1500, 1503, 1501, 1502], ..CAR },
                Car { readings: [1500, 1502, 0, 0], ..CAR },
                Car { readings: [1, 1, 0, 0], ..CAR },
                Car { readings: [3000, 3000, 0, 0], ..CAR },
                Car { readings: [3001, 3001, 0, 0], ..CAR },
            ],
            "A 1 15010 3503000 3395423 32257 32031
             A 2 15010 3503000 3395423 32257 32031
             X 3 15
             A 4 10 2000 1939 18 18
             A 5 30000 7000000 6785030 64458 64007
             X 6 16
             S 4 128990 128087
             G 1 0 0 0
             G 2 0 0 0
             G 3 4 128990 128087
             G 4 0 0 0",
        ),
        numbered(
            "card-temperature-density-water",
            &[
                Car { temperature: 399, ..CAR },
                Car { temperature: 400, ..CAR },
                Car { density: 8999, ..CAR },
                Car { density: 9901, ..CAR },
                Car { water: 101, ..CAR },
                Car { water: 100, ..CAR },
            ],
            "X 1 18
             A 2 15000 3500000 3440203 32682 32453
             X 3 19
             X 4 19
             X 5 20
             A 6 15000 3500000 3392515 32229 31842
             S 2 64911 64295
             G 1 0 0 0
             G 2 0 0 0
             G 3 2 64911 64295
             G 4 0 0 0",
        ),
        numbered(
            "card-density-at-20-of-grade-1",
            &[
                Car { grade: 1, density: 9584, water: 0, impurities: 0, ..CAR },
                Car { grade: 1, density: 9585, water: 0, impurities: 0, ..CAR },
            ],
            "A 1 15000 3500000 3393815 32526 32526
             X 2 21
             S 1 32526 32526
             G 1 1 32526 32526
             G 2 0 0 0
             G 3 0 0 0
             G 4 0 0 0",
        ),
    ]
}
