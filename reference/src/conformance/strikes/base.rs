//! Sheets that try other points, with strikes put between their cars.

use super::super::tenths::Named;
use super::super::text::columns;
use super::super::Case;
use super::super::{
    cars, each_car, figures, halves, order, rack, repeats, sizes, sources, tenths, totals,
};
use super::named;

/// The sheets that strikes are put in.
const SHEETS: [&str; 18] = [
    "paper-sheet",
    "card-levels",
    "card-temperature-density-water",
    "source-cylinder-of-31-rows",
    "accepted-four-tables-in-any-order",
    "accepted-levels-by-tenths-around-rows",
    "accepted-numbers-that-are-nearly-alike",
    "refusal-10-car-number-0",
    "refusal-11-three-times",
    "refusal-11-numbers-of-cars-refused-by-12-to-21",
    "refusal-16-to-21-of-grade-1",
    "refusal-16-to-21-of-grade-4",
    "order-each-car-with-one-fault-less",
    "totals-of-grades-in-mixed-order",
    "totals-without-cars-refused-by-10-and-11",
    "figures-of-sixty-cars-1",
    "figures-of-sixty-cars-8",
    "figures-at-halves-1",
];

pub fn cases() -> Vec<Case> {
    let others: Vec<Case> = [
        rack::cases(),
        sources::cases(),
        sizes::cases(),
        tenths::cases(),
        repeats::cases(),
        cars::cases(),
        each_car::cases(),
        order::cases(),
        totals::cases(),
        figures::cases(),
        halves::cases(),
    ]
    .into_iter()
    .flatten()
    .collect();
    let with_strikes = |name: &str| -> Named {
        let case = others.iter().find(|case| case.name == name).expect("a sheet of the kit");
        (format!("strike-in-{name}").leak(), with_strikes(&case.sheet))
    };
    named(SHEETS.into_iter().map(with_strikes).collect(), include_str!("base.txt"))
}

/// The sheet with strikes between its C lines: behind every second the number of that before, behind
/// every fifth the number of the one three before, which may be struck already.
fn with_strikes(sheet: &[u8]) -> Vec<u8> {
    let text = String::from_utf8(sheet.to_vec()).expect("a sheet of ASCII");
    let mut numbers: Vec<&str> = Vec::new();
    let mut set = String::new();
    for line in text.lines() {
        set.push_str(&format!("{line}\n"));
        if !line.starts_with('C') {
            continue;
        }
        numbers.push(line[1..10].trim_start());
        let cars = numbers.len();
        for (every, before) in [(2, 1), (5, 3)] {
            if cars % every == 0 {
                set.push_str(&format!("K {}\n", numbers[cars - 1 - before]));
            }
        }
    }
    columns(&set)
}
