//! Sheets that are merged sheets already: tables and cars rise, and nothing on them vanishes.

use super::{car, cars, sheet, wrong, Pair};
use crate::sheet::Event;

pub fn pairs() -> Vec<Pair> {
    let merged: Vec<Event> = vec![car(3, 1, 900), car(4, 2, 600), wrong(7), car(9, 77, 1500)];
    let on = || sheet(&[1, 2, 5], &merged);
    let sixty = || sheet(&[1, 2], &cars(1..=60));
    vec![
        Pair::new("again-with-its-first-table-and-no-cars", on(), sheet(&[1], &[])),
        Pair::new("again-with-its-last-table-and-no-cars", on(), sheet(&[5], &[])),
        Pair::new("again-with-all-its-tables-and-no-cars", on(), sheet(&[5, 1, 2], &[])),
        Pair::new("again-the-sheet-without-cars-first", sheet(&[2], &[]), on()),
        Pair::new(
            "again-with-a-third-sheet",
            on(),
            sheet(&[2, 3], &[car(8, 3, 900), car(1, 2, 300)]),
        ),
        Pair::new("again-with-sixty-cars", sixty(), sheet(&[2], &[])),
        Pair::new("refusal-34-again-with-the-same-sheet", on(), on()),
        Pair::new(
            "again-without-cars-and-the-same-sheet",
            sheet(&[1, 2], &[]),
            sheet(&[1, 2], &[]),
        ),
    ]
}
