//! Refusal 33 by a type that has different rows on the two sheets, also where no car uses it.

use super::super::rack::events_on;
use super::{car, cars, sheet, table, Pair};

pub fn pairs() -> Vec<Pair> {
    [differences(), sums_and_bits(), places(), unused()].into_iter().flatten().collect()
}

/// The rows of type 1 on the first sheet.
const ROWS: &str = "R 0 0\nR 1000 20000\nR 2000 50000\nR 3000 90000\n";

fn of(car_type: u32, rows: &str) -> String {
    format!("T {car_type} {}\n{rows}", rows.lines().count())
}

/// The same type with other rows on the second sheet.
fn differing(name: &str, rows: &str) -> Pair {
    let name = format!("refusal-33-{name}");
    Pair::new(name, events_on(&of(1, ROWS), &cars([7])), events_on(&of(1, rows), &cars([8])))
}

fn differences() -> Vec<Pair> {
    let but = |old: &str, new: &str| ROWS.replace(old, new);
    vec![
        differing("level-of-the-last-row", &but("R 3000 90000", "R 3001 90000")),
        differing("capacity-of-the-last-row", &but("R 3000 90000", "R 3000 90001")),
        differing("level-and-capacity-of-the-last-row", &but("R 3000 90000", "R 3001 90001")),
        differing("level-of-the-second-row", &but("R 1000 20000", "R 999 20000")),
        differing("capacity-of-the-second-row", &but("R 1000 20000", "R 1000 19999")),
        differing("level-of-a-middle-row", &but("R 2000 50000", "R 2001 50000")),
        differing("capacity-of-a-middle-row", &but("R 2000 50000", "R 2000 49999")),
        differing("a-row-more-at-the-end", &format!("{ROWS}R 3001 90001\n")),
        differing("a-row-less-at-the-end", &but("R 3000 90000\n", "")),
        differing("a-row-more-on-the-same-line", &but("R 3000", "R 2500 70000\nR 3000")),
        differing("a-row-less-on-the-same-line", "R 0 0\nR 1000 20000\nR 3000 90000\n"),
        differing("all-levels", "R 0 0\nR 100 20000\nR 200 50000\nR 300 90000\n"),
        differing("all-capacities", "R 0 0\nR 1000 2\nR 2000 5\nR 3000 9\n"),
        differing("two-rows-and-four", "R 0 0\nR 3000 90000\n"),
    ]
}

/// Rows that agree where they are added up, or where bits are cut off.
fn sums_and_bits() -> Vec<Pair> {
    vec![
        differing(
            "levels-of-the-same-sum",
            &ROWS.replace("R 1000", "R 1001").replace("R 2000", "R 1999"),
        ),
        differing(
            "capacities-of-the-same-sum",
            &ROWS.replace("20000", "20001").replace("50000", "49999"),
        ),
        differing(
            "level-and-capacity-exchanged-in-a-unit",
            &ROWS.replace("R 1000 20000", "R 1001 19999"),
        ),
        differing("level-alike-in-8-bits", &ROWS.replace("R 2000", "R 2256")),
        differing("capacity-alike-in-8-bits", &ROWS.replace("50000", "50256")),
        differing("capacity-alike-in-16-bits", &ROWS.replace("90000", "155536")),
    ]
}

/// The type stands anywhere among the tables.
fn places() -> Vec<Pair> {
    let other = |car_type: u32| table(car_type).replace("R 3000", "R 3001");
    let one = |name: &str, first: String, second: String| {
        let name = format!("refusal-33-{name}");
        let used = |tables: &str| tables[2..].split(' ').next().and_then(|word| word.parse().ok());
        let cars = |tables: &str, number| [car(number, used(tables).unwrap_or(1), 900)];
        Pair::new(name, events_on(&first, &cars(&first, 7)), events_on(&second, &cars(&second, 8)))
    };
    let all = |types: &[u32]| -> String { types.iter().map(|&of| table(of)).collect() };
    vec![
        one("the-first-of-four", all(&[1, 2, 3, 4]), other(1) + &all(&[2, 3, 4])),
        one("the-second-of-four", all(&[1, 2, 3, 4]), all(&[1]) + &other(2) + &all(&[3, 4])),
        one("the-third-of-four", all(&[1, 2, 3, 4]), all(&[1, 2]) + &other(3) + &all(&[4])),
        one("the-last-of-four", all(&[1, 2, 3, 4]), all(&[1, 2, 3]) + &other(4)),
        one("in-another-order", all(&[4, 2]), all(&[1]) + &other(4) + &all(&[2])),
        one("the-higher-of-two-in-common", all(&[9, 2]), all(&[2]) + &other(9)),
        one("the-lower-of-two-in-common", all(&[9, 2]), all(&[9]) + &other(2)),
        one("on-the-first", other(3), all(&[1, 2, 3])),
    ]
}

/// No car has the type, on one sheet or on both.
fn unused() -> Vec<Pair> {
    let other = table(2).replace("R 1000", "R 1001");
    let on_first = |events| events_on(&format!("{}{}", table(1), table(2)), events);
    let on_second = |events| events_on(&format!("{other}{}", table(1)), events);
    let new = |name: &str, first, second| Pair::new(format!("refusal-33-{name}"), first, second);
    vec![
        new("unused-on-both", on_first(&cars([7])), on_second(&cars([8]))),
        new("unused-on-the-first", on_first(&cars([7])), on_second(&[car(8, 2, 900)])),
        new("unused-on-the-second", on_first(&[car(7, 2, 900)]), on_second(&cars([8]))),
        new("and-no-cars", sheet(&[2], &[]), events_on(&other, &[])),
        new(
            "of-a-type-whose-cars-are-struck",
            on_first(&[car(7, 2, 900), super::Event::Strike(7)]),
            on_second(&cars([8])),
        ),
    ]
}
