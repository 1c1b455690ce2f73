//! Sheets of all sizes: none, few, sixty and 120 cars, one to five tables, the longest sheet and longer.

use super::rack::{self, cars_on, events_on, totals, CAR, NONE_ACCEPTED, TABLE};
use super::text::columns;
use super::Case;
use crate::car::Car;
use crate::sheet::Event::{self, Enter, Strike};

const FOUR_TABLES: &str = "
    T 4 2
    R 0 0
    R 3000 60000
    T 9999 3
    R 0 0
    R 1000 10000
    R 3600 200000
    T 1 2
    R 0 0
    R 1 1
    T 62 2
    R 0 0
    R 2810 70865";

pub fn cases() -> Vec<Case> {
    let sixty = sixty_cars();
    let mut sixty_one = sixty.clone();
    sixty_one.push(Car { number: 61, ..CAR });

    let tables = format!("{TABLE}\n{FOUR_TABLES}").replace("T 1 2", "T 5 2");
    let longest = events_on(&full_tables(), &sixty_and_sixty_more());
    let one_byte_more = [longest.as_slice(), b"\n"].concat();

    vec![
        Case::new("accepted-no-cars", cars_on(TABLE, &[]), NONE_ACCEPTED),
        Case::new("accepted-one-car", rack::sheet(), rack::LISTING),
        Case::new("accepted-smallest-table", columns("T 1 2\nR 0 0\nR 1 1\nE 0"), NONE_ACCEPTED),
        Case::new(
            "accepted-four-tables-in-any-order",
            cars_on(
                FOUR_TABLES,
                &[
                    Car { number: 1, car_type: 1, readings: [1, 1, 0, 0], ..CAR },
                    Car { number: 2, car_type: 4, ..CAR },
                    Car { number: 3, car_type: 62, ..CAR },
                    Car { number: 4, car_type: 9999, ..CAR },
                    Car { number: 5, car_type: 2, ..CAR },
                ],
            ),
            "A 1 10 100 97 1 1
             A 2 15000 3000000 2907870 27625 27432
             A 3 15000 3782829 3666658 34833 34589
             A 4 15000 4653846 4510926 42854 42554
             X 5 12
             S 4 105313 104576
             G 1 0 0 0
             G 2 0 0 0
             G 3 4 105313 104576
             G 4 0 0 0",
        ),
        Case::new(
            "accepted-last-car-uses-first-table",
            cars_on(
                &format!("{TABLE}\nT 2 2\nR 0 0\nR 3000 60000"),
                &[Car { car_type: 2, number: 1, ..CAR }, Car { number: 2, ..CAR }],
            ),
            "A 1 15000 3000000 2907870 27625 27432
             A 2 15000 3500000 3392515 32229 32003
             S 2 59854 59435
             G 1 0 0 0
             G 2 0 0 0
             G 3 2 59854 59435
             G 4 0 0 0",
        ),
        Case::new(
            "accepted-same-tables-in-another-order",
            cars_on(
                &format!("T 2 2\nR 0 0\nR 3000 60000\n{TABLE}"),
                &[Car { car_type: 2, number: 1, ..CAR }, Car { number: 2, ..CAR }],
            ),
            "A 1 15000 3000000 2907870 27625 27432
             A 2 15000 3500000 3392515 32229 32003
             S 2 59854 59435
             G 1 0 0 0
             G 2 0 0 0
             G 3 2 59854 59435
             G 4 0 0 0",
        ),
        Case::new("refusal-07-fifth-table", cars_on(&tables, &[CAR]), "Z 16 7"),
        Case::new(
            "accepted-sixty-cars",
            cars_on(TABLE, &sixty),
            &sixty_lines("15000 3500000 3392515 32229 32003", &totals(60, 1_933_740, 1_920_180)),
        ),
        Case::new(
            "refusal-09-sixty-first-car",
            cars_on(TABLE, &sixty_one),
            &sixty_lines(
                "15000 3500000 3392515 32229 32003",
                &format!("X 61 9\n{}", totals(60, 1_933_740, 1_920_180)),
            ),
        ),
        Case::new("accepted-longest-sheet-48111-bytes", longest, &longest_listing()),
        Case::new("refusal-02-sheet-of-48112-bytes", one_byte_more, "Z 0 2"),
        Case::new("refusal-02-sheet-of-65775-bytes-239-in-16-bits", cut_to_the_first(), "Z 0 2"),
    ]
}

/// The paper's table and first car, 239 bytes, and 65,536 line feeds behind them.
fn cut_to_the_first() -> Vec<u8> {
    [rack::sheet(), vec![b'\n'; 65_536]].concat()
}

/// Sixty cars alike but for their numbers.
fn sixty_cars() -> Vec<Car> {
    (1..=60).map(|number| Car { number, ..CAR }).collect()
}

/// Sixty cars, then sixty times one struck and another in its place.
fn sixty_and_sixty_more() -> Vec<Event> {
    let car = |number: u32| Enter(Car { number, car_type: 1 + number % 4, ..CAR });
    let sixty = (1..=60).map(car);
    sixty.chain((1..=60).flat_map(|number| [Strike(number), car(60 + number)])).collect()
}

/// What they give, in 7,561 bytes. No listing is longer, though an answer buffer has 8,101 bytes, room for
/// 120 accepted cars and sixty refused strikes: a train holds sixty, so that each car accepted past sixty
/// wants a strike that is answered, in 11 bytes where a refused one has 20.
fn longest_listing() -> String {
    let line = |number: u32| format!("A {number} 15000 8333333 8077416 76735 76198\n");
    let sixty = (1..=60).map(line);
    let more = (1..=60).map(|number| format!("K {number}\n{}", line(60 + number)));
    sixty.chain(more).chain([totals(60, 4_604_100, 4_571_880)]).collect()
}

/// The listing of sixty cars alike.
pub fn sixty_lines(figures: &str, totals: &str) -> String {
    let mut listing: String = (1..=60).map(|number| format!("A {number} {figures}\n")).collect();
    listing.push_str(totals);
    listing
}

/// Four tables of 400 rows, 500 dm³ to every 9 mm.
pub fn full_tables() -> String {
    let rows: String = (0..400).map(|row| format!("R {} {}\n", 9 * row, 500 * row)).collect();
    (1..=4).map(|car_type| format!("T {car_type} 400\n{rows}")).collect()
}
