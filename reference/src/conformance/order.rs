//! Which refusal is given where two or more apply at once.

use super::rack::{self, cars_on, numbered, CAR, TABLE};
use super::text::{change, columns, first_lines};
use super::Case;
use crate::car::Car;

pub fn cases() -> Vec<Case> {
    [of_sheets(), of_cars()].into_iter().flatten().collect()
}

fn of_sheets() -> Vec<Case> {
    let rack = rack::sheet();
    let five_tables: String =
        (1..=5).map(|car_type| format!("T {car_type} 2\nR 0 0\nR 9 9\n")).collect();
    let five_tables = columns(&format!("{five_tables}E 0"));
    let first_and_later = change(&change(&rack, 3, b"1000", b"   0"), 4, b"R", b"Q");
    let bad_car_and_end = change(&change(&rack, 6, b"    3 ", b"    9 "), 7, b"1", b"3");
    vec![
        Case::new("order-03-before-04", [&first_lines(&rack, 5)[..], b"Q"].concat(), "Z 6 3"),
        Case::new("order-03-before-05", change(&rack, 7, b"1\n", b"1 "), "Z 7 3"),
        Case::new("order-03-before-06", change(&rack, 7, b" 1\n", b"01"), "Z 7 3"),
        Case::new("order-04-before-05", b"Q\n".to_vec(), "Z 1 4"),
        Case::new("order-05-before-06", change(&rack, 1, b"       1", b"     01"), "Z 1 5"),
        Case::new("order-06-before-07", columns("T 0 01\nE 0"), "Z 1 6"),
        Case::new(
            "order-06-before-08",
            change(&rack, 2, b"        0        0", b"        1       00"),
            "Z 2 6",
        ),
        Case::new("order-06-before-09", change(&rack, 7, b"        1", b"       02"), "Z 7 6"),
        Case::new(
            "order-03-before-07-fifth-table",
            five_tables[..five_tables.len() - 52].to_vec(),
            "Z 13 3",
        ),
        Case::new(
            "order-05-before-07-fifth-table",
            change(&five_tables, 13, b"2\n", b"2 \n"),
            "Z 13 5",
        ),
        Case::new(
            "order-06-before-07-fifth-table",
            change(&five_tables, 13, b" 2\n", b"02\n"),
            "Z 13 6",
        ),
        Case::new(
            "order-count-before-bytes-after-end",
            [&change(&rack, 7, b"1", b"2")[..], b"\n"].concat(),
            "Z 7 9",
        ),
        Case::new("order-earlier-line-before-lower-number", first_and_later, "Z 3 8"),
        Case::new("order-sheet-before-cars", bad_car_and_end, "Z 7 9"),
    ]
}

fn of_cars() -> Vec<Case> {
    let all_wrong = Car {
        number: 0,
        car_type: 2,
        grade: 5,
        stick: 3,
        given: 3,
        readings: [0, 5, 0, 0],
        water_level: 9,
        temperature: 100,
        density: 8000,
        water: 999,
        impurities: 999,
    };
    let numbered_wrong = Car { number: 1, ..all_wrong };
    let right_table = |number| Car { number, car_type: 1, ..all_wrong };
    let right_kind = |number| Car { grade: 1, stick: 1, ..right_table(number) };
    let right_count = |number| Car { given: 2, ..right_kind(number) };
    let no_level = |number| Car { readings: [0; 4], ..right_count(number) };
    let right_level = |number| Car { readings: [9, 9, 0, 0], ..right_count(number) };
    let right_water = |number| Car { water_level: 8, ..right_level(number) };
    let right_heat = |number| Car { temperature: 200, ..right_water(number) };
    let too_dense = |number| Car { density: 9900, ..right_heat(number) };
    let right_shares = |number| Car { water: 30, impurities: 10, ..too_dense(number) };
    vec![
        Case::new(
            "order-each-car-with-one-fault-less",
            cars_on(
                TABLE,
                &[
                    all_wrong,
                    numbered_wrong,
                    numbered_wrong,
                    right_table(3),
                    right_kind(4),
                    right_count(5),
                    no_level(6),
                    right_level(7),
                    right_water(8),
                    right_heat(9),
                    too_dense(10),
                    right_shares(11),
                    Car { density: 9500, ..right_shares(12) },
                ],
            ),
            "X 0 10
             X 1 12
             X 1 11
             X 3 13
             X 4 14
             X 5 15
             X 6 16
             X 7 17
             X 8 18
             X 9 19
             X 10 20
             X 11 21
             A 12 90 2000 1993 19 19
             S 1 19 19
             G 1 1 19 19
             G 2 0 0 0
             G 3 0 0 0
             G 4 0 0 0",
        ),
        numbered(
            "order-14-before-15",
            &[
                Car { readings: [1500, 1502, 1, 0], ..CAR },
                Car { readings: [1500, 1502, 0, 0], ..CAR },
            ],
            "X 1 14
             X 2 15
             S 0 0 0
             G 1 0 0 0
             G 2 0 0 0
             G 3 0 0 0
             G 4 0 0 0",
        ),
        numbered(
            "order-15-before-16",
            &[Car { readings: [3001, 3003, 0, 0], ..CAR }],
            "X 1 15
             S 0 0 0
             G 1 0 0 0
             G 2 0 0 0
             G 3 0 0 0
             G 4 0 0 0",
        ),
        numbered(
            "order-16-before-17",
            &[Car { readings: [3001, 3001, 0, 0], water_level: 3001, ..CAR }],
            "X 1 16
             S 0 0 0
             G 1 0 0 0
             G 2 0 0 0
             G 3 0 0 0
             G 4 0 0 0",
        ),
        numbered(
            "order-20-before-21",
            &[
                Car { grade: 2, density: 9900, water: 31, impurities: 0, ..CAR },
                Car { grade: 2, density: 9900, water: 30, impurities: 0, ..CAR },
            ],
            "X 1 20
             X 2 21
             S 0 0 0
             G 1 0 0 0
             G 2 0 0 0
             G 3 0 0 0
             G 4 0 0 0",
        ),
    ]
}
