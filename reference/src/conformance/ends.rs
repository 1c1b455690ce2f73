//! The last line: its count of cars, and bytes after it (9).

use super::rack::{self, cars_on, CAR, TABLE};
use super::text::{change, columns};
use super::Case;

pub fn cases() -> Vec<Case> {
    let rack = rack::sheet();
    let count = |number: &[u8]| change(&rack, 7, b"1", number);
    let after = |bytes: &[u8]| [&rack, bytes].concat();
    let no_cars = cars_on(TABLE, &[]);
    vec![
        Case::new("refusal-09-count-one-too-low", count(b"0"), "Z 7 9"),
        Case::new("refusal-09-count-one-too-high", count(b"2"), "Z 7 9"),
        Case::new("refusal-09-count-of-no-cars", change(&no_cars, 6, b"0", b"1"), "Z 6 9"),
        Case::new("refusal-09-count-99999999", change(&rack, 7, b"       1", b"99999999"), "Z 7 9"),
        Case::new("refusal-09-line-feed-after-end", after(b"\n"), "Z 8 9"),
        Case::new("refusal-09-space-after-end", after(b" "), "Z 8 9"),
        Case::new("refusal-09-zero-byte-after-end", after(b"\x00"), "Z 8 9"),
        Case::new("refusal-09-second-end", after(&columns("E 1")), "Z 8 9"),
        Case::new("refusal-09-g-line-after-end", after(&columns("G 1 0 0 0")), "Z 8 9"),
        Case::new("refusal-09-second-sheet", after(&cars_on(TABLE, &[CAR])), "Z 8 9"),
        Case::new("refusal-09-bad-line-after-end", after(b"T 0"), "Z 8 9"),
    ]
}
