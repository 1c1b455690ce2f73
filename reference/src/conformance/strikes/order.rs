//! Two faults on a sheet with strikes: which refusal from 3 to 9 is given.

use super::super::rack;
use super::super::text::{change, columns, first_lines};
use super::super::Case;
use super::lines::sheet;
use super::{alike, on_rack, strikes};

pub fn cases() -> Vec<Case> {
    [of_a_strike(), of_lines_too_many(), of_two_lines()].into_iter().flatten().collect()
}

/// 3 to 6 on a K line.
fn of_a_strike() -> Vec<Case> {
    let strike = |old: &[u8], new: &[u8]| change(&sheet(), 7, old, new);
    let among_rows = |line: &[u8]| change(&rack::sheet(), 3, b"R", &[line, b"R"].concat());
    let last = |line: &[u8]| [&first_lines(&sheet(), 6)[..], line].concat();
    vec![
        Case::new("order-03-before-04-k-line", b"K 50000001".to_vec(), "Z 1 3"),
        Case::new("order-03-before-05-k-line", last(b"K 50000001 "), "Z 7 3"),
        Case::new("order-03-before-06-k-line", last(b"K 5000000x"), "Z 7 3"),
        Case::new("order-04-before-05-k-line", among_rows(b"K        1 \n"), "Z 3 4"),
        Case::new("order-04-before-06-k-line", among_rows(b"K       01\n"), "Z 3 4"),
        Case::new("order-05-before-06-k-line", strike(b" 50000001", b"050000001 "), "Z 7 5"),
        Case::new(
            "order-strike-before-the-end-s-count",
            change(&strike(b" 5", b"05"), 8, b"1", b"2"),
            "Z 7 6",
        ),
        Case::new(
            "order-sheet-before-strikes",
            change(&change(&sheet(), 7, b"50000001", b"50000002"), 8, b"1", b"2"),
            "Z 8 9",
        ),
    ]
}

/// 3, 5 and 6 before 9, on the sixty-first K line and on the 121st C line.
fn of_lines_too_many() -> Vec<Case> {
    let strikes_of_61 = on_rack(&strikes(1..=61));
    let cars_of_121 = on_rack(&alike(1..=121));
    let until = |sheet: &[u8], line: usize| {
        let whole = first_lines(sheet, line);
        whole[..whole.len() - 1].to_vec()
    };
    let strike = |old: &[u8], new: &[u8]| change(&strikes_of_61, 66, old, new);
    let car = |old: &[u8], new: &[u8]| change(&cars_of_121, 126, old, new);
    vec![
        Case::new("order-03-before-09-61st-strike-line", until(&strikes_of_61, 66), "Z 66 3"),
        Case::new("order-05-before-09-61st-strike-line", strike(b"61\n", b"61 \n"), "Z 66 5"),
        Case::new("order-06-before-09-61st-strike-line", strike(b" 61\n", b"061\n"), "Z 66 6"),
        Case::new("order-03-before-09-121st-car-line", until(&cars_of_121, 126), "Z 126 3"),
        Case::new("order-05-before-09-121st-car-line", car(b" 20\n", b" 20 \n"), "Z 126 5"),
        Case::new("order-06-before-09-121st-car-line", car(b" 20\n", b"020\n"), "Z 126 6"),
    ]
}

/// A line too many and a later one, or a wrong count behind it.
fn of_two_lines() -> Vec<Case> {
    let full = [alike(1..=120), strikes(1..=60)].concat();
    let strike_first = on_rack(&[&full[..], &strikes(61..=61), &alike(121..=121)].concat());
    let car_first = on_rack(&[&full[..], &alike(121..=121), &strikes(61..=61)].concat());
    let end = [&columns("E 61")[..], b"\n"].concat();
    let wrong_count = change(&on_rack(&strikes(1..=61)), 67, &columns("E 0"), &end);
    vec![
        Case::new("order-strike-line-61-before-car-line-121", strike_first, "Z 186 9"),
        Case::new("order-car-line-121-before-strike-line-61", car_first, "Z 186 9"),
        Case::new("order-strike-line-61-before-count-and-bytes-after-end", wrong_count, "Z 66 9"),
    ]
}
