//! Sheets that are refused themselves: the first's own refusal, then the second's, number and line.

use super::super::rack::events_on;
use super::super::text::{change, first_lines, without};
use super::{cars, sheet, table, Pair};
use crate::sheet::Event::Strike;
use crate::sheet::SHEET_BYTES;

pub fn pairs() -> Vec<Pair> {
    let faults = faults();
    let good = || sheet(&[1], &cars([50]));
    let each = faults.iter().flat_map(|(name, bad)| {
        let first = Pair::new(format!("refusal-{name}-of-the-first"), bad.clone(), good());
        let second = Pair::new(format!("refusal-{name}-of-the-second"), good(), bad.clone());
        [first, second]
    });
    each.chain(both(&faults)).collect()
}

/// Type 1 and two cars: T on line 1, R on lines 2 to 4, C on lines 5 and 6, E on line 7.
fn sound() -> Vec<u8> {
    sheet(&[1], &cars([7, 8]))
}

/// A refused sheet for each refusal, with its number in two digits before its name.
fn faults() -> Vec<(&'static str, Vec<u8>)> {
    let too_long = [sound(), vec![b'\n'; SHEET_BYTES + 1 - sound().len()]].concat();
    let cars_of = |count: u32| cars((0..count).map(|_| 7));
    let strikes = |count: u32| sheet(&[1], &(1..=count).map(Strike).collect::<Vec<_>>());
    vec![
        ("02-too-long", too_long),
        ("03-empty", Vec::new()),
        ("03-no-last-line", first_lines(&sound(), 6)),
        ("04-a-car-first", without(&sound(), 1)),
        ("04-too-few-rows", without(&sound(), 4)),
        ("05-a-short-line", change(&sound(), 6, b"       20\n", b"\n")),
        ("06-a-leading-zero", change(&sound(), 5, b"        7", b"       07")),
        ("07-a-type-twice", events_on(&format!("{}{}", table(1), table(1)), &cars([7]))),
        ("07-a-fifth-table", sheet(&[1, 2, 3, 4, 5], &[])),
        ("08-a-row-that-falls", change(&sound(), 4, b"3000", b" 999")),
        ("09-the-count-of-cars", change(&sound(), 7, b"        2", b"        3")),
        ("09-a-line-behind-the-end", [sound(), b"E        2\n".to_vec()].concat()),
        ("09-the-121st-car-line", sheet(&[1], &cars_of(121))),
        ("09-the-61st-strike-line", strikes(61)),
    ]
}

/// Both are refused: what is wrong with the first is given, whatever number and line it has.
fn both(faults: &[(&str, Vec<u8>)]) -> Vec<Pair> {
    let bad = |name: &str| {
        let (_, sheet) = faults.iter().find(|(of, _)| of.starts_with(name)).expect(name);
        sheet.clone()
    };
    let of = |first: &str, second: &str| {
        let name = format!("order-{}-of-the-first-before-{}", &first[..2], &second[..2]);
        Pair::new(name, bad(first), bad(second))
    };
    vec![
        of("09-the-count", "03-empty"),
        of("03-no-last", "08"),
        of("08", "02"),
        of("02", "04-a-car"),
        of("06", "05"),
        of("07-a-type", "06"),
        of("05", "09-a-line"),
        of("04-too-few", "07-a-type"),
        of("08", "08"),
    ]
}
