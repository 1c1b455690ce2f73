//! One stick set against the tape by the proved code and the reference.

use std::hint::black_box;

use outside::{STICK, TAPE_READINGS};
use reference::stick::stick_against_tape;

use crate::calls;

/// The stick level, in 0.1 mm.
const LEVEL: u64 = 15_004;

/// Numbers of readings, and the reading in the last place, in mm; the others are 1,500.
const CHECKS: [(u32, u32); 5] = [(10, 1_500), (16, 1_500), (20, 1_502), (9, 1_500), (20, 0)];

/// Prints a line for each stick.
pub fn compare_all() {
    calls::head(
        "Nanoseconds for one stick level of 1,500.4 mm set against readings of the tape.",
        ["readings, and the last place, mm", "answer"],
    );
    CHECKS.into_iter().for_each(|(count, last)| compare(count, last));
}

fn compare(count: u32, last: u32) {
    let mut readings = [1_500; TAPE_READINGS];
    readings[TAPE_READINGS - 1] = last;
    let mut figures = [0; STICK];
    let number = outside::stick_against_tape(LEVEL, count, &readings, &mut figures);
    let expected = stick_against_tape(LEVEL, count, readings);
    let handed = match expected {
        Ok(check) => (0, outside::stick::figures(check)),
        Err(refusal) => (refusal.number(), [0; STICK]),
    };
    assert_eq!((number, figures), handed, "{count}: answers differ");

    let answer = expected.map_or_else(|refusal| refusal.number().into(), |check| check.difference);
    calls::line(
        &format!("{count}, {last}"),
        answer,
        &mut || {
            let (stick, count, readings) = black_box((LEVEL, count, &readings));
            let figures = black_box(&mut figures);
            black_box(outside::stick_against_tape(stick, count, readings, figures));
        },
        &mut || {
            let (stick, count, readings) = black_box((LEVEL, count, &readings));
            black_box(stick_against_tape(stick, count, *readings)).ok();
        },
    );
}
