//! How much stack each operation takes: no more than `include/rack.h` says is enough, and about as much as
//! it says of each.

use std::arch::asm;

use outside::train::state_of;
use outside::{
    Tables, ERRORS, FIELDS, FIGURES, PERMITTED, PLACES, PROBE_FIELDS, SET, STICK, TAPE_READINGS,
    TRAIN,
};
use reference::car::Car;
use reference::merge::MERGED_BYTES;
use reference::operations::{self, HandedIn};
use reference::probe::Set;
use reference::table::Row;
use reference::train::Train;
use reference::{sheets, ANSWER_BYTES};

/// Bytes that the header says are enough for all, and for all but a merge.
const ENOUGH: usize = 65_536;
const ENOUGH_BUT_FOR_A_MERGE: usize = 32_768;
/// What it says of a merge, of a sheet, of a car entered in a train, of the others that look B up and of a strike,
/// each with 500 bytes for "about", and of any other.
const OF_A_MERGE: usize = 52_500;
const OF_A_SHEET: usize = 29_500;
const OF_AN_ENTRY: usize = 6_500;
const OF_A_DENSITY: usize = 4_500;
const OF_A_STRIKE: usize = 3_500;
const OF_ANY_OTHER: usize = 2_000;

const _: () = assert!(OF_A_MERGE <= ENOUGH && OF_A_SHEET <= ENOUGH_BUT_FOR_A_MERGE);

/// What the stack of a call holds before it, 16 bytes at a time, and how many times.
const UNTOUCHED: u128 = u128::from_ne_bytes([0xa5; 16]);
const ROOM: usize = 16_384;

/// A table of 9 mm, and a car of the number 99 that is accepted on it.
const ROWS: [u32; PLACES] = {
    let mut rows = [0; PLACES];
    (rows[1], rows[2]) = (4, 9);
    rows
};
const TABLES: Tables = Tables {
    count: 1,
    types: &[1, 0, 0, 0],
    rows: &[3, 0, 0, 0],
    levels: &ROWS,
    capacities: &ROWS,
};
const CAR: [u32; FIELDS] = [99, 1, 3, 1, 2, 9, 9, 0, 0, 3, 600, 9_500, 50, 20];

/// The same car as a probe measures it.
const PROBED: [u32; PROBE_FIELDS] = [99, 1, 3, 1, 3, 50, 20];
const MEASURED: Set = Set { level: 8.75, temperature: 60.0, density: 950.0 };

extern "C" fn call(operation: *mut &mut dyn FnMut() -> u32) -> u32 {
    // SAFETY: `stack_of` lends its own.
    unsafe { (*operation)() }
}

/// How many bytes of stack an operation takes, which must hand back 0.
fn stack_of(mut operation: &mut dyn FnMut() -> u32) -> usize {
    let mut stack = vec![UNTOUCHED; ROOM];
    let top = stack.as_mut_ptr_range().end;
    let number: u32;
    // SAFETY: the call gets a stack of its own, aligned to 16 bytes; the callee keeps r12, which
    // holds the stack that is gone back to.
    unsafe {
        asm!(
            "xchg rsp, r12",
            "call {call}",
            "mov rsp, r12",
            call = sym call,
            inout("r12") top => _,
            in("rdi") &mut operation,
            lateout("eax") number,
            clobber_abi("C"),
        );
    }
    assert_eq!(number, 0);
    let untouched = stack.iter().take_while(|&&bytes| bytes == UNTOUCHED).count();
    16 * (ROOM - untouched)
}

/// Holds an operation to so many bytes.
fn hold_to(most: usize, name: &str, operation: &mut dyn FnMut() -> u32) {
    let bytes = stack_of(operation);
    println!("{name}: {bytes} bytes of stack");
    assert!(bytes <= most, "{name}: {bytes}");
}

/// Holds one that looks B up.
fn hold_density(name: &str, operation: &mut dyn FnMut() -> u32) {
    hold_to(OF_A_DENSITY, name, operation);
}

/// Holds one of those that the header does not name.
fn hold(name: &str, operation: &mut dyn FnMut() -> u32) {
    hold_to(OF_ANY_OTHER, name, operation);
}

/// Sheets of the greatest length, such as make a merged one of the greatest length, and small ones.
#[test]
fn merges() {
    let mut out = [0; MERGED_BYTES];
    let small: &[u8] =
        b"T        1        2\nR        0        0\nR        1        1\nE        0\n";
    let small = (small.to_vec(), small.to_vec());
    for (first, second) in [sheets::fullest_pair(0), sheets::full_pair(0), small] {
        hold_to(OF_A_MERGE, "merge_sheets", &mut || {
            outside::merge_sheets(&first, &second, &mut out).number
        });
    }
}

#[test]
fn sheets_and_lines() {
    let mut answer = [0; ANSWER_BYTES];
    for sheet in [sheets::full_sheet(0), sheets::fullest_sheet(0)] {
        hold_to(OF_A_SHEET, "answer_sheet", &mut || outside::answer_sheet(&sheet, &mut answer).1);
    }
    let (mut letter, mut length, mut numbers) = (0, 0, [1; FIELDS]);
    for line in [&b"K        1\n"[..], b"R        1        1\n"] {
        hold("read_line", &mut || outside::read_line(line, &mut letter, &mut numbers));
    }
    for letter in *b"KC" {
        hold("write_line", &mut || outside::write_line(letter, &numbers, &mut answer, &mut length));
    }
}

#[test]
fn figures() {
    let (mut figure, mut wide, mut stick) = (0, 0, [0; STICK]);
    hold("mean_level", &mut || outside::mean_level(4, &[9, 7, 8, 1], &mut wide));
    hold("tape_allowance", &mut || outside::tape_allowance(10, &mut figure));
    hold("stick_against_tape", &mut || {
        outside::stick_against_tape(90, 20, &[7; TAPE_READINGS], &mut stick)
    });
    hold_density("expansion_of", &mut || outside::expansion_of(9_500, &mut figure));
    hold_density("factor_of", &mut || outside::factor_of(9_500, 600, &mut wide));
    hold_density("density_at_20", &mut || outside::density_at_20(9_500, &mut figure));
    hold_density("density_at_20_of_grade", &mut || {
        outside::density_at_20_of_grade(3, 9_500, &mut figure)
    });
    hold_density("density_at_15", &mut || outside::density_at_15(9_300, 500, &mut figure));
    hold("oil_share", &mut || outside::oil_share(3, 50, 20, &mut figure));
    hold("oil_share_any_grade", &mut || outside::oil_share_any_grade(50, 20, &mut figure));
    hold("check_tables", &mut || outside::check_tables(TABLES));
    hold("checked_volume", &mut || outside::checked_volume(TABLES, 1, 90, 3, &mut figure));
}

#[test]
fn cars_and_trains() {
    let (mut figures, mut permitted) = ([0; FIGURES], [0; PERMITTED]);
    hold_density("work_out", &mut || outside::work_out(TABLES, &CAR, &mut figures));
    hold_density("permitted_error", &mut || {
        outside::permitted_error(TABLES, &CAR, &[0; ERRORS], &mut permitted)
    });
    let mut train = [1; TRAIN];
    hold("train_empty", &mut || outside::train_empty(&mut train));
    for held in [0, 59] {
        train = train_of_cars(held);
        hold_to(OF_AN_ENTRY, "train_enter", &mut || {
            outside::train_enter(&mut train, TABLES, &CAR, &mut figures)
        });
    }
    for held in [1, 60] {
        train = train_of_cars(held);
        hold_to(OF_A_STRIKE, "train_strike", &mut || outside::train_strike(&mut train, held));
    }
}

#[test]
fn the_probe() {
    let (mut tenths, mut set) = (0, [0; SET]);
    for reading in [0.0, 1e-45, 1_500.25, 9_999_999.0] {
        hold("reading_tenths", &mut || outside::reading_tenths(reading, &mut tenths));
    }
    hold("set_tenths", &mut || outside::set_tenths(MEASURED, &mut set));
    let (mut figures, mut permitted) = ([0; FIGURES], [0; PERMITTED]);
    hold_density("work_out_probe", &mut || {
        outside::work_out_probe(TABLES, &PROBED, MEASURED, &mut figures)
    });
    hold_density("permitted_error_probe", &mut || {
        outside::permitted_error_probe(TABLES, &PROBED, MEASURED, &[0; ERRORS], &mut permitted)
    });
    for held in [0, 59] {
        let mut train = train_of_cars(held);
        hold_to(OF_AN_ENTRY, "train_enter_probe", &mut || {
            outside::train_enter_probe(&mut train, TABLES, &PROBED, MEASURED, &mut figures)
        });
    }
}

/// A train of so many accepted cars, with the numbers from 1 on.
fn train_of_cars(held: u32) -> [u32; TRAIN] {
    let rows = [0, 4, 9].map(|level| Row { level, capacity: level }).to_vec();
    let tables = [HandedIn { car_type: 1, announced: 3, rows }];
    let mut train = Train::default();
    for number in 1..=held {
        let car = Car { number, ..Car::from(CAR) };
        operations::enter(&mut train, &tables, &car).expect("an accepted car");
    }
    state_of(&train)
}
