//! Sheets answered by the proved code, the reference and the program tuned by hand.

use std::hint::black_box;

use reference::{sheets, ANSWER_BYTES, SHEET_BYTES};

use crate::{given, small_sheets, timing};

/// Bytes of a sheet of four full tables and sixty cars.
const FULL_BYTES: usize = 39_771;

type Program = fn(&[u8], &mut [u8]) -> (usize, u32);

/// The proved code, and the two beside which it is set.
const PROGRAMS: [Program; 3] =
    [outside::answer_sheet, reference::answer_sheet, outside::tuned::answer_sheet];

/// Prints a line for each kind of sheet.
pub fn compare_all() {
    let full: Vec<Vec<u8>> = (0..8).map(sheets::full_sheet).collect();
    assert!(full.iter().all(|sheet| sheet.len() == FULL_BYTES));
    let fullest: Vec<Vec<u8>> = (0..8).map(sheets::fullest_sheet).collect();
    assert!(fullest.iter().all(|sheet| sheet.len() == SHEET_BYTES));
    let half: Vec<Vec<u8>> = full.iter().map(|sheet| half_of(sheet)).collect();
    let refused: Vec<Vec<u8>> = full.iter().map(|sheet| with_wrong_end(sheet)).collect();

    println!(
        "Nanoseconds for one sheet, least of {} rounds by turns, and the proved code's time",
        timing::ROUNDS
    );
    println!("as a multiple of the reference's and of the tuned program's.");
    println!("Each program has one answer buffer, which is not cleared between sheets.");
    println!(
        "{:42} {:>6} {:>8} {:>9} {:>8} {:>11} {:>7}",
        "sheet", "bytes", "proved", "reference", "tuned", "/ reference", "/ tuned"
    );
    compare("small, the rules' own", &[given::SHEET.to_vec()], 0);
    for (cars, grade) in [(1, 3), (2, 3), (10, 3), (60, 3), (60, 1)] {
        let name = format!("small table, grade {grade}, cars: {cars}, 8 in turn");
        compare(&name, &small_sheets::eight(cars, grade), 0);
    }
    compare("half the length, 8 in turn", &half, 0);
    compare("full, 60 cars accepted, 8 in turn", &full, 0);
    compare("full, refused at its last line, 8 in turn", &refused, 9);
    compare("fullest, 120 cars, 60 strikes, 8 in turn", &fullest, 0);
}

/// Prints the line of some sheets, all of which hand back the same number.
fn compare(name: &str, sheets: &[Vec<u8>], number: u32) {
    for sheet in sheets {
        let answers = PROGRAMS.map(|program| answered(program, sheet));
        assert_eq!(answers[0].1, number);
        assert!(answers.iter().all(|answer| *answer == answers[0]), "{name}: answers differ");
    }
    let mut passes = PROGRAMS.map(|program| {
        let mut answer = [0; ANSWER_BYTES];
        move || {
            for sheet in sheets {
                black_box(program(black_box(sheet), black_box(&mut answer)));
            }
        }
    });
    let least = timing::least(passes.each_mut().map(|pass| pass as &mut dyn FnMut()));
    let [proved, expected, tuned] = least.map(|time| time / sheets.len() as f64);
    let bytes = sheets.iter().map(Vec::len).sum::<usize>() / sheets.len();
    println!(
        "{name:42} {bytes:>6} {proved:>8.0} {expected:>9.0} {tuned:>8.0} {:>11.2} {:>7.2}",
        proved / expected,
        proved / tuned
    );
}

/// The length, the number handed back, and the buffer.
fn answered(program: Program, sheet: &[u8]) -> (usize, u32, [u8; ANSWER_BYTES]) {
    let mut answer = [0; ANSWER_BYTES];
    let (length, number) = program(sheet, &mut answer);
    (length, number, answer)
}

/// The first two tables of a full sheet, with thirty cars: the first two tables' own, and others
/// that are refused by 12.
fn half_of(full: &[u8]) -> Vec<u8> {
    let lines: Vec<&[u8]> = full.split_inclusive(|&byte| byte == b'\n').collect();
    let (tables, cars) = (&lines[..2 * 401], &lines[4 * 401..4 * 401 + 60]);
    let known = |car: &&&[u8]| [lines[0], lines[401]].iter().any(|head| head[1..10] == car[10..19]);
    let unknown = |car: &&&[u8]| !known(car);
    let chosen = cars.iter().filter(known).chain(cars.iter().filter(unknown)).take(30);
    let mut sheet = tables.concat();
    chosen.for_each(|car| sheet.extend_from_slice(car));
    sheet.extend_from_slice(b"E       30\n");
    sheet
}

/// A sheet whose last line counts one car too few.
fn with_wrong_end(full: &[u8]) -> Vec<u8> {
    let mut sheet = full[..FULL_BYTES - 11].to_vec();
    sheet.extend_from_slice(b"E       59\n");
    sheet
}
