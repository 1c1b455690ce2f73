//! Every field of every line damaged in each way (6), but for those of an R line that `lines` has.

use super::rack::{events_on, CAR, TABLE};
use super::Case;
use crate::sheet::Event::{Enter, Strike};

/// The lines that are damaged: number on the sheet, letter, and the numbers of its fields.
const LINES: [(usize, char, &[u32]); 5] = [
    (1, 'T', &[1, 4]),
    (3, 'R', &[1000, 20000]),
    (6, 'C', &[50_000_001, 1, 3, 1, 2, 1500, 1500, 0, 0, 0, 600, 9500, 50, 20]),
    (7, 'E', &[1]),
    (7, 'K', &[50_000_001]),
];

/// Ways to damage any field.
const OF_A_FIELD: [&str; 5] = ["blank", "zero-before", "sign", "nine-digits", "space-after"];

/// Ways that are tried once for each letter, each in another field.
const OF_A_LINE: [(&str, &[u8; 9]); 14] = [
    ("plus-sign", b"       +1"),
    ("minus-sign", b"       -1"),
    ("space-inside", b"      1 0"),
    ("letter-after", b"       1x"),
    ("tab", b"\t       1"),
    ("zero-byte", b"       \x001"),
    ("carriage-return", b"       \r1"),
    ("decimal-point", b"      1.0"),
    ("letter-o", b"       1O"),
    ("byte-after-digit-9", b"       1:"),
    ("no-break-space", b"      \xc2\xa01"),
    ("exponent", b"      1e1"),
    ("hexadecimal", b"      0x1"),
    ("nine-zeros", b"000000000"),
];

pub fn cases() -> Vec<Case> {
    let of_lines = LINES.into_iter().flat_map(|(line, letter, numbers)| {
        OF_A_LINE.into_iter().enumerate().map(move |(number, (way, bytes))| {
            let name = format!("refusal-06-{}-line-{way}", small(letter));
            damaged(name, (line, letter), (number + 1) % numbers.len(), bytes)
        })
    });
    fields().chain(of_lines).filter(|case| !stands_elsewhere(case.name)).collect()
}

/// Whether `lines` has such a case.
fn stands_elsewhere(name: &str) -> bool {
    let of_line = name.starts_with("refusal-06-r-line") && !name.ends_with("hexadecimal");
    let of_field = name.starts_with("refusal-06-r-field-1") && !name.ends_with("nine-digits");
    of_line || of_field
}

fn fields() -> impl Iterator<Item = Case> {
    LINES.into_iter().flat_map(|(line, letter, numbers)| {
        (0..numbers.len()).flat_map(move |place| {
            OF_A_FIELD.into_iter().map(move |way| {
                let name = format!("refusal-06-{}-field-{}-{way}", small(letter), place + 1);
                damaged(name, (line, letter), place, &field(way, numbers[place]))
            })
        })
    })
}

fn small(letter: char) -> char {
    letter.to_ascii_lowercase()
}

/// A field with its number, damaged.
fn field(way: &str, number: u32) -> [u8; 9] {
    let text = match way {
        "blank" => String::new(),
        "zero-before" => format!("0{number}"),
        "sign" => format!("{}{number}", if number % 2 == 0 { '+' } else { '-' }),
        "nine-digits" => format!("1{number:08}"),
        _ => format!("{number} "),
    };
    let field = format!("{text:>9}").into_bytes();
    field.try_into().expect("nine columns")
}

/// The paper's table and first car, which is struck where a K line is tried, with one field replaced,
/// fields counted from 0.
fn damaged(name: String, (line, letter): (usize, char), place: usize, field: &[u8; 9]) -> Case {
    let events = [Enter(CAR), Strike(CAR.number)];
    let mut sheet = events_on(TABLE, if letter == 'K' { &events } else { &events[..1] });
    let before: usize =
        sheet.split_inclusive(|&byte| byte == b'\n').take(line - 1).map(<[u8]>::len).sum();
    let start = before + 1 + 9 * place;
    sheet[start..start + 9].copy_from_slice(field);
    Case::new(name.leak(), sheet, &format!("Z {line} 6"))
}
