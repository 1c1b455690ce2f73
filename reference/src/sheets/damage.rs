//! Damaged bytes, fields and lines.

use super::random::Random;
use crate::field::COLUMNS;

/// Bytes that a damaged sheet may hold in any place.
const STRAY: &[u8] = b" \n\r\t0123456789TRCKEZAXSG+-.,#\x00\x0b\x7f\x80\xa0\xff";

/// Lines that are sound by themselves, mostly strikes.
const SOUND_LINES: &[&[u8]] = &[
    b"K 50000001\n",
    b"K 50000001\n",
    b"K        0\n",
    b"T        1        2\n",
    b"R        1        1\n",
];

/// A few stray bytes that are no sheet.
pub fn noise(random: &mut Random) -> Vec<u8> {
    (0..random.below(60)).map(|_| random.pick(STRAY)).collect()
}

/// Damages a sheet once or twice.
pub fn damage(random: &mut Random, sheet: Vec<u8>) -> Vec<u8> {
    let times = random.pick(&[1, 1, 1, 2]);
    (0..times).fold(sheet, |sheet, _| damage_once(random, sheet))
}

fn damage_once(random: &mut Random, sheet: Vec<u8>) -> Vec<u8> {
    if sheet.is_empty() {
        return sheet;
    }
    match random.below(10) {
        0 => damage_ends(random, sheet),
        1..=3 => damage_bytes(random, sheet),
        4..=6 => damage_line(random, sheet),
        _ => damage_field(random, sheet),
    }
}

/// The end of the sheet, or all its line ends.
fn damage_ends(random: &mut Random, mut sheet: Vec<u8>) -> Vec<u8> {
    match random.below(6) {
        0 => {
            sheet.pop();
            sheet
        }
        1 => {
            sheet.push(random.pick(STRAY));
            sheet
        }
        2 => {
            let length = sheet.len();
            sheet.extend_from_within(length.saturating_sub(11)..);
            sheet
        }
        3 => {
            let place = draw_place(random, &sheet);
            sheet.truncate(place);
            sheet
        }
        4 => {
            let ends = line_ends(&sheet);
            if !ends.is_empty() {
                sheet.truncate(random.pick(&ends));
            }
            sheet
        }
        _ => with_carriage_returns(&sheet),
    }
}

/// Places just after each line feed.
fn line_ends(sheet: &[u8]) -> Vec<usize> {
    (1..=sheet.len()).filter(|&place| sheet[place - 1] == b'\n').collect()
}

fn with_carriage_returns(sheet: &[u8]) -> Vec<u8> {
    let mut changed = Vec::with_capacity(sheet.len() + sheet.len() / 16);
    for &byte in sheet {
        if byte == b'\n' {
            changed.push(b'\r');
        }
        changed.push(byte);
    }
    changed
}

/// A byte changed, removed, inserted, or exchanged with the next one.
fn damage_bytes(random: &mut Random, mut sheet: Vec<u8>) -> Vec<u8> {
    let place = draw_place(random, &sheet);
    match random.below(5) {
        0 | 1 => sheet[place] = random.pick(STRAY),
        2 => {
            sheet.remove(place);
        }
        3 => sheet.insert(place, random.pick(STRAY)),
        _ => {
            let next = (place + 1).min(sheet.len() - 1);
            sheet.swap(place, next);
        }
    }
    sheet
}

/// A place in a line of a random letter, so that cars are met as often as rows.
fn draw_place(random: &mut Random, sheet: &[u8]) -> usize {
    let (start, end) = draw_line(random, sheet);
    start + random.below(end - start)
}

/// Start and end of a line of a random letter that the sheet has, its line feed included. Two in three
/// sheets have no K, so that K is drawn twice as often where it is.
fn draw_line(random: &mut Random, sheet: &[u8]) -> (usize, usize) {
    let mut lines = Vec::new();
    let mut start = 0;
    for line in sheet.split_inclusive(|&byte| byte == b'\n') {
        lines.push((start, start + line.len()));
        start += line.len();
    }
    let with = |letter| lines.iter().copied().filter(move |&(start, _)| sheet[start] == letter);
    let letters: Vec<u8> =
        b"TRCKKE".iter().copied().filter(|&letter| with(letter).next().is_some()).collect();
    if letters.is_empty() {
        return random.pick(&lines);
    }
    let letter = random.pick(&letters);
    let of_letter: Vec<_> = with(letter).collect();
    random.pick(&of_letter)
}

/// A line removed, doubled, exchanged with another, emptied, or with a letter, length or end
/// that is not its own, or a sound line beside it that may stand in a wrong place.
fn damage_line(random: &mut Random, mut sheet: Vec<u8>) -> Vec<u8> {
    let (start, end) = draw_line(random, &sheet);
    match random.below(11) {
        0 => {
            sheet.drain(start..end);
        }
        1 => {
            let line = sheet[start..end].to_vec();
            let (place, _) = draw_line(random, &sheet);
            sheet.splice(place..place, line);
        }
        2 | 3 => return exchange_lines(random, &sheet, (start, end)),
        4 => {
            sheet.splice(start..end, *b"\n");
        }
        5 => sheet[start] = random.pick(b"TRCKEtrcke \x00ZG"),
        6 => sheet.insert(end - 1, random.pick(b" \r0\n")),
        7 => {
            sheet.splice(start..start, *b" ");
        }
        8 | 9 => {
            let place = random.pick(&[start, end]);
            sheet.splice(place..place, random.pick(SOUND_LINES).iter().copied());
        }
        _ => {
            sheet.remove(end - 1);
        }
    }
    sheet
}

fn exchange_lines(random: &mut Random, sheet: &[u8], one: (usize, usize)) -> Vec<u8> {
    let other = draw_line(random, sheet);
    let ((a, b), (c, d)) = if one.0 < other.0 { (one, other) } else { (other, one) };
    if a == c {
        return sheet.to_vec();
    }
    [&sheet[..a], &sheet[c..d], &sheet[b..c], &sheet[a..b], &sheet[d..]].concat()
}

/// One field damaged, and nothing else.
pub fn damage_one_field(random: &mut Random, sheet: Vec<u8>) -> Vec<u8> {
    if sheet.is_empty() {
        return sheet;
    }
    damage_field(random, sheet)
}

/// The lines of cars and strikes in another order, one of them at times doubled in place of another of
/// its letter.
pub fn shuffle_history(random: &mut Random, sheet: &[u8]) -> Vec<u8> {
    let mut lines: Vec<&[u8]> = sheet.split_inclusive(|&byte| byte == b'\n').collect();
    let places: Vec<usize> =
        (0..lines.len()).filter(|&place| b"CK".contains(&lines[place][0])).collect();
    for &place in &places {
        lines.swap(place, random.pick(&places));
    }
    if !places.is_empty() && random.one_in(2) {
        let (from, to) = (random.pick(&places), random.pick(&places));
        if lines[from][0] == lines[to][0] {
            lines[to] = lines[from];
        }
    }
    lines.concat()
}

/// A field that is no number as the rules have it, or one just within them.
fn damage_field(random: &mut Random, mut sheet: Vec<u8>) -> Vec<u8> {
    const FIELDS: &[[u8; COLUMNS]] = &[
        *b"         ",
        *b"       00",
        *b"       01",
        *b" 00000001",
        *b"       +1",
        *b"       -1",
        *b"      1 0",
        *b"       1 ",
        *b"1        ",
        *b"      1.0",
        *b"      1,0",
        *b"      1e2",
        *b"     0x10",
        *b"\t       1",
        *b"100000000",
        *b"000000000",
        *b"999999999",
        *b"       1\n",
        *b"       \n1",
        *b"       1\r",
        *b"       \x001",
        *b"      \xc2\xa01",
        *b"       1:",
        *b"       1/",
        *b"        :",
        *b"        /",
        *b"        0",
        *b"        1",
        *b" 99999999",
        *b" 10000000",
    ];
    let (start, end) = draw_line(random, &sheet);
    let fields = (end - start).saturating_sub(2) / COLUMNS;
    if fields > 0 {
        let place = start + 1 + COLUMNS * random.below(fields);
        let field = &mut sheet[place..place + COLUMNS];
        match random.below(3) {
            0 => field.copy_from_slice(&random.pick(FIELDS)),
            1 => spoil_number(random, field),
            _ => field.fill(b' '),
        }
    }
    sheet
}

/// The field's own number with a zero, a sign or a ninth digit before it, or a byte after it.
fn spoil_number(random: &mut Random, field: &mut [u8]) {
    let digit = field.iter().position(|&byte| byte != b' ').unwrap_or(COLUMNS - 1);
    match random.below(4) {
        0 => field[digit.saturating_sub(1)] = b'0',
        1 => field[digit.saturating_sub(1)] = random.pick(b"+-"),
        2 => field[..=digit].fill(b'1'),
        _ => {
            field.rotate_left(1);
            field[COLUMNS - 1] = random.pick(b" x.\r\x00");
        }
    }
}
