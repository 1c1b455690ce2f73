//! Generated sheets: the length, the number handed back, and every byte of the buffer and around it.

use outside::random::mix;
use reference::{sheets, ANSWER_BYTES};

use crate::lent::{lines, Lent};
use crate::on_every_core;
use crate::refused::Refused;

/// Buffers that are too short: by one byte, by the four G lines, so that the longest listing that can be
/// has just room (120 A lines and 60 K lines), and as long as was asked for before there were strikes.
const TOO_SHORT: [usize; 4] = [ANSWER_BYTES - 1, ANSWER_BYTES - 4 * 38, 7_561, 3_541];

/// Compares so many sheets, from a seed on, and prints what was seen; whether all were answered alike.
pub fn compare_some(count: u64, first: u64) -> bool {
    let tallies = on_every_core(|worker, workers| {
        let places = (worker as u64..count).step_by(workers);
        compare(places.map(|place| first.wrapping_add(place)))
    });
    let Some(tallies) = tallies else {
        return false;
    };
    tallies.iter().fold(Tally::default(), Tally::with).print();
    true
}

/// Compares the sheets of some seeds, up to the first difference, of which it tells.
fn compare(seeds: impl Iterator<Item = u64>) -> Option<Tally> {
    let mut tally = Tally::default();
    for seed in seeds {
        let sheet = sheets::sheet(seed);
        let proved = Outcome::of(outside::answer_sheet, &sheet, seed);
        let expected = Outcome::of(reference::answer_sheet, &sheet, seed);
        if proved != expected {
            report_difference(seed, &sheet, &proved, &expected);
            return None;
        }
        tally.add(&proved);
    }
    Some(tally)
}

/// What a program did with a sheet: what it returned, and all bytes of the buffer and around it.
#[derive(PartialEq)]
struct Outcome {
    length: usize,
    number: u32,
    answer: Lent,
}

impl Outcome {
    /// Lends a buffer with the seed's size and pattern to a program.
    fn of(program: fn(&[u8], &mut [u8]) -> (usize, u32), sheet: &[u8], seed: u64) -> Self {
        let mut answer = Lent::new(room(seed), seed);
        let (length, number) = program(sheet, answer.buffer());
        Self { length, number, answer }
    }

    fn answer(&self) -> &[u8] {
        self.answer.start(self.length)
    }
}

/// Bytes of the answer buffer: mostly just enough, at times more, one in eight too few.
fn room(seed: u64) -> usize {
    let drawn = mix(seed) as usize;
    match drawn % 16 {
        0 => (drawn >> 8) % ANSWER_BYTES,
        1 => TOO_SHORT[(drawn >> 8) % TOO_SHORT.len()],
        2 => ANSWER_BYTES + 1,
        3..=5 => ANSWER_BYTES + (drawn >> 8) % 5_000,
        _ => ANSWER_BYTES,
    }
}

fn report_difference(seed: u64, sheet: &[u8], proved: &Outcome, expected: &Outcome) {
    println!("seed {seed}: the answers differ, buffer of {} bytes", room(seed));
    println!("proved: length {}, number {}", proved.length, proved.number);
    println!("reference: length {}, number {}", expected.length, expected.number);
    proved.answer.report_difference(&expected.answer);
    println!("sheet:\n{}", lines(sheet));
    println!("proved:\n{}", String::from_utf8_lossy(proved.answer()));
    println!("reference:\n{}", String::from_utf8_lossy(expected.answer()));
}

/// What was seen.
#[derive(Default)]
struct Tally {
    sheets: u64,
    accepted_sheets: u64,
    /// A and K lines: cars accepted, and cars struck.
    accepted: u64,
    struck: u64,
    /// Accepted cars of each grade, from 1 to 4, that are held at the end.
    grades: [u64; 4],
    /// By their numbers: sheets refused, and cars and strikes refused.
    refused_sheets: Refused,
    refused_lines: Refused,
}

impl Tally {
    /// Both together.
    fn with(mut self, other: &Self) -> Self {
        self.sheets += other.sheets;
        self.accepted_sheets += other.accepted_sheets;
        self.accepted += other.accepted;
        self.struck += other.struck;
        self.grades.iter_mut().zip(other.grades).for_each(|(here, there)| *here += there);
        self.refused_sheets.add(&other.refused_sheets);
        self.refused_lines.add(&other.refused_lines);
        self
    }

    fn add(&mut self, outcome: &Outcome) {
        self.sheets += 1;
        match outcome.number {
            0 => self.accepted_sheets += 1,
            number => self.refused_sheets.count(number as usize),
        }
        for line in outcome.answer().split(|&byte| byte == b'\n') {
            match line.first() {
                Some(b'A') => self.accepted += 1,
                Some(b'K') => self.struck += 1,
                Some(b'X') => self.refused_lines.count(field(line, 1)),
                Some(b'G') => self.grades[field(line, 0) - 1] += field(line, 1) as u64,
                _ => {}
            }
        }
    }

    fn print(&self) {
        println!("{} sheets answered alike, length, number and every byte", self.sheets);
        println!("accepted: {} sheets, {} cars", self.accepted_sheets, self.accepted);
        println!("cars struck: {}", self.struck);
        println!("cars held at the end, by the G lines of grades 1 to 4: {:?}", self.grades);
        println!("sheets refused, by number: {}", self.refused_sheets.by_number(1..10));
        let numbers = (9..16).chain([23]).chain(16..22).chain([30]);
        println!("cars and strikes refused, by number: {}", self.refused_lines.by_number(numbers));
    }
}

/// The number in a field of a line, from 0 on.
fn field(line: &[u8], place: usize) -> usize {
    let text = std::str::from_utf8(&line[1 + 9 * place..][..9]).expect("a line of the listing");
    text.trim_start().parse().expect("a field of the listing")
}
