//! Pairs of sheets to be merged, generated and of the conformance sheets: what is handed back, and every byte
//! of the buffer and around it.

use outside::random::mix;
use reference::merge::{Merge, MERGED_BYTES};
use reference::{conformance, merge, sheets, ANSWER_BYTES};

use crate::lent::{lines, Lent};
use crate::on_every_core;
use crate::refused::Refused;

/// Buffers that are too short: by one byte, by the E line, by the sixty cars and that line, and as long as a
/// listing wants.
const TOO_SHORT: [usize; 4] =
    [MERGED_BYTES - 1, MERGED_BYTES - 11, MERGED_BYTES - 60 * 128 - 11, ANSWER_BYTES];

/// Compares so many generated pairs, from a seed on, then every conformance sheet with itself and with its
/// neighbours, and prints what was seen; whether all were merged alike.
pub fn compare_some(count: u64, first: u64) -> bool {
    let generated = |place: u64| {
        let seed = first.wrapping_add(place);
        let (first, second) = sheets::pair(seed);
        Asked { seed, room: room(seed), first, second }
    };
    let kit: Vec<Vec<u8>> = conformance::cases().into_iter().map(|case| case.sheet).collect();
    let of_the_kit = |place: u64| {
        let (one, other) = (place as usize / 3, (place as usize / 3 + 1) % kit.len());
        let (one, other) = [(one, one), (one, other), (other, one)][place as usize % 3];
        let (first, second) = (kit[one].clone(), kit[other].clone());
        Asked { seed: place, room: MERGED_BYTES, first, second }
    };
    compare_and_print("generated pairs", count, generated)
        && compare_and_print("pairs of conformance sheets", 3 * kit.len() as u64, of_the_kit)
}

/// Two sheets, and the bytes of the buffer that is lent for them and the seed of what it holds.
struct Asked {
    seed: u64,
    room: usize,
    first: Vec<u8>,
    second: Vec<u8>,
}

/// Compares so many pairs, by their places, on every core, and prints what was seen.
fn compare_and_print(name: &str, count: u64, asked: impl Fn(u64) -> Asked + Sync) -> bool {
    let tallies = on_every_core(|worker, workers| {
        compare((worker as u64..count).step_by(workers).map(&asked))
    });
    let Some(tallies) = tallies else {
        return false;
    };
    tallies.iter().fold(Tally::default(), Tally::with).print(name);
    true
}

/// Compares some pairs, up to the first difference, of which it tells.
fn compare(pairs: impl Iterator<Item = Asked>) -> Option<Tally> {
    let mut tally = Tally::default();
    for asked in pairs {
        let lent = Lent::new(asked.room, asked.seed);
        let proved = Outcome::of(outside::merge_sheets, &asked, lent.clone());
        let expected = Outcome::of(merge::merge, &asked, lent);
        if proved != expected {
            report_difference(&asked, &proved, &expected);
            return None;
        }
        tally.add(&proved);
    }
    Some(tally)
}

/// What a program did with two sheets: what it returned, and all bytes of the buffer and around it.
#[derive(PartialEq)]
struct Outcome {
    handed: Merge,
    out: Lent,
}

impl Outcome {
    fn of(program: fn(&[u8], &[u8], &mut [u8]) -> Merge, asked: &Asked, mut out: Lent) -> Self {
        Self { handed: program(&asked.first, &asked.second, out.buffer()), out }
    }

    fn merged(&self) -> &[u8] {
        self.out.start(self.handed.length)
    }
}

fn report_difference(asked: &Asked, proved: &Outcome, expected: &Outcome) {
    println!("seed {}: the merges differ, buffer of {} bytes", asked.seed, asked.room);
    println!("proved: {:?}\nreference: {:?}", proved.handed, expected.handed);
    proved.out.report_difference(&expected.out);
    println!("first:\n{}\nsecond:\n{}", lines(&asked.first), lines(&asked.second));
    println!("proved:\n{}\nreference:\n{}", lines(proved.merged()), lines(expected.merged()));
}

/// Bytes of the buffer: mostly just enough, at times more, past 16 bits too, one in eight too few.
fn room(seed: u64) -> usize {
    let drawn = mix(seed) as usize;
    match drawn % 16 {
        0 => (drawn >> 8) % MERGED_BYTES,
        1 => TOO_SHORT[(drawn >> 8) % TOO_SHORT.len()],
        2 => MERGED_BYTES + 1,
        3 => MERGED_BYTES + (drawn >> 8) % 5_000,
        4 => (1 << 16) + (drawn >> 8) % MERGED_BYTES,
        _ => MERGED_BYTES,
    }
}

/// What was seen.
#[derive(Default)]
struct Tally {
    merged: u64,
    /// Types and cars of the merged sheets, and sheets of the greatest length.
    types: u64,
    cars: u64,
    longest: u64,
    refused: Refused,
}

impl Tally {
    /// Both together.
    fn with(mut self, other: &Self) -> Self {
        self.merged += other.merged;
        self.types += other.types;
        self.cars += other.cars;
        self.longest += other.longest;
        self.refused.add(&other.refused);
        self
    }

    fn add(&mut self, outcome: &Outcome) {
        let (handed, sheet) = (outcome.handed, outcome.merged());
        if handed.number != 0 {
            self.refused.count(handed.number as usize);
            return;
        }
        let begun_by = |letter: u8| {
            sheet.split(|&byte| byte == b'\n').filter(|line| line.first() == Some(&letter)).count()
        };
        self.merged += 1;
        self.types += begun_by(b'T') as u64;
        self.cars += begun_by(b'C') as u64;
        self.longest += u64::from(handed.length == MERGED_BYTES);
    }

    fn print(&self, name: &str) {
        let Self { merged, types, cars, longest, refused } = self;
        let pairs = merged + refused.sum();
        println!("{pairs} {name} merged alike, length, number, line and every byte");
        println!("merged: {merged}, with {types} types and {cars} cars, {longest} of {MERGED_BYTES} bytes");
        println!("refused, by number: {}", refused.by_number((1..10).chain(33..36)));
    }
}
