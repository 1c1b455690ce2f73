//! Pairs of sheets to be merged: one for every seed, of which about half make one sheet.

mod faults;
mod full;
mod half;

use std::sync::OnceLock;

use super::draft::{self, Draft};
use super::random::Random;
use super::tables::Table;
use super::{damage, rules};
use crate::conformance::merges;
use crate::sheet::SHEET_BYTES;
use crate::table::TABLES;
use crate::train::CARS;
pub use full::{full_pair, fullest_pair};
use half::Half;

/// Two sheets.
pub type Pair = (Vec<u8>, Vec<u8>);

/// What is wrong with a drawn pair.
#[derive(Clone, Copy, PartialEq, Eq)]
enum Kind {
    Sound,
    Rows,
    UnknownType,
    NumberTwice,
    /// Several of the first three.
    Several,
    ManyCars,
    ManyTypes,
    /// Too many cars and types, beside one of the first three or alone.
    TooLarge,
    FirstRefused,
    SecondRefused,
    BothRefused,
}

/// How often each is drawn.
const KINDS: [(Kind, usize); 11] = [
    (Kind::Sound, 48),
    (Kind::Rows, 6),
    (Kind::UnknownType, 5),
    (Kind::NumberTwice, 6),
    (Kind::Several, 4),
    (Kind::ManyCars, 4),
    (Kind::ManyTypes, 4),
    (Kind::TooLarge, 3),
    (Kind::FirstRefused, 4),
    (Kind::SecondRefused, 5),
    (Kind::BothRefused, 3),
];

impl Kind {
    fn draw(random: &mut Random) -> Self {
        let mut place = random.below(KINDS.iter().map(|(_, times)| times).sum());
        for (kind, times) in KINDS {
            if place < times {
                return kind;
            }
            place -= times;
        }
        Self::Sound
    }
}

/// The pair of a seed. Equal seeds give equal pairs.
///
/// About half make one sheet. The others have a sheet that is refused itself, rows that differ, a held car
/// whose type only the other sheet has, a number held twice, too many types or cars, or several of these.
/// One in twenty is a pair of the conformance kit, as it is, turned round or damaged; one in forty is two
/// sheets that were drawn for themselves, one in forty the same sheet twice, and a few are of the greatest
/// length.
pub fn pair(seed: u64) -> Pair {
    let mut random = Random::new(seed);
    match random.below(160) {
        0 => return random.pick(&[full_pair, fullest_pair])(seed),
        1..=8 => return of_the_kit(&mut random),
        9..=12 => return (super::sheet(seed), super::sheet(!seed)),
        13..=16 => {
            let sheet = super::sheet(seed);
            return (sheet.clone(), sheet);
        }
        _ => {}
    }
    let kind = Kind::draw(&mut random);
    let mut halves = draw(&mut random, kind);
    spoil(&mut random, &mut halves, kind);
    let [first, second] = halves.map(Half::draft);
    let is_first = matches!(kind, Kind::FirstRefused | Kind::BothRefused);
    let is_second = matches!(kind, Kind::SecondRefused | Kind::BothRefused);
    (write(&mut random, first, is_first), write(&mut random, second, is_second))
}

/// A small pair of the kit, as it is, turned round, or with damage.
fn of_the_kit(random: &mut Random) -> Pair {
    static PAIRS: OnceLock<Vec<Pair>> = OnceLock::new();
    let pairs = PAIRS.get_or_init(|| {
        let pairs = merges::pairs().into_iter().map(|pair| (pair.first, pair.second));
        pairs.filter(|(first, second)| first.len() + second.len() < 10_000).collect()
    });
    let (first, second) = pairs[random.below(pairs.len())].clone();
    match random.below(5) {
        0 => (first, second),
        1 => (second, first),
        2 => (damage::damage_one_field(random, first), second),
        3 => (first, damage::damage_one_field(random, second)),
        _ => (damage::shuffle_history(random, &first), damage::shuffle_history(random, &second)),
    }
}

/// Two halves, which a merged sheet has room for unless there are to be too many types or cars.
fn draw(random: &mut Random, kind: Kind) -> [Half; 2] {
    let [first, second] = draw_tables(random, matches!(kind, Kind::ManyTypes | Kind::TooLarge));
    let [one, other] = draw_held(random, matches!(kind, Kind::ManyCars | Kind::TooLarge));
    let mut halves =
        [(first, one), (second, other)].map(|(tables, held)| Half::draw(random, tables, held));
    part_numbers(random, &mut halves);
    if random.one_in(2) {
        faults::vanished_number(random, &mut halves);
    }
    if random.one_in(2) {
        faults::vanishing(random, &mut halves);
    }
    if random.one_in(2) {
        faults::nearly_the_number(random, &mut halves);
    }
    if random.one_in(4) {
        faults::nearly_the_line(random, &mut halves);
    }
    halves
}

/// Tables of two sheets in any order, some of them in common, four types at most unless there are to be
/// more.
fn draw_tables(random: &mut Random, many: bool) -> [Vec<Table>; 2] {
    let count = match (many, random.below(3)) {
        (true, 0 | 1) => TABLES + 1,
        (true, _) => TABLES + 1 + random.below(TABLES),
        (false, 0) => TABLES,
        (false, _) => 1 + random.below(TABLES),
    };
    let size = draft::Size { tables: count, rows: None, cars: 0, strikes: 0 };
    let mut all = Draft::draw_tables(random, size).tables;
    shuffle(random, &mut all);
    // The first sheet has those up to an end, the second those from a start on.
    let least = count.saturating_sub(TABLES);
    let end = least.max(1) + random.below(count.min(TABLES) + 1 - least.max(1));
    let start = least + random.below(end.min(count - 1) + 1 - least);
    let mut halves = [all[..end].to_vec(), all[start..].to_vec()];
    halves.iter_mut().for_each(|tables| shuffle(random, tables));
    halves
}

fn shuffle<T>(random: &mut Random, list: &mut [T]) {
    for place in 1..list.len() {
        list.swap(place, random.below(place + 1));
    }
}

/// How many cars the two sheets hold, sixty at most unless there are to be more.
fn draw_held(random: &mut Random, many: bool) -> [usize; 2] {
    let held = match (many, random.below(6)) {
        (true, 0..=2) => CARS + 1,
        (true, _) => CARS + 1 + random.below(CARS),
        (false, 0) => CARS,
        (false, 1..=4) => random.below(12),
        (false, _) => random.below(CARS),
    };
    let (low, high) = (held.saturating_sub(CARS), held.min(CARS));
    let one = match random.below(5) {
        0 => low,
        1 => high,
        _ => low + random.below(high - low + 1),
    };
    [one, held - one]
}

/// Gives the second sheet's held cars numbers that the first does not hold.
fn part_numbers(random: &mut Random, [first, second]: &mut [Half; 2]) {
    for number in second.history.held.clone() {
        if first.history.held.contains(&number) {
            let mut new = number;
            while first.history.names(new) || second.history.names(new) {
                new = random.between(1, 99_999_999);
            }
            second.history.renumber(number, new);
        }
    }
}

/// Puts in what a kind has wrong, as far as the two halves by themselves are not refused.
fn spoil(random: &mut Random, halves: &mut [Half; 2], kind: Kind) {
    let faults = [faults::rows, faults::unknown_type, faults::number_twice];
    match kind {
        Kind::Rows => faults::rows(random, halves),
        Kind::UnknownType => faults::unknown_type(random, halves),
        Kind::NumberTwice => faults::number_twice(random, halves),
        Kind::Several => {
            let left_out = random.below(4);
            let some = faults.iter().enumerate().filter(|(place, _)| *place != left_out);
            some.for_each(|(_, fault)| fault(random, halves));
        }
        Kind::TooLarge | Kind::FirstRefused | Kind::SecondRefused | Kind::BothRefused => {
            if let Some(fault) = faults.get(random.below(6)) {
                fault(random, halves);
            }
        }
        Kind::Sound | Kind::ManyCars | Kind::ManyTypes => {}
    }
}

/// The bytes of a sheet, which is to be refused or not.
fn write(random: &mut Random, mut draft: Draft, refused: bool) -> Vec<u8> {
    if !refused {
        return draft.write();
    }
    match random.below(12) {
        0 | 1 => {
            let mut sheet = draft.write();
            sheet.resize(SHEET_BYTES + random.below(2), b'\n');
            sheet
        }
        2..=5 => {
            rules::bend(random, &mut draft);
            draft.write()
        }
        _ => damage::damage(random, draft.write()),
    }
}
