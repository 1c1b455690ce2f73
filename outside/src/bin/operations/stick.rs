//! The stick against the tape: lengths that are wrong, differences around 0 and 2 mm with every number of
//! readings, every half that 16 readings have, every place at the ends of its range, stick levels and
//! numbers of readings in range and out of it, then sticks by lot, with any numbers in unused places.

use outside::random::Random;
use outside::{stick, BAD_LENGTH, STICK, TAPE_READINGS};
use reference::conformance::vectors::stick::around;
use reference::stick::stick_against_tape as checked;

use crate::cars::wrong_lengths;
use crate::figures::{draw_level, ends_and, ends_of_levels, ENDS};
use crate::tally::{handed, Lent, Tally, LENT};

const COUNTS: std::ops::RangeInclusive<u32> = 10..=20;

/// Stick levels at the ends of every metre, beside an end and between, and with every tenth, in 0.1 mm.
const LEVELS: [u64; 22] = [
    10, 11, 20, 9_999, 10_000, 10_001, 15_000, 15_001, 15_002, 15_003, 15_004, 15_005, 15_006,
    15_007, 15_008, 15_009, 20_001, 29_995, 30_000, 30_001, 35_999, 36_000,
];

/// Readings at the ends of their range, and others that are in range where bits are cut off, in mm.
const EDGES: [u32; 8] =
    [2, 3_599, 3_600, 3_601, 4_001, (1 << 16) + 1_500, (1 << 31) + 1_500, u32::MAX - 1_499];

type Places = [u32; TAPE_READINGS];

fn compare(tally: &mut Tally, stick: u64, count: u32, readings: &[u32], length: usize) {
    let lent = Lent::new(&vec![LENT; length]);
    let mut figures = lent.clone();
    let number = outside::stick_against_tape(stick, count, readings, figures.slice());
    let expected = match Places::try_from(readings) {
        Ok(places) if length == STICK => {
            let check = checked(stick, count, places);
            handed(check.map(|check| Lent::new(&stick::figures(check))), lent)
        }
        _ => (BAD_LENGTH, lent),
    };
    tally.compare((stick, count, readings), (number, figures), expected);
}

/// Any numbers, of which half are readings in range.
fn any_places(random: &mut Random) -> Places {
    [(); TAPE_READINGS].map(|()| {
        if random.one_in(2) {
            random.between(1, 3_600)
        } else {
            random.next() as u32
        }
    })
}

/// Readings in the first places, from which the stick level lies apart by so many tenths of a mm in all,
/// and any numbers behind them.
fn apart(random: &mut Random, stick: u64, count: u32, by: i64) -> Places {
    let mut places = any_places(random);
    for (place, reading) in places.iter_mut().zip(around(stick, count, by)) {
        *place = reading;
    }
    places
}

/// Slices of a length that is wrong, with numbers that are taken and with others.
fn compare_lengths(tally: &mut Tally) {
    let largest = (u64::MAX, u32::MAX, u32::MAX);
    for (stick, count, reading) in [(15_000, 10, 1_500), (0, 0, 0), largest] {
        for length in (0..TAPE_READINGS).chain(TAPE_READINGS + 1..=2 * TAPE_READINGS) {
            compare(tally, stick, count, &vec![reading; length], STICK);
        }
        for length in wrong_lengths(STICK) {
            compare(tally, stick, count, &[reading; TAPE_READINGS], length);
        }
    }
}

/// Every difference up to 3 mm either way that readings in mm allow, at every level and with every number
/// of readings.
fn compare_differences(tally: &mut Tally, random: &mut Random) {
    for count in COUNTS {
        for stick in LEVELS {
            let product = (stick * u64::from(count)) as i64;
            let widest = 30 * i64::from(count);
            for by in (-widest..=widest).filter(|by| (product - by) % 10 == 0) {
                let places = apart(random, stick, count, by);
                compare(tally, stick, count, &places, STICK);
            }
        }
    }
}

/// Every half at the highest levels, with each tenth, and every one at the lowest: 16 readings have one
/// where the difference in all, in tenths of a mm, leaves 4 over 8.
fn compare_halves(tally: &mut Tally, random: &mut Random) {
    for stick in (35_991..=36_000).chain(10..=19) {
        for sum in 16..=3_600 * 16 {
            let by = 16 * stick as i64 - 10 * sum;
            if by.rem_euclid(8) == 4 {
                let places = apart(random, stick, 16, by);
                compare(tally, stick, 16, &places, STICK);
            }
        }
    }
}

/// Every place at its limits, with numbers of readings at theirs.
fn compare_places(tally: &mut Tally, random: &mut Random) {
    for count in 8..=22 {
        for place in 0..TAPE_READINGS {
            for number in ENDS.into_iter().chain(EDGES) {
                let mut places = apart(random, 15_000, count, 10);
                places[place] = number;
                compare(tally, 15_000, count, &places, STICK);
            }
        }
    }
}

/// Stick levels, and numbers of readings with and without a fault beside them.
fn compare_ranges(tally: &mut Tally) {
    let sound = [1_500; TAPE_READINGS];
    for stick in (0..=40_000).chain(ends_of_levels()) {
        compare(tally, stick, 10, &sound, STICK);
    }
    // 16 times as much is in 64 bits what it is for 15,000
    compare(tally, (1 << 60) + 15_000, 16, &sound, STICK);
    let faults = [(15_000, 1_500), (0, 1_500), (9, 1_500), (15_000, 0), (36_001, u32::MAX)];
    for count in ends_and(0..=300).chain([(1 << 16) + 10, (1 << 31) + 10, u32::MAX - 9]) {
        for (stick, reading) in faults {
            compare(tally, stick, count, &[reading; TAPE_READINGS], STICK);
        }
    }
}

/// A number that is most often in a range, else any.
fn draw(random: &mut Random, low: u32, high: u32) -> u32 {
    if random.one_in(32) {
        let any = random.next() as u32;
        random.pick(&[low - 1, high + 1, any])
    } else {
        random.between(low, high)
    }
}

pub fn stick_against_tape(times: u64) -> Tally {
    let mut tally = Tally::new("stick_against_tape");
    let mut random = Random::new(11);
    compare_lengths(&mut tally);
    compare_differences(&mut tally, &mut random);
    compare_halves(&mut tally, &mut random);
    compare_places(&mut tally, &mut random);
    compare_ranges(&mut tally);
    for _ in 0..times {
        let (stick, count) = (draw(&mut random, 10, 36_000), draw(&mut random, 10, 20));
        let wide = random.pick(&[1, 2, 5, 3_600]);
        let (low, high) = ((stick / 10).saturating_sub(wide), stick / 10 + wide);
        let mut places = any_places(&mut random);
        for reading in places.iter_mut().take(count as usize) {
            *reading = random.between(low, high).clamp(1, 3_600);
        }
        if random.one_in(8) {
            let place = random.below(TAPE_READINGS);
            places[place] = draw(&mut random, 1, 3_600);
        }
        let stick = if random.one_in(16) { draw_level(&mut random) } else { stick.into() };
        compare(&mut tally, stick, count, &places, STICK);
    }
    tally
}
