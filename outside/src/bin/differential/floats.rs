//! A probe's floats in tenths: the proved code beside the reference, which takes the bits apart in whole
//! numbers, and both held to exact arithmetic.

use outside::floats::{around_ends, beside, of_every_exponent, quarters, Told, QUARTERS};
use reference::probe::Reading;

use crate::on_every_core;

/// What a place holds before it is lent: no number of tenths.
const LENT: u32 = 0xa5a5_a5a5;

/// The largest number of tenths.
const LARGEST: f64 = 99_999_999.0;

/// Every float that there is.
const ALL: u64 = 1 << 32;

/// Fractions of each exponent, and of how many the sample takes one: the first is among them, and the last,
/// as 47 divides 2²³ − 1.
const FRACTIONS: u32 = 1 << 23;
const STEP: usize = 47;

/// Compares every float and prints what was seen; whether all were answered alike.
pub fn compare_all() -> bool {
    let tally = on_every_core(|worker, workers| {
        let bits = (worker as u64..ALL).step_by(workers);
        compare(bits.map(|bits| f32::from_bits(bits as u32)))
    });
    print("every float", tally)
}

/// Compares floats of every exponent and both signs, every half of a tenth with its neighbours, and floats
/// around ends, and prints what was seen; whether all were answered alike.
pub fn compare_some() -> bool {
    let tally = on_every_core(|worker, workers| {
        let fractions = (0..FRACTIONS).step_by(STEP).skip(worker).step_by(workers);
        let halves = (1..QUARTERS).step_by(2).skip(worker).step_by(workers);
        let ends = around_ends().skip(worker).step_by(workers);
        let floats = of_every_exponent(fractions).chain(ends);
        compare(floats.chain(halves.flat_map(|odd| beside(quarters(odd)))))
    });
    print("every exponent, every half and its neighbours", tally)
}

/// Compares some floats, up to the first difference, of which it tells.
fn compare(floats: impl Iterator<Item = f32>) -> Option<Tally> {
    let mut tally = Tally::default();
    for float in floats {
        let mut tenths = LENT;
        let number = outside::reading_tenths(float, &mut tenths);
        let expected = match Reading::Level(float).tenths() {
            Ok(tenths) => (0, tenths),
            Err(refusal) => (refusal.number(), LENT),
        };
        if (number, tenths) != expected || !is_right(float, number, tenths) {
            report_difference(float, (number, tenths), expected);
            return None;
        }
        tally.add(number);
    }
    Some(tally)
}

/// Whether an answer is right by the rule's own words, in floats of 64 bits that lose nothing: ten times a
/// float of 32 has 28 digits at most, and so has a number of tenths with a half.
fn is_right(float: f32, number: u32, tenths: u32) -> bool {
    let is_number = (0.0..f32::INFINITY).contains(&float);
    let ten_times = 10.0 * f64::from(float);
    let tenths = f64::from(tenths);
    match number {
        0 => is_number && tenths <= LARGEST && (tenths - 0.5..tenths + 0.5).contains(&ten_times),
        31 => !is_number,
        32 => is_number && ten_times >= LARGEST + 0.5,
        _ => false,
    }
}

fn report_difference(float: f32, proved: (u32, u32), expected: (u32, u32)) {
    println!("float {:?}: the answers differ, or are wrong", Told(&[float]));
    println!("proved: number {}, tenths {}", proved.0, proved.1);
    println!("reference: number {}, tenths {}", expected.0, expected.1);
}

/// What was seen.
#[derive(Default)]
struct Tally {
    given: u64,
    refused_by_31: u64,
    refused_by_32: u64,
}

impl Tally {
    fn add(&mut self, number: u32) {
        match number {
            0 => self.given += 1,
            31 => self.refused_by_31 += 1,
            _ => self.refused_by_32 += 1,
        }
    }

    /// Both together.
    fn with(self, other: &Self) -> Self {
        Self {
            given: self.given + other.given,
            refused_by_31: self.refused_by_31 + other.refused_by_31,
            refused_by_32: self.refused_by_32 + other.refused_by_32,
        }
    }
}

/// Prints what was seen on every core, if all was alike, and hands that back.
fn print(name: &str, tallies: Option<Vec<Tally>>) -> bool {
    let Some(tallies) = tallies else {
        return false;
    };
    let Tally { given, refused_by_31, refused_by_32 } =
        tallies.iter().fold(Tally::default(), Tally::with);
    let floats = given + refused_by_31 + refused_by_32;
    println!("{floats} floats in tenths alike, and as exact arithmetic has it: {name}");
    println!("given: {given}, refused, by number: 31: {refused_by_31}, 32: {refused_by_32}");
    true
}
