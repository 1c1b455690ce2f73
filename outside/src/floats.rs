//! Floats to try a probe with: of every exponent, halves of a tenth and decimals with their neighbours, floats
//! around which something ends, and by lot.

use std::fmt;

use crate::random::Random;

/// Bits of a fraction, which stand behind the sign and the eight bits of the exponent.
const FRACTION: u32 = 23;

/// Quarters that floats hold, odd ones too, are below this.
pub const QUARTERS: u32 = 1 << 24;

/// Floats at which something ends: the first that gives a tenth, quarters, halves and wholes that floats hold,
/// tenths of eight digits, and what ten times as much passes 32 bits.
const ENDS: [f32; 7] =
    [0.05, 4_194_304.0, 8_388_608.0, 16_777_216.0, 10_000_000.0, 429_496_736.0, 4_294_967_296.0];

/// Floats on each side of an end.
const AROUND: i32 = 500;

/// The floats of every exponent and both signs with each of some fractions; what is infinite and what is not
/// a number is among them.
pub fn of_every_exponent(
    fractions: impl Iterator<Item = u32> + Clone,
) -> impl Iterator<Item = f32> {
    (0..1 << (32 - FRACTION)).flat_map(move |head: u32| {
        fractions.clone().map(move |fraction| f32::from_bits(head << FRACTION | fraction))
    })
}

/// Fractions at both ends, at powers of two and below them, and mixed ones.
pub fn fractions() -> Vec<u32> {
    let last = (1 << FRACTION) - 1;
    let ends = (0..8).flat_map(|near| [near, last - near]);
    let powers = (0..FRACTION).flat_map(|power| [1 << power, (1 << power) - 1, (1 << power) + 1]);
    let mixed = [0x2a_5a5b, 0x55_5555, 0x2a_aaaa, 0x33_3333, 0x4c_cccd, 0x66_6666, 0x19_999a];
    let mut fractions: Vec<u32> = ends.chain(powers).chain(mixed).collect();
    fractions.sort_unstable();
    fractions.dedup();
    fractions
}

/// So many quarters, below [`QUARTERS`]: of an odd number ten times as much lies at a half.
pub fn quarters(count: u32) -> f32 {
    count as f32 / 4.0
}

/// The float nearest to so many hundredths.
pub fn hundredths(count: u32) -> f32 {
    (f64::from(count) / 100.0) as f32
}

/// The floats around each at which something ends.
pub fn around_ends() -> impl Iterator<Item = f32> {
    ENDS.into_iter().flat_map(|end| (-AROUND..=AROUND).map(move |by| further(end, by)))
}

/// A float between those beside it.
pub fn beside(float: f32) -> [f32; 3] {
    [-1, 0, 1].map(|by| further(float, by))
}

/// The float whose bits are so many more.
fn further(float: f32, by: i32) -> f32 {
    f32::from_bits(float.to_bits().wrapping_add_signed(by))
}

/// A float by lot: any bits, one of an exponent that gives tenths, or beside a half or a decimal half.
pub fn draw(random: &mut Random) -> f32 {
    let bits = random.next() as u32;
    let near = match random.below(4) {
        0 => return f32::from_bits(bits),
        1 => return f32::from_bits(random.between(119, 152) << FRACTION | bits >> (32 - FRACTION)),
        2 => quarters((bits % QUARTERS) >> random.below(24) | 1),
        _ => hundredths(5 * random.between(0, 80_000)),
    };
    random.pick(&beside(near))
}

/// Floats as they are told: with their bits, in which what is not a number differs too.
#[derive(Clone, Copy)]
pub struct Told<'a>(pub &'a [f32]);

impl fmt::Debug for Told<'_> {
    fn fmt(&self, f: &mut fmt::Formatter) -> fmt::Result {
        let floats = self.0.iter().map(|float| format!("{float:?} ({:08x})", float.to_bits()));
        f.write_str(&floats.collect::<Vec<_>>().join(", "))
    }
}
