//! One reading in tenths: floats of every exponent, halves of a tenth and decimals with their neighbours, floats
//! around ends, then floats by lot.

use outside::floats::{
    around_ends, beside, draw, fractions, hundredths, of_every_exponent, quarters, Told,
};
use outside::random::Random;
use reference::probe::Reading;

use crate::tally::{handed, Tally, LENT};

/// Halves in quarters: every one below this, and as many at each power of two above it.
const HALVES: u32 = 1 << 16;
const HALVES_OF_A_POWER: u32 = 1 << 10;

/// Decimals in hundredths: every twentieth up to 3,700.
const DECIMALS: u32 = 370_000;

fn compare(tally: &mut Tally, float: f32) {
    let mut tenths = LENT;
    let number = outside::reading_tenths(float, &mut tenths);
    let expected = handed(Reading::Level(float).tenths(), LENT);
    tally.compare(Told(&[float]), (number, tenths), expected);
}

/// Every odd number of quarters near zero, then the first and the last of each power of two.
fn halves() -> impl Iterator<Item = f32> {
    let of_a_power = (16..24).flat_map(|power| {
        let (first, end) = (1 << power, 2 << power);
        (first..first + HALVES_OF_A_POWER).chain(end - HALVES_OF_A_POWER..end)
    });
    (0..HALVES).chain(of_a_power).filter(|count| count % 2 == 1).map(quarters)
}

pub fn reading_tenths(times: u64) -> Tally {
    let mut tally = Tally::new("reading_tenths");
    let mut random = Random::new(12);
    let decimals = (0..=DECIMALS).step_by(5).map(hundredths);
    let by_lot = (0..times).map(|_| draw(&mut random));
    of_every_exponent(fractions().into_iter())
        .chain(halves().chain(decimals).flat_map(beside))
        .chain(around_ends())
        .chain(by_lot)
        .for_each(|float| compare(&mut tally, float));
    tally
}
