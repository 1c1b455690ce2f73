//! A set in tenths: lengths that are wrong, every three of some floats, so that 31 and 32 of each stand in
//! every order, then sets by lot.

use outside::floats::{draw, Told};
use outside::random::Random;
use outside::{BAD_LENGTH, SET};
use reference::probe::{Set, SetTenths};

use super::{faulty_sets, floats_of, BY_31, BY_32, SOUND};
use crate::tally::{handed, Lent, Tally, LENT};

/// Floats that are given in tenths.
const GIVEN: [f32; 12] = [
    0.0,
    -0.0,
    f32::MIN_POSITIVE,
    0.05,
    0.25,
    0.35,
    60.05,
    950.15,
    1_500.25,
    3_600.0,
    16_777_215.0 / 4.0,
    9_999_999.0,
];

fn compare(tally: &mut Tally, set: Set, length: usize) {
    let lent = Lent::new(&vec![LENT; length]);
    let mut tenths = lent.clone();
    let number = outside::set_tenths(set, tenths.slice());
    let expected = if length == SET {
        handed(set.tenths().map(|tenths| Lent::new(&numbers(tenths))), lent)
    } else {
        (BAD_LENGTH, lent)
    };
    tally.compare((Told(&floats_of(set)), length), (number, tenths), expected);
}

/// Tenths as the exported operation writes them.
fn numbers(tenths: SetTenths) -> [u32; SET] {
    [tenths.level, tenths.temperature, tenths.density.0]
}

pub fn set_tenths(times: u64) -> Tally {
    let mut tally = Tally::new("set_tenths");
    let mut random = Random::new(13);
    for length in (0..=4 * SET).filter(|&length| length != SET) {
        for set in faulty_sets(SOUND.set()).into_iter().chain([SOUND.set()]) {
            compare(&mut tally, set, length);
        }
    }
    let floats = [&GIVEN[..], &BY_31, &BY_32].concat();
    for &level in &floats {
        for &temperature in &floats {
            for &density in &floats {
                compare(&mut tally, Set { level, temperature, density }, SET);
            }
        }
    }
    for _ in 0..times {
        let [level, temperature, density] = [(); 3].map(|()| draw(&mut random));
        compare(&mut tally, Set { level, temperature, density }, SET);
    }
    tally
}
