//! The density at 15 °C of a laboratory's report: at every temperature, in range and around it, numbers
//! at the ends of words, every report from below the lightest to above the densest oil, so every tie
//! and both edges of 27, and reports by lot out of all numbers.

use outside::random::Random;
use reference::laboratory::Column;
use reference::thermal::{density_at, Density15};

use crate::figures::{ends_and, ENDS};
use crate::tally::{handed, Tally, LENT};

/// Temperatures in 0.1 °C, in range and around it.
const TEMPERATURES: std::ops::RangeInclusive<u32> = 0..=1_000;

/// Reports below and above all densities, in 0.1 kg/m³.
const MARGIN: u32 = 5;

/// Reports that lie among the densities at a temperature, or at the nearest one in range.
fn among_densities(temperature: u32) -> impl Iterator<Item = u32> {
    let tenths = temperature.clamp(200, 900) - 150;
    let at = |density: u32| density_at(Density15(density), tenths);
    at(9_000) - MARGIN..=at(9_900) + MARGIN
}

/// A number out of all, one in four with the low bits of a report.
fn draw(random: &mut Random) -> u32 {
    let number = random.next() as u32;
    if random.one_in(4) {
        number & 0xffff_0000 | random.between(8_400, 9_900)
    } else {
        number
    }
}

pub fn density_at_15(times: u64) -> Tally {
    let mut tally = Tally::new("density_at_15");
    let mut random = Random::new(9);
    for temperature in ends_and(TEMPERATURES) {
        let column = Column::at(temperature);
        let mut compare = |reported: u32| {
            let mut density = LENT;
            let number = outside::density_at_15(reported, temperature, &mut density);
            let expected = match &column {
                Ok(column) => column.look_up(reported).map(|density| density.0),
                Err(refusal) => Err(*refusal),
            };
            tally.compare((reported, temperature), (number, density), handed(expected, LENT));
        };
        ENDS.into_iter().chain(among_densities(temperature)).for_each(&mut compare);
        (0..times / 1_000).for_each(|_| compare(draw(&mut random)));
    }
    tally
}
