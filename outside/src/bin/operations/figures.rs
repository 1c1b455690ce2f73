//! Operations that answer one figure from numbers: every value near a bound, then every value that
//! can be accepted, or numbers by lot.

use outside::random::Random;
use outside::{BAD_LENGTH, READINGS};
use reference::{level, operations};

use crate::tally::{handed, Tally, LENT, LENT_64};

/// Numbers at the ends of fields and of words.
pub const ENDS: [u32; 8] =
    [0, 1, 99_999_998, 99_999_999, 100_000_000, 1 << 31, u32::MAX - 1, u32::MAX];

/// The ends, then a range.
pub fn ends_and(range: std::ops::RangeInclusive<u32>) -> impl Iterator<Item = u32> + Clone {
    ENDS.into_iter().chain(range)
}

/// Levels in 0.1 mm at the ends of words, of 32 bits and of 64, and such as are in range where bits are cut
/// off.
pub fn ends_of_levels() -> impl Iterator<Item = u64> + Clone {
    let words = ENDS.into_iter().map(u64::from);
    let cut_off = [16, 24, 31, 32, 33, 48, 62, 63].into_iter().flat_map(|bits| {
        [0, 9, 10, 10_000, 15_000, 36_000, 36_001].map(|level| (1 << bits) + level)
    });
    let largest = [0, 1, 9, 10, 9_999, 10_000, 15_000, 36_000].map(|less| u64::MAX - less);
    words.chain(cut_off).chain(largest)
}

/// A level in 0.1 mm out of all numbers of 64 bits, or of so many as there are up to a power of two, one in
/// two with a level up to 4,000 mm in its low 16 bits.
pub fn draw_level(random: &mut Random) -> u64 {
    let number = random.next() >> random.pick(&[0, 0, 31, 32, 40]);
    if random.one_in(2) {
        number & !0xffff | u64::from(random.between(0, 40_000))
    } else {
        number
    }
}

pub fn tape_allowance(times: u64) -> Tally {
    let mut tally = Tally::new("tape_allowance");
    let mut random = Random::new(10);
    let by_lot = (0..times).map(|_| draw_level(&mut random));
    for level in (0..=70_000).chain(ends_of_levels()).chain(by_lot) {
        let mut allowance = LENT;
        let number = outside::tape_allowance(level, &mut allowance);
        tally.compare(level, (number, allowance), handed(level::tape_allowance(level), LENT));
    }
    tally
}

/// Densities in 0.1 kg/m³ around the ends of 16 bits, of 31 and of 32, and such as are in range where bits or
/// a sign are cut off.
fn ends_of_densities() -> impl Iterator<Item = u32> {
    let (of_16, of_31): (u32, u32) = (1 << 16, 1 << 31);
    let cut_off = (14..32).flat_map(|bits| {
        [0, 8_999, 9_000, 9_500, 9_600, 9_900, 9_901].map(|density| (1 << bits) + density)
    });
    (of_16 - 20_000..=of_16 + 20_000)
        .chain(of_31 - 20_000..=of_31 + 20_000)
        .chain(u32::MAX - 20_000..=u32::MAX)
        .chain(cut_off)
}

/// A density out of all numbers of 32, 24 or 16 bits, one in two with one near the list in its low 16 bits.
fn draw_density(random: &mut Random) -> u32 {
    let number = (random.next() >> random.pick(&[32, 40, 48])) as u32;
    if random.one_in(2) {
        number & !0xffff | random.between(8_900, 10_000)
    } else {
        number
    }
}

pub fn expansion_of(times: u64) -> Tally {
    let mut tally = Tally::new("expansion_of");
    let mut random = Random::new(16);
    let by_lot = (0..times).map(|_| draw_density(&mut random));
    for density in ends_and(0..=20_000).chain(ends_of_densities()).chain(by_lot) {
        let mut expansion = LENT;
        let number = outside::expansion_of(density, &mut expansion);
        let expected = operations::coefficient(density).map(|figure| figure as u32);
        tally.compare(density, (number, expansion), handed(expected, LENT));
    }
    tally
}

pub fn factor_of() -> Tally {
    let mut tally = Tally::new("factor_of");
    for temperature in ends_and(199..=901) {
        for density in ends_and(8_999..=9_901) {
            let mut factor = LENT_64;
            let number = outside::factor_of(density, temperature, &mut factor);
            let expected = operations::contraction(density, temperature);
            tally.compare((density, temperature), (number, factor), handed(expected, LENT_64));
        }
    }
    tally
}

pub fn density_at_20() -> Tally {
    let mut tally = Tally::new("density_at_20");
    for density in ends_and(0..=20_000) {
        let mut density_20 = LENT;
        let number = outside::density_at_20(density, &mut density_20);
        let expected = operations::density_at_20(density).map(|figure| figure.0);
        tally.compare(density, (number, density_20), handed(expected, LENT));
    }
    tally
}

pub fn density_at_20_of_grade() -> Tally {
    let mut tally = Tally::new("density_at_20_of_grade");
    for grade in ends_and(2..=6) {
        for density in ends_and(0..=11_000) {
            let mut density_20 = LENT;
            let number = outside::density_at_20_of_grade(grade, density, &mut density_20);
            let expected =
                operations::density_at_20_of_grade(grade, density).map(|figure| figure.0);
            tally.compare((grade, density), (number, density_20), handed(expected, LENT));
        }
    }
    tally
}

/// Water and impurities near every limit, and near all of the oil.
fn contents() -> impl Iterator<Item = u32> + Clone {
    ends_and(0..=110).chain(9_890..=10_010)
}

pub fn oil_share() -> Tally {
    let mut tally = Tally::new("oil_share");
    for grade in ends_and(2..=6) {
        for water in contents() {
            for impurities in contents() {
                let mut share = LENT;
                let number = outside::oil_share(grade, water, impurities, &mut share);
                let expected = operations::oil_share_of_grade(grade, water, impurities);
                tally.compare((grade, water, impurities), (number, share), handed(expected, LENT));
            }
        }
    }
    tally
}

pub fn oil_share_any_grade() -> Tally {
    let mut tally = Tally::new("oil_share_any_grade");
    for water in contents() {
        for impurities in contents() {
            let mut share = LENT;
            let number = outside::oil_share_any_grade(water, impurities, &mut share);
            let expected = operations::oil_share(water, impurities);
            tally.compare((water, impurities), (number, share), handed(expected, LENT));
        }
    }
    tally
}

/// Compares a number of readings and a slice of them, of any length.
fn compare_mean(tally: &mut Tally, count: u32, readings: &[u32]) {
    let mut level = LENT_64;
    let number = outside::mean_level(count, readings, &mut level);
    let expected = match readings.try_into() {
        Ok(four) => handed(level::mean(count, four), LENT_64),
        Err(_) => (BAD_LENGTH, LENT_64),
    };
    tally.compare((count, readings), (number, level), expected);
}

/// Readings in mm: small ones, some that span a few mm, those around which 20 times a sum of three or two
/// and 10 times one pass 32 bits, and the largest.
const NEAR: [u32; 20] = [
    0,
    1,
    2,
    3,
    4,
    1_500,
    1_501,
    1_502,
    1_503,
    1_504,
    1_505,
    71_582_788,
    71_582_790,
    107_374_183,
    429_496_730,
    429_496_731,
    u32::MAX - 4,
    u32::MAX - 3,
    u32::MAX - 1,
    u32::MAX,
];

/// The same, from which readings are drawn upwards.
const LOW: [u32; 11] = [
    0,
    1,
    1_500,
    3_590,
    71_582_784,
    99_999_990,
    107_374_178,
    214_748_360,
    429_496_725,
    1_431_655_760,
    u32::MAX - 9,
];

pub fn mean_level(times: u64) -> Tally {
    let mut tally = Tally::new("mean_level");
    let mut random = Random::new(1);
    for length in (0..=9).filter(|&length| length != READINGS) {
        compare_mean(&mut tally, 2, &vec![7; length]);
    }
    for count in [2, 4, 0, 1, 3, 5, u32::MAX] {
        for place in 0..NEAR.len().pow(4) {
            let readings =
                [0, 1, 2, 3].map(|power| NEAR[place / NEAR.len().pow(power) % NEAR.len()]);
            compare_mean(&mut tally, count, &readings);
        }
    }
    for _ in 0..times {
        let low = random.pick(&LOW);
        let spread = random.between(1, 9);
        let mut readings = [(); 4].map(|()| random.between(low, low + spread));
        let count = random.pick(&[2, 4]);
        if count == 2 && !random.one_in(8) {
            readings[2..].fill(0);
        }
        compare_mean(&mut tally, count, &readings);
    }
    tally
}
