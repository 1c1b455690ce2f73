//! Readings of the probe in tenths: halves and their neighbours, the limit, what is no reading, the order
//! within a set, and a second way to find the nearest.

use reference::probe::{Reading, Set, SetTenths};
use reference::refusal::Refusal;
use reference::thermal::Density15;

/// The tenths of a number, or the refusal, which are the same for all three kinds of reading.
fn tenths(number: f32) -> Result<u32, u32> {
    let readings = [Reading::Level(number), Reading::Temperature(number), Reading::Density(number)];
    let [level, temperature, density] =
        readings.map(|reading| reading.tenths().map_err(Refusal::number));
    assert!(level == temperature && level == density, "{number}");
    level
}

fn of_bits(bits: u32) -> Result<u32, u32> {
    tenths(f32::from_bits(bits))
}

/// The float written 0.35 is 0.3499999940, the one written 0.15 is 0.1500000060, and so on.
#[test]
fn the_binary_number_and_not_the_decimal_one() {
    for (number, expected) in [
        (0.05, 1),
        (0.15, 2),
        (0.35, 3),
        (0.45, 4),
        (0.55, 6),
        (0.65, 6),
        (0.85, 9),
        (0.95, 9),
        (1.05, 10),
        (39.95, 400),
        (60.05, 600),
        (60.15, 602),
        (90.05, 901),
        (899.95, 9_000),
        (950.05, 9_500),
        (950.15, 9_502),
        (1_500.05, 15_001),
        (1_500.35, 15_003),
        (2_999.95, 29_999),
        (3_000.05, 30_001),
    ] {
        assert_eq!(tenths(number), Ok(expected), "{number}");
    }
}

#[test]
fn numbers_that_are_exact() {
    for (number, expected) in [
        (0.25, 3),
        (0.75, 8),
        (1.0, 10),
        (1.25, 13),
        (60.0, 600),
        (950.0, 9_500),
        (1_500.0, 15_000),
        (1_500.125, 15_001),
        (1_500.25, 15_003),
        (1_500.375, 15_004),
        (1_500.5, 15_005),
        (3_600.0, 36_000),
        (16_777_215.0 / 4.0, 41_943_038),
        (4_194_304.5, 41_943_045),
        (8_388_607.5, 83_886_075),
        (8_388_609.0, 83_886_090),
    ] {
        assert_eq!(tenths(number), Ok(expected), "{number}");
    }
}

/// Ten times a number lies at a half for the odd quarters and no others. From 2²² on there are none.
#[test]
fn every_half_goes_up() {
    for quarters in (1..1 << 24).step_by(2) {
        assert_eq!(tenths(quarters as f32 / 4.0), Ok((5_u32 * quarters).div_ceil(2)), "{quarters}");
    }
}

/// Up to 2¹⁹ the next numbers below and above a half lie less than half a tenth from it.
#[test]
fn the_neighbours_of_every_half() {
    for quarters in (1..1 << 21).step_by(2) {
        let half = (quarters as f32 / 4.0).to_bits();
        assert_eq!(of_bits(half - 1), Ok((5 * quarters - 1) / 2), "{quarters}");
        assert_eq!(of_bits(half + 1), Ok((5_u32 * quarters).div_ceil(2)), "{quarters}");
    }
}

#[test]
fn zero_and_the_smallest_numbers() {
    assert_eq!([tenths(0.0), tenths(-0.0)], [Ok(0); 2]);
    // The smallest and the largest number without a leading one, and the next.
    assert_eq!([of_bits(1), of_bits(0x7f_ffff), of_bits(0x80_0000)], [Ok(0); 3]);
    // 0.04999999702 and 0.05000000075.
    let first = 0.05_f32.to_bits();
    assert_eq!([of_bits(first - 1), of_bits(first)], [Ok(0), Ok(1)]);
}

#[test]
fn tenths_of_more_than_eight_digits() {
    let last = 9_999_999.0_f32;
    assert_eq!(f32::from_bits(last.to_bits() + 1), 10_000_000.0);
    assert_eq!([tenths(last), tenths(10_000_000.0)], [Ok(99_999_990), Err(32)]);
    for number in [16_777_215.0, 16_777_216.0, 16_777_218.0, 1e8, f32::MAX] {
        assert_eq!(tenths(number), Err(32), "{number}");
    }
    // In 32 bits ten times it is 64, in 64 bits 0.
    assert_eq!([tenths(429_496_736.0), tenths(2_f32.powi(64))], [Err(32); 2]);
    for power in 24..=127 {
        assert_eq!(tenths(2_f32.powi(power)), Err(32), "{power}");
    }
}

#[test]
fn every_number_below_zero() {
    for bits in [1, 2, 0x7f_ffff, 0x80_0000, f32::MAX.to_bits()] {
        assert_eq!(of_bits((1 << 31) + bits), Err(31), "{bits:x}");
    }
    for number in [0.04, 0.05, 0.25, 1.0, 1_500.0, 9_999_999.0, 10_000_000.0, f32::INFINITY] {
        assert_eq!(tenths(-number), Err(31), "{number}");
    }
    for bits in ((1 << 31) + 1..=u32::MAX).step_by(997) {
        assert_eq!(of_bits(bits), Err(31), "{bits:x}");
    }
}

/// Quiet and signalling ones of either sign, whatever they carry.
#[test]
fn infinity_and_what_is_not_a_number() {
    assert_eq!([tenths(f32::INFINITY), tenths(f32::NEG_INFINITY)], [Err(31); 2]);
    assert_eq!([tenths(f32::NAN), tenths(-f32::NAN)], [Err(31); 2]);
    let infinity = 0x7f80_0000;
    let carried = [0, 1, 2, 0x3f_ffff, 0x40_0000, 0x40_0001, 0x7f_fffe, 0x7f_ffff];
    for bits in carried.into_iter().chain((0..1 << 23).step_by(97)) {
        assert_eq!(of_bits(infinity + bits), Err(31), "{bits:x}");
        assert_eq!(of_bits((1 << 31) + infinity + bits), Err(31), "{bits:x}");
    }
    assert_eq!(of_bits(infinity - 1), Err(32));
}

fn in_tenths([level, temperature, density]: [f32; 3]) -> Result<SetTenths, u32> {
    Set { level, temperature, density }.tenths().map_err(Refusal::number)
}

#[test]
fn a_set() {
    let of = |level, temperature, density| {
        Ok(SetTenths { level, temperature, density: Density15(density) })
    };
    assert_eq!(in_tenths([1_500.0, 60.0, 950.0]), of(15_000, 600, 9_500));
    assert_eq!(in_tenths([1_500.05, 60.05, 950.05]), of(15_001, 600, 9_500));
    assert_eq!(in_tenths([0.25, 0.35, 0.75]), of(3, 3, 8));
    assert_eq!(in_tenths([-0.0, 9_999_999.0, 0.05]), of(0, 99_999_990, 1));
}

/// Every set of sound numbers, numbers that 31 turns away and numbers that 32 does: the first of level,
/// temperature and density decides.
#[test]
fn the_first_of_a_set_that_is_turned_away() {
    let sound = [(60.0, None)];
    let none = [-1.0, f32::NAN, f32::INFINITY, f32::NEG_INFINITY, -1e9].map(|n| (n, Some(31)));
    let large = [10_000_000.0, f32::MAX].map(|number| (number, Some(32)));
    let numbers: Vec<(f32, Option<u32>)> = [&sound[..], &none, &large].concat();
    for (level, first) in &numbers {
        for (temperature, second) in &numbers {
            for (density, third) in &numbers {
                let set = [*level, *temperature, *density];
                assert_eq!(in_tenths(set).err(), first.or(*second).or(*third), "{set:?}");
            }
        }
    }
}

/// A number of 2⁻⁶⁰ to 2⁶⁰ as a fraction: doubled until it is whole, which loses nothing.
fn fraction(number: f32) -> (u128, u128) {
    let (mut dividend, mut divisor) = (number, 1);
    while dividend.trunc() != dividend {
        dividend *= 2.0;
        divisor *= 2;
    }
    (dividend as u128, divisor)
}

/// Whether an answer is right for a number that is not negative, by comparing fractions: n is the
/// nearest to ten times the number if that lies at n − 1/2 or above and below n + 1/2.
fn is_right(number: f32, answer: Result<u32, u32>) -> bool {
    if number > 0.0 && number < 2_f32.powi(-60) {
        return answer == Ok(0);
    }
    if number > 2_f32.powi(60) {
        return answer == Err(32);
    }
    let (dividend, divisor) = fraction(number);
    let twice_more = 20 * dividend + divisor;
    match answer {
        Ok(n) => {
            let twice = 2 * u128::from(n);
            n <= 99_999_999 && twice * divisor <= twice_more && twice_more < (twice + 2) * divisor
        }
        Err(refusal) => refusal == 32 && twice_more >= 200_000_000 * divisor,
    }
}

#[test]
fn a_second_way_for_every_exponent() {
    for exponent in 0..255 {
        let ends = (0..64).flat_map(|fraction| [fraction, (1 << 23) - 1 - fraction]);
        // Closer from 2⁻⁷ to 2²⁴, where numbers have tenths.
        let step = if (120..=151).contains(&exponent) { 61 } else { 4_001 };
        for fraction in ends.chain((0..1 << 23).step_by(step)) {
            let number = f32::from_bits((exponent << 23) + fraction);
            let answer = tenths(number);
            assert!(is_right(number, answer), "{number:e}: {answer:?}");
        }
    }
}

#[test]
fn the_second_way_turns_other_answers_away() {
    for (number, right) in
        [(0.0, 0), (0.35, 3), (0.25, 3), (0.75, 8), (1_500.05, 15_001), (9_999_999.0, 99_999_990)]
    {
        assert!(is_right(number, Ok(right)));
        let wrong = [right + 1, right.wrapping_sub(1), 10 * right + 1];
        assert!(wrong.iter().all(|&wrong| !is_right(number, Ok(wrong))), "{number}");
        assert!(!is_right(number, Err(31)) && !is_right(number, Err(32)));
    }
    assert!(is_right(10_000_000.0, Err(32)) && !is_right(10_000_000.0, Ok(100_000_000)));
}
