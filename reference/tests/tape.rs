//! The tape allowance: the list held to formula (40) of GOST R 8.787 at every level, and 16 at others,
//! around the ends of what is answered and of numbers.

use reference::level::tape_allowance;
use reference::refusal::Refusal;

/// Levels that are answered, in 0.1 mm.
const ANSWERED: std::ops::RangeInclusive<u64> = 10..=36_000;

/// 0.3 + 0.15 (L − 1) mm in 0.01 mm; a metre counts for L where it begins below the level.
fn by_formula(level: u64) -> u32 {
    let metres = (0..level).step_by(10_000).count() as u32;
    30 + 15 * (metres - 1)
}

#[test]
fn the_list_is_the_formula_at_every_level() {
    for level in ANSWERED {
        assert_eq!(tape_allowance(level), Ok(by_formula(level)), "{level}");
    }
}

#[test]
fn a_further_metre_begins_a_tenth_of_a_millimetre_past_a_whole_one() {
    assert_eq!(tape_allowance(10), Ok(30));
    for level in 10..36_000 {
        let [here, above] = [level, level + 1].map(|level| tape_allowance(level).unwrap());
        assert_eq!(above - here, if level % 10_000 == 0 { 15 } else { 0 }, "{level}");
    }
}

/// Levels in whole mm have the allowance that 01 lists for them.
#[test]
fn whole_millimetres_are_as_they_were() {
    for (level, allowance) in
        [(1, 30), (1_000, 30), (1_001, 45), (2_000, 45), (2_001, 60), (3_001, 75), (3_600, 75)]
    {
        assert_eq!(tape_allowance(10 * level), Ok(allowance), "{level}");
    }
}

#[test]
fn other_levels_are_refused() {
    let around = |middle: u64| middle - 1_000_000..=middle + 1_000_000;
    let levels = (0..10)
        .chain(36_001..=1_000_000)
        .chain(around(1 << 31))
        .chain(around(1 << 32))
        .chain(around(1 << 63))
        .chain(u64::MAX - 1_000_000..=u64::MAX);
    for level in levels {
        assert_eq!(tape_allowance(level), Err(Refusal::Level), "{level}");
    }
}
