//! The stick against the tape: worked figures, the edges of 28 and 29, and every difference that
//! can arise held to the definition.

use reference::stick::{stick_against_tape, StickCheck, TAPE_READINGS};

const COUNTS: std::ops::RangeInclusive<u32> = 10..=20;

/// Stick level in 0.1 mm and readings in mm, as many as are given, with a number in the places behind:
/// difference in 0.01 mm, pass and allowance in 0.01 mm, or the number of the refusal.
fn ask(stick: u64, given: &[u32], unused: u32) -> Result<(i64, bool, u32), u32> {
    let mut readings = [unused; TAPE_READINGS];
    readings[..given.len()].copy_from_slice(given);
    match stick_against_tape(stick, given.len() as u32, readings) {
        Ok(StickCheck { difference, passes, allowance }) => Ok((difference, passes, allowance)),
        Err(refusal) => Err(refusal.number()),
    }
}

/// Some readings of one level, then some of another.
fn readings(first: (usize, u32), then: (usize, u32)) -> Vec<u32> {
    [vec![first.1; first.0], vec![then.1; then.0]].concat()
}

/// A stick level of 3,600 mm less some tenths above its readings, and one of 1 mm and some tenths below
/// them, by every sum of mm up to the highest: stick, readings, and how far they are apart in all, in
/// tenths of a mm.
fn differences(count: u32, tenth: u32, highest: u32) -> impl Iterator<Item = (u64, Vec<u32>, i64)> {
    (0..=highest).flat_map(move |sum| {
        let more = (0..count).map(move |place| (sum + place) / count);
        let above = more.clone().map(|more| 3_600 - more).collect();
        let below = more.map(|more| 1 + more).collect();
        let apart = 10 * i64::from(sum) - i64::from(tenth * count);
        let tenth = u64::from(tenth);
        [(36_000 - tenth, above, apart), (10 + tenth, below, -apart)]
    })
}

/// Every difference in whole mm over so many readings, and every one up to 6 mm with tenths.
fn every_difference(count: u32) -> impl Iterator<Item = (u64, Vec<u32>, i64)> {
    let whole = differences(count, 0, 3_599 * count);
    whole.chain((1..10).flat_map(move |tenth| differences(count, tenth, 6 * count)))
}

#[test]
fn worked_figures() {
    for (given, seen) in [
        (readings((14, 1_500), (2, 1_501)), (-13, true, 45)),
        (readings((14, 1_500), (2, 1_499)), (13, true, 45)),
        (readings((10, 1_498), (0, 0)), (200, true, 45)),
        (readings((9, 1_498), (1, 1_497)), (210, false, 45)),
        (readings((11, 1_500), (1, 1_501)), (-8, true, 45)),
    ] {
        assert_eq!(ask(15_000, &given, 0), Ok(seen), "{given:?}");
    }
}

#[test]
fn worked_figures_with_tenths() {
    for (stick, given, seen) in [
        // 1500.4 less 1500.375: 2.5 hundredths.
        (15_004, readings((10, 1_500), (6, 1_501)), (3, true, 45)),
        (14_996, readings((10, 1_500), (6, 1_499)), (-3, true, 45)),
        (15_020, readings((20, 1_500), (0, 0)), (200, true, 45)),
        (15_021, readings((20, 1_500), (0, 0)), (210, false, 45)),
        (14_980, readings((20, 1_500), (0, 0)), (-200, true, 45)),
        (14_979, readings((20, 1_500), (0, 0)), (-210, false, 45)),
        // 1502.1 less 1500.05.
        (15_021, readings((19, 1_500), (1, 1_501)), (205, false, 45)),
        // 1500.3 less 1500 and a third.
        (15_003, readings((8, 1_500), (4, 1_501)), (-3, true, 45)),
        (10_000, readings((10, 1_000), (0, 0)), (0, true, 30)),
        (10_001, readings((10, 1_000), (0, 0)), (10, true, 45)),
    ] {
        assert_eq!(ask(stick, &given, 0), Ok(seen), "{stick} {given:?}");
    }
}

#[test]
fn every_difference_is_the_nearest_and_a_half_goes_away_from_zero() {
    for count in COUNTS {
        for (stick, given, apart) in every_difference(count) {
            let (difference, passes, allowance) = ask(stick, &given, 0).unwrap();
            let (exact, answered) = (10 * apart, difference * i64::from(count));
            let off = 2 * (answered - exact).abs();
            let away = answered.abs() > exact.abs() && answered.signum() == exact.signum();
            assert!(off < i64::from(count) || (off == i64::from(count) && away), "{apart} {count}");
            assert_eq!(passes, apart.abs() <= 20 * i64::from(count), "{apart} {count}");
            assert_eq!(allowance, if stick < 20 { 30 } else { 75 });
        }
    }
}

/// Stick levels of every tenth are set against sums of mm.
#[test]
fn only_16_readings_have_halves() {
    for count in COUNTS {
        let mut aparts =
            (0..10).flat_map(|tenth| (0..count).map(move |sum| tenth * count + 10 * sum));
        let has = aparts.any(|apart| 20 * apart % (2 * count) == count);
        assert_eq!(has, count == 16, "{count}");
    }
}

#[test]
fn to_pass_is_to_be_at_most_200_after_rounding_too() {
    for count in COUNTS {
        for (stick, given, apart) in every_difference(count) {
            let (difference, passes, _) = ask(stick, &given, 0).unwrap();
            assert_eq!(passes, difference.abs() <= 200, "{apart} {count}");
        }
    }
}

#[test]
fn exchanged_stick_and_tape_turn_the_sign() {
    for (low, high) in [(1, 3_600), (1, 2), (999, 1_001), (1_498, 1_500), (3_597, 3_600)] {
        for count in COUNTS {
            let against = |stick: u32, reading| {
                ask(10 * u64::from(stick), &vec![reading; count as usize], 0).unwrap()
            };
            let (above, below) = (against(high, low), against(low, high));
            assert_eq!((above.0, above.1), (-below.0, below.1), "{low} {high} {count}");
            assert_eq!(above.0, 100 * i64::from(high - low));
        }
    }
}

#[test]
fn the_allowance_is_that_of_the_stick_level() {
    for stick in 10..=36_000 {
        let (_, _, allowance) = ask(stick, &[1_500; 10], 0).unwrap();
        assert_eq!(u64::from(allowance), 15 + 15 * stick.div_ceil(10_000), "{stick}");
    }
}

#[test]
fn a_number_of_readings_out_of_range() {
    for count in [0, 1, 9, 21, 22, 256 + 10, 65_536 + 10, 1 << 31, u32::MAX - 9, u32::MAX] {
        for (stick, reading) in [(15_000, 1_500), (0, 1_500), (15_000, 0), (u64::MAX, u32::MAX)] {
            let answer = stick_against_tape(stick, count, [reading; TAPE_READINGS]);
            let number = answer.map_err(|refusal| refusal.number());
            assert_eq!(number, Err(28), "{count} {stick} {reading}");
        }
    }
}

#[test]
fn a_stick_level_out_of_range() {
    let cut_off = [16, 31, 32, 33, 48, 60, 63].map(|bits| (1 << bits) + 15_000);
    let levels = [0, 1, 9, 36_001, 36_009, 150_000, u64::MAX - 14_999, u64::MAX];
    for count in COUNTS {
        let given = vec![1_500; count as usize];
        for level in levels.into_iter().chain(cut_off) {
            assert_eq!(ask(level, &given, 1_500), Err(29), "stick {level}");
        }
        assert_eq!(ask(10, &given, 1_500), Ok((-149_900, false, 30)));
        assert_eq!(ask(36_000, &given, 1_500), Ok((210_000, false, 75)));
    }
}

#[test]
fn a_reading_out_of_range() {
    for level in [0, 3_601, 15_000, 65_536 + 1_500, 1 << 31, u32::MAX - 1_499, u32::MAX] {
        for count in COUNTS {
            let mut given = vec![1_500; count as usize];
            for place in 0..given.len() {
                given[place] = level;
                assert_eq!(ask(15_000, &given, 1_500), Err(29), "{level} in place {place}");
                given[place] = 1_500;
            }
            assert_eq!(ask(15_000, &given, 1_500), Ok((0, true, 45)));
        }
    }
}

#[test]
fn unused_places_are_not_looked_at() {
    for count in COUNTS {
        let given = readings((count as usize - 3, 1_500), (3, 1_499));
        for unused in [0, 1, 1_500, 3_600, 3_601, 1 << 31, u32::MAX] {
            assert_eq!(ask(15_000, &given, unused), ask(15_000, &given, 0), "{count} {unused}");
        }
    }
}
