//! Checks that are answered otherwise by a program that takes the wrong way named.

use super::{apart, around, Group, Vector, LEVEL, STICK};
use crate::stick::TAPE_READINGS;

pub fn groups() -> Vec<Group<Vector>> {
    vec![
        Group { about: "How the difference is rounded", vectors: of_rounding() },
        Group { about: "How tenths of the stick level are taken", vectors: of_tenths() },
        Group { about: "Numbers that are too long for a word", vectors: of_words() },
        Group { about: "What floating point misses", vectors: of_floating_point() },
        Group { about: "What is averaged", vectors: of_mean() },
        Group { about: "What passes", vectors: of_pass() },
        Group { about: "How many readings are taken", vectors: of_counts() },
        Group { about: "Which levels are taken", vectors: of_levels() },
        Group { about: "The allowance beside the difference", vectors: of_allowance() },
    ]
}

fn parting(way: &str, stick: u64, given: &[u32]) -> Vector {
    Vector::new(format!("parting-{way}"), stick, given)
}

/// A stick level of 1,500.0 mm to 1,500.9 mm apart from so many readings by so many tenths of a mm in all.
fn off(way: &str, count: u32, by: i64) -> Vector {
    apart(format!("parting-{way}"), count, by)
}

/// Readings of 1,500 mm but another in one place, counted from 1.
fn but(way: &str, count: usize, place: usize, reading: u32) -> Vector {
    super::but(format!("parting-{way}"), count, place, reading)
}

fn of_rounding() -> Vec<Vector> {
    vec![
        off("half-going-up", 16, -60),
        off("half-going-down", 16, 60),
        off("half-going-to-zero", 16, -100),
        off("half-to-even", 16, 100),
        off("cut", 15, 10),
        off("away-from-zero", 11, 10),
        off("rounded-down", 16, -10),
        off("rounded-up", 16, 10),
        off("sign-turned", 13, 50),
        off("sign-left-out", 13, -50),
        off("difference-rounded-to-whole-mm", 10, 130),
        off("difference-rounded-to-tenths", 19, 50),
        off("mean-in-whole-mm", 20, 70),
        off("mean-cut-to-whole-mm", 20, -70),
        off("mean-in-tenths", 20, 30),
        off("mean-in-hundredths", 16, 140),
        off("half-of-a-hundredth-going-to-zero", 16, 4),
        off("half-of-a-hundredth-below-going-up", 16, -12),
    ]
}

fn of_tenths() -> Vec<Vector> {
    let at = |way: &str, stick| parting(way, stick, &[LEVEL; 10]);
    vec![
        parting("stick-in-mm", 3_000, &[300; 10]),
        parting("stick-in-mm-at-a-level-of-the-tape", 1_500, &[LEVEL; 10]),
        at("stick-cut-to-mm", 15_009),
        at("stick-cut-to-mm-below", 14_991),
        at("stick-to-the-nearest-mm", 15_004),
        at("stick-to-the-nearest-mm-goes-up", 14_996),
        at("stick-up-to-the-next-mm", 15_001),
        at("difference-shown-in-tenths", 15_007),
        at("difference-shown-in-micrometres", 15_003),
        parting("difference-rounded-to-tenths-goes-to-zero", 15_004, &around(15_004, 16, 4)),
        at("pass-by-the-stick-cut-to-mm", 15_029),
        at("pass-by-the-stick-to-the-nearest-mm", 15_024),
        at("pass-by-the-stick-up-to-the-next-mm", 14_979),
        at("limit-of-2-tenths", 15_010),
        at("limit-of-20-mm", 15_100),
        at("limit-of-21-tenths", 15_021),
        at("limit-of-19-tenths", 14_980),
        parting("allowance-of-the-stick-cut-to-mm", 10_001, &[1_000; 10]),
        parting("allowance-of-the-stick-to-the-nearest-mm", 20_004, &[2_000; 10]),
        parting("allowance-of-tenths-as-mm", 2_900, &[290; 10]),
    ]
}

fn of_words() -> Vec<Vector> {
    vec![
        off("sum-in-8-bits", 10, 40),
        parting("sum-in-16-bits", 36_000, &[3_600; 20]),
        parting("sum-in-16-bits-with-sign", 20_000, &[2_000; 20]),
        parting("tenfold-sum-in-16-bits", 12_000, &around(12_000, 10, 70)),
        parting("stick-times-readings-in-16-bits", 35_000, &around(35_000, 20, 90)),
        parting("tenfold-in-16-bits-with-sign", 15_200, &[LEVEL; 20]),
        off("difference-in-8-bits-with-sign", 10, 190),
        parting("difference-in-16-bits", 22_000, &[LEVEL; 12]),
        parting("difference-in-16-bits-with-sign", 19_000, &[LEVEL; 12]),
    ]
}

/// Differences so near a half that single floating point misses it, and such of exactly 2 mm as are more
/// where both levels are taken in mm.
fn of_floating_point() -> Vec<Vector> {
    let at_2_mm = |count| {
        let way = format!("pass-by-mm-in-floating-point-with-{count}");
        parting(&way, 44, &around(44, count, 20 * i64::from(count)))
    };
    let low = |ones: usize, twos: usize| [vec![1; ones], vec![2; twos]].concat();
    vec![
        parting("difference-in-single-floating-point-with-17", 32_781, &low(13, 4)),
        parting("difference-in-single-floating-point-with-19", 32_780, &low(17, 2)),
        at_2_mm(10),
        at_2_mm(15),
        at_2_mm(20),
    ]
}

fn of_mean() -> Vec<Vector> {
    let behind = |way: &str, reading| off(way, 12, 120).with_unused(reading);
    let halved = [[LEVEL; 10], [LEVEL - 2; 10]].concat();
    let bent = [1_488, 1_498, 1_500, 1_500, 1_500, 1_501, 1_501, 1_501, 1_501, 1_502];
    vec![
        off("mean-over-20", 10, 100),
        off("mean-over-10", 20, 200),
        behind("all-places-summed", 1_600),
        behind("all-places-averaged", 1_700),
        behind("places-that-are-not-0-averaged", 1_800),
        parting("first-ten-averaged", STICK, &halved),
        but("first-reading-alone", 12, 1, 1_488),
        but("last-reading-alone", 12, 12, 1_488),
        but("first-reading-left-out", 11, 1, 1_489),
        but("last-reading-left-out", 11, 11, 1_489),
        but("last-reading-not-summed", 13, 13, 1_487),
        off("one-place-more", 15, 0).with_unused(1_532),
        parting("lowest-and-highest-left-out", STICK, &bent),
        parting("middle-reading", STICK - 10, &bent),
        parting("between-lowest-and-highest", STICK - 20, &bent),
        parting("equal-readings-counted-once", STICK - 30, &bent),
    ]
}

fn of_pass() -> Vec<Vector> {
    let near_but_one = [[LEVEL; 9].as_slice(), &[1_510]].concat();
    let far_but_one = [[1_503; 9].as_slice(), &[LEVEL]].concat();
    vec![
        off("2-mm-above-failing", 10, 200),
        off("2-mm-below-failing", 10, -200),
        off("limit-of-205", 20, 410),
        off("limit-of-205-below", 20, -410),
        off("limit-of-3-mm", 10, 250),
        off("limit-of-3-mm-at-3-mm", 10, -300),
        off("limit-of-1-mm", 10, 150),
        off("pass-by-tenths-cut", 11, 230),
        off("pass-by-tenths-half-down", 20, -410),
        off("pass-by-whole-mm-cut", 10, 290),
        off("pass-by-whole-mm", 10, 240),
        off("pass-by-the-mean-in-whole-mm", 10, 210),
        off("pass-tested-above-only", 10, -300),
        off("pass-tested-below-only", 10, 300),
        off("limit-by-the-allowance", 10, 100),
        off("allowance-added-to-the-limit", 10, 220),
        off("allowance-taken-off-the-limit", 10, 180),
        parting("pass-by-every-reading", STICK, &near_but_one),
        parting("pass-by-any-reading", STICK, &far_but_one),
        off("pass-by-the-sum", 10, 50),
        off("pass-by-the-sum-over-20", 10, 310),
        off("pass-by-the-sum-over-10", 20, 310),
        off("pass-turned", 10, 10),
    ]
}

fn of_counts() -> Vec<Vector> {
    let counting = |way: &str, count| Vector { count, ..off(way, TAPE_READINGS as u32, 50) };
    vec![
        counting("9-readings-taken", 9),
        counting("10-readings-refused", 10),
        counting("20-readings-refused", 20),
        counting("21-readings-taken", 21),
        counting("only-10-readings-taken", 11),
        counting("29-for-28", 8),
    ]
}

fn of_levels() -> Vec<Vector> {
    let sound = [LEVEL; 10];
    let of_stick = |way: &str, stick| parting(way, stick, &sound);
    vec![
        of_stick("stick-0-taken", 0),
        of_stick("stick-1-taken", 1),
        of_stick("stick-9-taken", 9),
        of_stick("stick-10-refused", 10),
        of_stick("stick-above-3600-refused", 3_601),
        of_stick("stick-36000-refused", 36_000),
        of_stick("stick-36001-taken", 36_001),
        of_stick("stick-36009-taken", 36_009),
        of_stick("stick-not-tested", 50_000),
        of_stick("16-for-the-stick", 37_000),
        but("reading-0-taken", 10, 4, 0),
        but("reading-1-refused", 10, 5, 1),
        but("reading-3600-refused", 10, 6, 3_600),
        but("reading-3601-taken", 10, 7, 3_601),
        but("readings-not-tested", 10, 8, 5_000),
        but("first-reading-not-tested", 12, 1, 0),
        but("last-reading-not-tested", 12, 12, 0),
        but("first-ten-tested", 20, 15, 3_700),
        but("lowest-reading-tested", 14, 3, 3_800),
        but("highest-reading-tested", 14, 9, 0),
        parting("mean-tested", STICK, &[0, 3_000].repeat(6)),
        off("unused-places-tested", 17, 80).with_unused(4_000),
        off("unused-places-not-0", 18, 90).with_unused(1_400),
        but("28-for-29", 15, 2, 3_900),
    ]
}

fn of_allowance() -> Vec<Vector> {
    let but_last = |reading: u32, last| [[reading; 9].as_slice(), &[last]].concat();
    let but_first = |first, reading: u32| [&[first], [reading; 9].as_slice()].concat();
    vec![
        parting("allowance-of-the-mean", 10_000, &[1_001; 10]),
        parting("allowance-of-the-first-reading", 20_000, &but_first(2_001, 2_000)),
        parting("allowance-of-the-last-reading", 30_000, &but_last(3_000, 3_001)),
        parting("allowance-of-the-highest-reading", 10_000, &but_last(999, 1_001)),
        parting("allowance-of-the-lowest-reading", 10_001, &but_last(1_001, 1_000)),
        parting("allowance-of-the-second-metre", 25_000, &[2_500; 10]),
        parting("allowance-added-to-the-difference", 17_000, &around(17_000, 10, -40)),
        parting("allowance-taken-off-the-difference", 18_000, &around(18_000, 10, 40)),
    ]
}
