//! Levels that are answered otherwise by a program that takes the wrong way named.

use super::{Group, Vector};

pub fn groups() -> Vec<Group<Vector>> {
    vec![
        Group { about: "Which levels are answered", vectors: of_levels() },
        Group { about: "How tenths are taken", vectors: of_tenths() },
        Group { about: "How metres are counted", vectors: of_metres() },
        Group { about: "What a metre gives", vectors: of_hundredths() },
    ]
}

fn parting(way: &str, level: u64) -> Vector {
    Vector::new(format!("parting-{way}"), level)
}

fn of_levels() -> Vec<Vector> {
    vec![
        parting("0-answered", 0),
        parting("1-answered", 1),
        parting("9-answered", 9),
        parting("10-refused", 10),
        parting("36000-refused", 36_000),
        parting("36001-answered", 36_001),
        parting("above-3600-refused", 3_601),
        parting("the-whole-fourth-metre", 38_000),
        parting("a-fifth-metre", 41_000),
        parting("three-metres-only", 31_000),
        parting("16-as-an-allowance", 37_000),
    ]
}

fn of_tenths() -> Vec<Vector> {
    vec![
        parting("tenths-as-mm", 3_000),
        parting("tenths-as-mm-and-none-too-high", 5_000),
        parting("metre-of-1000-tenths", 2_500),
        parting("tenths-cut", 10_001),
        parting("nine-tenths-cut", 30_009),
        parting("tenths-cut-above-the-highest", 36_009),
        parting("tenths-to-the-nearest-mm", 20_004),
        parting("tenths-to-the-nearest-mm-above-the-highest", 36_004),
        parting("tenths-to-the-nearest-mm-below-the-lowest", 5),
        parting("tenths-up-to-the-next-mm-below-the-lowest", 8),
    ]
}

fn of_metres() -> Vec<Vector> {
    vec![
        parting("whole-metres", 18_000),
        parting("whole-metres-and-one", 20_000),
        parting("nearest-metre", 24_000),
        parting("second-metre-as-the-third", 10_001),
        parting("metre-of-9990", 10_000),
        parting("metre-of-9999", 20_000),
        parting("metre-of-10001", 10_001),
        parting("metre-of-10010", 20_015),
        parting("metre-of-10240", 20_100),
        parting("three-metres-at-most", 34_000),
        parting("four-metres-at-most", 42_000),
        parting("thousandths-in-single-floating-point", 30_000),
    ]
}

fn of_hundredths() -> Vec<Vector> {
    vec![
        parting("31-for-the-first-metre", 7_000),
        parting("15-for-the-first-metre-too", 8_000),
        parting("l-for-l-less-1", 9_000),
        parting("30-at-every-level", 11_000),
        parting("30-for-every-metre", 12_000),
        parting("14-for-a-further-metre", 13_000),
        parting("20-for-a-further-metre", 21_000),
        parting("both-sides-of-the-deviation", 22_000),
        parting("in-micrometres", 23_000),
        parting("linear-within-a-metre", 14_000),
        parting("hundredths-cut-in-floating-point", 16_000),
    ]
}
