//! Densities that are answered otherwise by a program that takes the wrong way named.

use super::{Group, Vector};

pub fn groups() -> Vec<Group<Vector>> {
    vec![
        Group { about: "Which densities are answered", vectors: of_range() },
        Group { about: "Which place of the list is taken", vectors: of_places() },
        Group { about: "A list of fewer densities", vectors: of_few() },
        Group { about: "What stands in the list", vectors: of_numbers() },
    ]
}

fn parting(way: &str, density: u32) -> Vector {
    Vector::new(format!("parting-{way}"), density)
}

fn of_range() -> Vec<Vector> {
    vec![
        parting("8999-answered", 8_999),
        parting("9000-refused", 9_000),
        parting("9900-refused", 9_900),
        parting("9901-answered", 9_901),
        parting("first-entry-below-the-list", 8_900),
        parting("last-entry-above-the-list", 9_990),
    ]
}

fn of_places() -> Vec<Vector> {
    vec![
        parting("entry-before", 9_100),
        parting("entry-behind", 9_200),
        parting("from-the-last-to-the-first", 9_300),
        parting("entry-of-9450-left-out", 9_700),
        parting("entry-of-9450-twice", 9_701),
        parting("900-entries-from-9000", 9_900),
        parting("900-entries-from-9001", 9_000),
        parting("place-in-8-bits", 9_400),
        parting("place-in-9-bits", 9_850),
        parting("density-at-20-for-density-at-15", 9_800),
    ]
}

fn of_few() -> Vec<Vector> {
    vec![
        parting("whole-kilograms-cut", 9_459),
        parting("whole-kilograms-nearest", 9_454),
        parting("every-second-field", 9_333),
        parting("linear-between-every-tenth-field", 9_045),
        parting("linear-between-every-hundredth-field", 9_550),
        parting("linear-between-9000-and-9900", 9_350),
    ]
}

fn of_numbers() -> Vec<Vector> {
    vec![
        parting("half-goes-down", 9_600),
        parting("half-goes-to-even", 9_600),
        parting("quotient-cut", 9_868),
        parting("quotient-rounded-up", 9_896),
        parting("constant-of-fewer-digits", 9_413),
        parting("factor-of-fewer-digits", 9_125),
        parting("both-of-fewer-digits", 9_675),
        parting("formula-in-single-floating-point", 9_231),
        parting("8-digits-after-the-point", 9_251),
        parting("7-digits-after-the-point", 9_650),
        parting("in-16-bits", 9_750),
    ]
}
