//! Reports that are answered otherwise by a program that takes the wrong way named.

use super::{Group, Vector};

pub fn groups() -> Vec<Group<Vector>> {
    vec![
        Group { about: "What is searched, and which field is taken", vectors: of_search() },
        Group { about: "What stands in f(r)", vectors: of_density() },
        Group { about: "A formula in place of the search", vectors: of_formulas() },
    ]
}

fn parting(way: &str, reported: u32, temperature: u32) -> Vector {
    Vector::new(format!("parting-{way}"), reported, temperature)
}

fn of_search() -> Vec<Vector> {
    vec![
        parting("larger-of-a-tie", 9_151, 600),
        parting("tie-by-the-unrounded-density", 8_689, 900),
        parting("search-from-9001", 8_684, 600),
        parting("search-to-9899", 9_595, 600),
        parting("difference-of-1-refused", 9_050, 600),
        parting("difference-before-rounding-of-the-lightest", 8_754, 500),
        parting("difference-before-rounding-of-the-densest", 9_867, 201),
        parting("temperature-from-400", 9_200, 399),
        parting("temperature-above-200", 9_200, 200),
        parting("temperature-below-900", 9_200, 900),
        parting("whole-kilograms", 9_200, 300),
        parting("whole-degrees", 9_173, 201),
    ]
}

fn of_density() -> Vec<Vector> {
    vec![
        parting("density-cut", 9_174, 200),
        parting("density-rounded-up", 8_967, 200),
        parting("d-from-20-degrees", 9_200, 310),
        parting("temperature-for-d", 9_200, 320),
        parting("always-20-degrees", 9_200, 330),
        parting("divided-by-e", 9_600, 200),
        parting("b-of-the-field-below", 9_827, 201),
        parting("b-of-the-field-above", 9_172, 200),
        parting("b-of-the-report", 9_183, 200),
        parting("b-of-9500", 9_080, 200),
        parting("square-of-b-in-single-floating-point", 9_269, 727),
        parting("sum-of-b-in-single-floating-point", 9_514, 539),
        parting("quotient-of-b-in-single-floating-point", 9_165, 342),
        parting("b-not-rounded", 9_484, 300),
        parting("b-not-rounded-goes-up", 9_011, 889),
        parting("square-left-out", 9_081, 200),
        parting("square-taken-off", 9_081, 300),
        parting("two-terms", 9_171, 300),
        parting("three-terms", 8_904, 418),
        parting("four-terms", 8_950, 821),
        parting("single-floating-point", 9_515, 202),
    ]
}

fn of_formulas() -> Vec<Vector> {
    vec![
        parting("report-over-e-of-the-report", 9_139, 500),
        parting("report-over-e-corrected-once", 9_391, 700),
        parting("report-over-e-corrected-three-times", 9_367, 900),
        parting("report-times-1-plus-b-times-d", 8_916, 900),
        parting("linear-between-9000-and-9900", 8_932, 500),
        parting("linear-between-every-hundredth-field", 9_553, 600),
    ]
}
