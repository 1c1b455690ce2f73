//! Accepted cars chosen one by one: a rounding of each step at levels with each tenth, ways that miss a
//! figure, and floats of no particular decimals. They stand in a text as their lines have them, without
//! answers.

use super::{Group, Vector};
use crate::conformance::vectors::Written;

const CARS: &str = include_str!("figures.txt");

pub fn groups() -> Vec<Group<Vector>> {
    vec![
        Group {
            about: "Roundings of steps 2, 3, 7 and 8 at levels with each tenth",
            vectors: named(|name| name.starts_with("rounding-") && name.contains("-at-tenth-")),
        },
        Group {
            about: "Steps 4 to 9: halves, a term too few, a step not rounded, floating point",
            vectors: named(|name| name.starts_with("rounding-") && !name.contains("-at-tenth-")),
        },
        Group {
            about: "Floats of no particular decimals",
            vectors: named(|name| name.starts_with("figures-")),
        },
    ]
}

/// The cars of the text that have such a name.
fn named(is_such: fn(&str) -> bool) -> Vec<Vector> {
    CARS.lines().map(read).filter(|vector| is_such(&vector.name)).collect()
}

fn read(line: &str) -> Vector {
    let mut parts = line.split(" | ");
    Vector::read(|| parts.next().expect("name, tables, fields and set"))
}
