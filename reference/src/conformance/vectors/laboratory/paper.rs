//! The densities that GOST R 8.787 prints.

use super::{Group, Vector};

pub fn groups() -> Vec<Group<Vector>> {
    vec![Group {
        about: "Densities at 15 °C printed in annexes Б and Д of GOST R 8.787",
        vectors: [
            (9_300, 500),
            (9_400, 500),
            (9_300, 510),
            (9_400, 510),
            (9_330, 503),
            (9_460, 402),
        ]
        .map(|(reported, temperature)| {
            Vector::new(format!("printed-{reported}-at-{temperature}"), reported, temperature)
        })
        .to_vec(),
    }]
}
