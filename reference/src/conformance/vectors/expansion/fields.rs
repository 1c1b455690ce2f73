//! Densities that are answered: every field of the list, and that of the rack card.

use super::{Group, Vector};
use crate::laboratory::{DENSEST, LIGHTEST};

pub fn groups() -> Vec<Group<Vector>> {
    let of_list = |density| Vector::new(format!("density-{density}"), density);
    vec![
        Group { about: "The rack card", vectors: vec![Vector::new("card-9500", 9_500)] },
        Group {
            about: "Every density field; 9600 is an exact half, which goes up",
            vectors: (LIGHTEST..=DENSEST).map(of_list).collect(),
        },
    ]
}
