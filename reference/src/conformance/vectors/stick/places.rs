//! Every place: its reading counts and is tested where it is given, and is not looked at where not.

use super::{apart, but, Group, Vector, LEVEL};
use crate::stick::TAPE_READINGS;

pub fn groups() -> Vec<Group<Vector>> {
    let given = || 1..=TAPE_READINGS;
    vec![
        Group {
            about:
                "Every place counts: its reading alone differs, by as many mm as there are readings",
            vectors: given().map(counted).collect(),
        },
        Group {
            about: "29: every place is tested, here for 0 and for 3601",
            vectors: given().flat_map(tested).collect(),
        },
        Group {
            about: "Unused places are not looked at, whatever they hold",
            vectors: (11..=TAPE_READINGS).flat_map(unused).collect(),
        },
    ]
}

/// As few readings as there may be with one in the place, counted from 1.
fn counted(place: usize) -> Vector {
    let count = place.max(10);
    but(format!("counted-place-{place}"), count, place, LEVEL - count as u32)
}

fn tested(place: usize) -> [Vector; 2] {
    [0, 3_601].map(|reading| {
        but(format!("refusal-29-place-{place}-{reading}"), place.max(10), place, reading)
    })
}

/// Unused places from one on, counted from 1.
fn unused(place: usize) -> [Vector; 2] {
    let count = place as u32 - 1;
    [LEVEL + 100, u32::MAX]
        .map(|number| apart(format!("unused-from-{place}-{number}"), count, 30).with_unused(number))
}
