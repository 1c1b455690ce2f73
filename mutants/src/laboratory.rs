//! The density at 15 °C of reports as the reference and its rewritten copy answer them, those of one
//! temperature together: its column is worked out once.

use std::collections::BTreeMap;

use reference::conformance::vectors::laboratory::Vector;
use reference::laboratory::density_at_15;

use crate::draw::Draw;
use crate::hooks;
use crate::turned::laboratory as turned;

/// Reports by lot at each temperature by lot.
const REPORTS: usize = 60;

/// Densities reported at one temperature, in 0.1 kg/m³ and 0.1 °C.
pub struct Reports {
    pub temperature: u32,
    pub reported: Vec<u32>,
}

/// What a caller sees: the density at 15 °C, or the refusal.
macro_rules! seen {
    ($answer:expr) => {
        match $answer {
            Ok(density) => density.0,
            Err(refusal) => refusal.number(),
        }
        .to_ne_bytes()
    };
}

/// The reports of vectors by temperature.
pub fn of_vectors(vectors: &[Vector]) -> Vec<Reports> {
    let mut found: BTreeMap<u32, Vec<u32>> = BTreeMap::new();
    for vector in vectors {
        found.entry(vector.temperature).or_default().push(vector.reported);
    }
    found.into_iter().map(|(temperature, reported)| Reports { temperature, reported }).collect()
}

impl Reports {
    pub fn right(&self) -> Vec<u8> {
        let look_up = |&reported: &u32| seen!(density_at_15(reported, self.temperature));
        self.reported.iter().flat_map(look_up).collect()
    }

    pub fn turned(&self) -> Vec<u8> {
        let column = turned::Column::at(self.temperature);
        let in_order =
            |reported| hooks::reordered(|| turned::density_at_15(reported, self.temperature));
        let look_up = |&reported: &u32| match &column {
            Ok(column) => seen!(column.look_up(reported)),
            Err(_) => seen!(in_order(reported)),
        };
        self.reported.iter().flat_map(look_up).collect()
    }
}

/// Reports by lot, most of them near what some density comes to.
pub fn drawn(count: u64) -> impl Iterator<Item = Reports> {
    (0..count).map(|seed| {
        let mut draw = Draw::new(seed);
        let temperature = draw.between(199, 901);
        let reported = (0..REPORTS).map(|_| draw.between(8_400, 9_900)).collect();
        Reports { temperature, reported }
    })
}
