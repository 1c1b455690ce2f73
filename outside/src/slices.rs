//! Tables of the reference in slices, as the library takes them.

use reference::operations::HandedIn;

use crate::{Tables, PLACES, TABLES};

/// What the places that no table uses hold: nothing that a table could have.
const UNUSED: u32 = u32::MAX;

/// Up to four tables in their places; a fifth has none and is only counted.
#[derive(Clone, Debug)]
pub struct Slices {
    count: u32,
    types: [u32; TABLES],
    rows: [u32; TABLES],
    levels: [u32; PLACES],
    capacities: [u32; PLACES],
}

impl Slices {
    pub fn new(tables: &[HandedIn]) -> Self {
        let mut slices = Self {
            count: tables.len() as u32,
            types: [UNUSED; TABLES],
            rows: [UNUSED; TABLES],
            levels: [UNUSED; PLACES],
            capacities: [UNUSED; PLACES],
        };
        for (place, table) in tables.iter().take(TABLES).enumerate() {
            slices.types[place] = table.car_type;
            slices.rows[place] = table.announced;
            for (row, at) in table.rows.iter().zip(PLACES / TABLES * place..) {
                slices.levels[at] = row.level;
                slices.capacities[at] = row.capacity;
            }
        }
        slices
    }

    pub fn lent(&self) -> Tables<'_> {
        Tables {
            count: self.count,
            types: &self.types,
            rows: &self.rows,
            levels: &self.levels,
            capacities: &self.capacities,
        }
    }
}
