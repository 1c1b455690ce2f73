//! Small sheets that each try one point of the rules, with the listing each must give; and what no
//! sheet asks, in [`vectors`].
//!
//! The listings stand here as constants, worked out by a separate calculation; the tests compare
//! them with what this package answers.

mod calculation;
mod cars;
mod damage;
mod damage_order;
mod each_car;
mod each_table;
mod ends;
mod expansion;
pub mod figures;
mod halves;
pub mod index;
mod levels;
mod lines;
pub mod merges;
mod order;
mod rack;
mod repeats;
mod roundings;
mod sizes;
mod sources;
mod span_order;
mod spans;
pub mod steps;
mod strikes;
mod tables;
mod tenths;
mod tenths_partings;
mod text;
mod totals;
pub mod vectors;
mod wide;

/// A sheet, the listing it must give, and a name that says what it tries.
pub struct Case {
    pub name: &'static str,
    pub sheet: Vec<u8>,
    pub listing: Vec<u8>,
}

impl Case {
    fn new(name: &'static str, sheet: Vec<u8>, listing: &str) -> Self {
        Self { name, sheet, listing: text::columns(listing) }
    }
}

/// All cases.
pub fn cases() -> Vec<Case> {
    [
        rack::cases(),
        sizes::cases(),
        lines::cases(),
        tables::cases(),
        ends::cases(),
        cars::cases(),
        levels::cases(),
        tenths::cases(),
        spans::cases(),
        roundings::cases(),
        calculation::cases(),
        tenths_partings::cases(),
        order::cases(),
        span_order::cases(),
        sources::cases(),
        damage::cases(),
        damage_order::cases(),
        each_table::cases(),
        each_car::cases(),
        figures::cases(),
        halves::cases(),
        repeats::cases(),
        wide::cases(),
        totals::cases(),
        strikes::cases(),
        expansion::cases(),
    ]
    .into_iter()
    .flatten()
    .collect()
}
