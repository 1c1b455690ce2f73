//! Cars chosen one by one: every rounding at an exact half, double floating point just below one,
//! and densities and temperatures at which a wrong way to E shows in V15.

use super::text::columns;
use super::Case;

pub fn cases() -> Vec<Case> {
    include_str!("halves.txt")
        .split("==\n")
        .zip(1..)
        .map(|(part, number)| {
            let (sheet, listing) = part.split_once("--\n").expect("a sheet and its listing");
            let name = format!("figures-at-halves-{number}");
            Case::new(name.leak(), columns(sheet), listing)
        })
        .collect()
}
