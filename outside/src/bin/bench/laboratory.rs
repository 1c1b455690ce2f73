//! The density at 15 °C of one report by the proved code and the reference.

use std::hint::black_box;

use reference::laboratory;

use crate::calls;

/// Reports in 0.1 kg/m³ and 0.1 °C: two that are printed in GOST R 8.787, a tie, the edges of 27.
const REPORTS: [(u32, u32); 5] =
    [(9_300, 500), (9_460, 402), (9_173, 200), (8_471, 900), (9_389, 900)];

/// Prints a line for each report.
pub fn compare_all() {
    calls::head(
        "Nanoseconds for the density at 15 °C of one report, which the reference searches among all.",
        ["report, 0.1 kg/m³ and 0.1 °C", "answer"],
    );
    REPORTS.into_iter().for_each(|(reported, temperature)| compare(reported, temperature));
}

fn compare(reported: u32, temperature: u32) {
    calls::compare_figure(
        &format!("{reported} at {temperature}"),
        |density| outside::density_at_15(black_box(reported), black_box(temperature), density),
        || {
            let (reported, temperature) = black_box((reported, temperature));
            laboratory::density_at_15(reported, temperature).map(|density| density.0)
        },
    );
}
