//! The tape allowance at one level by the proved code and the reference.

use std::hint::black_box;

use reference::level::tape_allowance;

use crate::calls;

/// Levels in 0.1 mm: both ends of those that are answered, both sides of the first whole metre, and the
/// first level that is refused.
const LEVELS: [u64; 5] = [10, 10_000, 10_001, 36_000, 36_001];

/// Prints a line for each level.
pub fn compare_all() {
    calls::head(
        "Nanoseconds for the tape allowance at one level, which the reference has in a list.",
        ["level, 0.1 mm", "answer"],
    );
    for level in LEVELS {
        calls::compare_figure(
            &level.to_string(),
            |allowance| outside::tape_allowance(black_box(level), allowance),
            || tape_allowance(black_box(level)),
        );
    }
}
