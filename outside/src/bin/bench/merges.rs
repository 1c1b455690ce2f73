//! Two sheets merged by the proved code and the reference.

use std::hint::black_box;

use reference::merge::{merge, Merge, MERGED_BYTES};
use reference::{sheets, SHEET_BYTES};

use crate::calls;

/// Two small sheets of three types, with nine C lines and two strikes, of which five cars remain.
const FRONT: &[u8] = include_bytes!("../../../../examples/front.txt");
const REAR: &[u8] = include_bytes!("../../../../examples/rear.txt");

type Pair = (Vec<u8>, Vec<u8>);

/// Prints a line for each kind of pair.
pub fn compare_all() {
    calls::head(
        "Nanoseconds for two sheets merged; each program has one buffer, which is not cleared.",
        ["sheets", "bytes"],
    );
    let full: Vec<Pair> = (0..8).map(sheets::full_pair).collect();
    let fullest: Vec<Pair> = (0..8).map(sheets::fullest_pair).collect();
    let is_longest = |sheet: &Vec<u8>| sheet.len() == SHEET_BYTES;
    assert!(fullest.iter().all(|(first, second)| is_longest(first) && is_longest(second)));
    compare("small, those of the examples", &[(FRONT.to_vec(), REAR.to_vec())]);
    compare("full, 30 cars each, 8 in turn", &full);
    compare("fullest, 30 of 120 cars, 8 in turn", &fullest);
}

/// Prints the line of some pairs, all of whose merged sheets have the same length.
fn compare(name: &str, pairs: &[Pair]) {
    let (mut proved, mut expected) = ([0; MERGED_BYTES], [0; MERGED_BYTES]);
    let mut length = 0;
    for (first, second) in pairs {
        let handed = outside::merge_sheets(first, second, &mut proved);
        assert_eq!(handed, merge(first, second, &mut expected), "{name}: merges differ");
        assert!(handed.number == 0 && proved == expected, "{name}: merged sheets differ");
        length = handed.length;
    }
    let pass = |program: fn(&[u8], &[u8], &mut [u8]) -> Merge, out: &mut [u8]| {
        for (first, second) in pairs {
            black_box(program(black_box(first), black_box(second), black_box(out)));
        }
    };
    calls::line_of(
        pairs.len(),
        name,
        length,
        &mut || pass(outside::merge_sheets, &mut proved),
        &mut || pass(merge, &mut expected),
    );
}
