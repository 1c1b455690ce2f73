//! Buffers for a merged sheet: those that are too short, those that are longer, and what is around them.

use outside::merge_sheets;
use reference::merge::{Merge, MERGED_BYTES};
use reference::sheets;

use crate::{merged, LENT};

/// Bytes on both sides of a buffer.
const MARGIN: usize = 64;

/// What a merge hands back that 1 refuses.
const TOO_SHORT: Merge = Merge { length: 0, number: 1, line: 0 };

/// Merges into the middle of the bytes, and hands back what must not be altered: all that stands before and
/// behind the merged sheet.
fn merge_amid<'a>(first: &[u8], second: &[u8], bytes: &'a mut [u8]) -> (Merge, [&'a [u8]; 2]) {
    let end = bytes.len() - MARGIN;
    let handed = merge_sheets(first, second, &mut bytes[MARGIN..end]);
    (handed, [&bytes[..MARGIN], &bytes[MARGIN + handed.length..]])
}

/// Bytes that differ from place to place.
fn lent(room: usize, seed: u8) -> Vec<u8> {
    (0..room + 2 * MARGIN).map(|place| (place * 31 + place / 256) as u8 ^ seed).collect()
}

#[test]
fn every_buffer_that_is_too_short_is_left_alone() {
    let (first, second) = sheets::full_pair(0);
    for length in 0..MERGED_BYTES {
        let mut out = vec![LENT; length];
        assert_eq!(merge_sheets(b"", b"", &mut out), TOO_SHORT);
        assert!(out.iter().all(|&byte| byte == LENT));
        if length % 97 == 0 || length + 97 > MERGED_BYTES {
            assert_eq!(merge_sheets(&first, &second, &mut out), TOO_SHORT);
            assert!(out.iter().all(|&byte| byte == LENT));
        }
    }
}

/// Sheets that are merged, one way and the other, and such as each refusal turns away, in buffers that hold
/// something.
#[test]
fn bytes_past_the_sheet_and_around_the_buffer_stay() {
    let mut numbers = [0; 36];
    for seed in 0..300 {
        let (first, second) = sheets::pair(seed);
        for room in [MERGED_BYTES, MERGED_BYTES + 1, 2 * MERGED_BYTES, 70_000] {
            let lent = lent(room, seed as u8);
            let mut bytes = lent.clone();
            let (handed, [before, behind]) = merge_amid(&first, &second, &mut bytes);
            assert!(
                before == &lent[..MARGIN] && behind == &lent[MARGIN + handed.length..],
                "{seed}"
            );
            numbers[handed.number as usize] += 1;
        }
    }
    for number in [0, 33, 34, 35] {
        assert!(numbers[number] > 0, "no pair is answered by {number}");
    }
}

/// The greatest merged sheet fills the shortest buffer.
#[test]
fn the_longest_merged_sheet_has_39771_bytes() {
    for (first, second) in [sheets::full_pair(1), sheets::fullest_pair(1)] {
        for short in [MERGED_BYTES - 1, MERGED_BYTES - 11, 8_101, 0] {
            let lent = lent(short, 0);
            let mut bytes = lent.clone();
            assert_eq!(merge_amid(&first, &second, &mut bytes).0, TOO_SHORT);
            assert!(bytes == lent);
        }
        let lent = lent(MERGED_BYTES, 0);
        let mut bytes = lent.clone();
        let (handed, [before, behind]) = merge_amid(&first, &second, &mut bytes);
        assert_eq!(handed, Merge { length: 39_771, number: 0, line: 0 });
        assert!(before == &lent[..MARGIN] && behind == &lent[MARGIN + 39_771..]);
        assert!(bytes[MARGIN..MARGIN + 39_771].ends_with(b"\nE       60\n"));
    }
}

/// 1 comes before the first sheet's refusal, that before the second's, and each names its line.
#[test]
fn refusals_of_the_buffer_and_of_each_sheet() {
    let sound: &[u8] =
        b"T        1        2\nR        0        0\nR        1        1\nE        0\n";
    let [no_table, no_end] = [&sound[..0], &sound[..60]];
    for (first, second, refusal) in [
        (no_table, no_end, (3, 1)),
        (no_end, no_table, (3, 4)),
        (sound, no_table, (3, 1)),
        (sound, no_end, (3, 4)),
    ] {
        assert_eq!(merged(first, second), Err(refusal));
        assert_eq!(merge_sheets(first, second, &mut [0; MERGED_BYTES - 1]), TOO_SHORT);
    }
    let long = sound.repeat(700);
    assert_eq!(merged(&long, no_table), Err((2, 0)));
    assert_eq!(merged(no_end, &long), Err((3, 4)));
    assert_eq!(merged(sound, &long), Err((2, 0)));
    assert_eq!(merged(sound, sound), Ok(sound.to_vec()));
}
