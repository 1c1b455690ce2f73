//! Buffers for a merged sheet, each with a pair of the conformance sheets.

use outside::merge_sheets;
use reference::conformance::merges::Pair;
use reference::conformance::vectors::merge::{Vector, LENT};
use reference::conformance::vectors::{all, read};
use reference::merge::Merge;

const MERGE_BUFFER: &str = include_str!("../../../conformance/merge-buffer.vectors");

/// A line's answer: the length, the refusal's number or 0, and its line.
fn expected(answer: &str) -> Merge {
    let words: Vec<u32> = answer.split(' ').map(|word| word.parse().expect("a number")).collect();
    let [length, number, line] = words.try_into().expect("three numbers");
    Merge { length: length as usize, number, line }
}

#[test]
fn every_line_of_the_buffers_for_a_merged_sheet() {
    let vectors = read::<Vector>(MERGE_BUFFER);
    assert_eq!(vectors.len(), all::<Vector>().len());
    for (vector, answer) in vectors {
        let pair: &Pair = vector.sheets();
        let mut out = vec![LENT; vector.buffer];
        let handed = merge_sheets(&pair.first, &pair.second, &mut out);
        assert_eq!(handed, expected(answer), "{}", vector.name);
        let (sheet, rest) = out.split_at(handed.length);
        assert!(rest.iter().all(|&byte| byte == LENT), "{}", vector.name);
        if handed.number == 0 {
            assert!(pair.expected().expect("an answer") == Ok(sheet.to_vec()), "{}", vector.name);
        }
    }
}
