//! The pairs of the conformance kit: each gives what is written down for it, and together they try every
//! refusal, each before the next.

use std::collections::HashSet;

use reference::conformance::merges::{pairs, Pair};
use reference::conformance::vectors::merge::{Vector, LENT};
use reference::conformance::vectors::{all, Written};
use reference::merge::MERGED_BYTES;
use reference::sheet::Sheet;
use reference::SHEET_BYTES;

#[test]
fn outcomes() {
    for pair in pairs() {
        let text = |merged: Vec<u8>| String::from_utf8_lossy(&merged).into_owned();
        let (given, right) = (pair.work_out(), pair.expected());
        let right = right.unwrap_or_else(|| panic!("{}: no answer is written down", pair.name));
        assert_eq!(given.map(text), right.map(text), "{}", pair.name);
    }
}

#[test]
fn names_differ_and_tell_the_outcome() {
    let pairs = pairs();
    let names: HashSet<&str> = pairs.iter().map(|pair| pair.name.as_str()).collect();
    assert_eq!(names.len(), pairs.len());
    assert!(pairs.len() >= 250);
    for Pair { name, .. } in &pairs {
        assert!(name.starts_with("merge-") && !name.contains('.'), "{name}");
    }
    for pair in &pairs {
        let rest = pair.name.trim_start_matches("merge-");
        let named = rest.strip_prefix("refusal-").or(rest.strip_prefix("order-"));
        let named = named.map(|rest| rest[..2].parse().unwrap());
        assert_eq!(pair.work_out().err().map(|(number, _)| number), named, "{}", pair.name);
    }
}

#[test]
fn every_refusal_of_either_sheet_is_tried() {
    let pairs = pairs();
    for refusal in 2..=9 {
        for first in [true, false] {
            let fits = |pair: &&Pair| {
                let own = if first { &pair.first } else { &pair.second };
                let other = if first { &pair.second } else { &pair.first };
                let own = Sheet::read(own).err().map(|rejection| rejection.refusal.number());
                own == Some(refusal) && Sheet::read(other).is_ok()
            };
            assert!(pairs.iter().any(|pair| fits(&pair)), "refusal {refusal}, first: {first}");
        }
    }
    for (refusal, least) in [(33, 40), (34, 20), (35, 15)] {
        let count = pairs.iter().filter(|pair| pair.work_out() == Err((refusal, 0))).count();
        assert!(count >= least, "{count} pairs give {refusal}");
    }
}

#[test]
fn the_longest_pairs() {
    let pairs = pairs();
    let named = |name: &str| pairs.iter().find(|pair| pair.name == name).expect(name);
    let longest = named("merge-longest-merged-sheet-39771-bytes");
    assert_eq!(longest.work_out().map(|merged| merged.len()), Ok(MERGED_BYTES));
    let longest = named("merge-longest-sheets-48111-bytes-each");
    assert_eq!([longest.first.len(), longest.second.len()], [SHEET_BYTES; 2]);
    assert_eq!(longest.work_out().map(|merged| merged.len()), Ok(MERGED_BYTES));
}

/// Where a vector's buffer is long enough, the merged sheet stands at its start and the rest is as it was
/// lent; else all of it is.
#[test]
fn buffers_of_vectors() {
    for vector in all::<Vector>() {
        let (handed_back, buffer) = vector.work_out();
        let (text, rest) = buffer.split_at(handed_back.length);
        assert!(rest.iter().all(|&byte| byte == LENT), "{}", vector.name());
        let refused = vector.buffer < MERGED_BYTES;
        let outcome = if refused { Err((1, 0)) } else { vector.sheets().work_out() };
        match outcome {
            Ok(merged) => assert_eq!(text, merged, "{}", vector.name()),
            Err(refusal) => {
                assert_eq!((handed_back.number, handed_back.line), refusal, "{}", vector.name());
                assert!(text.is_empty(), "{}", vector.name());
            }
        }
    }
}
