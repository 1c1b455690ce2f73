//! The generator of pairs: equal seeds, about half of them merged, and every reason not to be.

use std::collections::{BTreeMap, HashSet};

use reference::merge::{self, MERGED_BYTES};
use reference::refusal::Refusal;
use reference::sheet::Sheet;
use reference::{listing, sheets, SHEET_BYTES};

const SEEDS: u64 = 4_000;

#[test]
fn equal_seeds_give_equal_pairs() {
    for seed in [0, 1, 77, u64::MAX] {
        assert_eq!(sheets::pair(seed), sheets::pair(seed));
        assert_eq!(sheets::full_pair(seed), sheets::full_pair(seed));
        assert_eq!(sheets::fullest_pair(seed), sheets::fullest_pair(seed));
    }
    let pairs: HashSet<_> = (0..100).map(sheets::pair).collect();
    assert!(pairs.len() >= 98);
}

/// Whether a sheet is refused itself.
fn is_refused(sheet: &[u8]) -> bool {
    Sheet::read(sheet).is_err()
}

/// How many of all pairs come to each number; own refusals of the first and of the second apart.
fn shares() -> BTreeMap<&'static str, u64> {
    let mut seen = BTreeMap::new();
    for seed in 0..SEEDS {
        let (first, second) = sheets::pair(seed);
        let what = match merge::of(&first, &second).map_err(|refused| refused.refusal) {
            Ok(_) => "merged",
            Err(Refusal::MergedTables) => "33",
            Err(Refusal::HeldTwice) => "34",
            Err(Refusal::MergedSize) => "35",
            Err(_) if is_refused(&first) && is_refused(&second) => "both refused",
            Err(_) if is_refused(&first) => "first refused",
            Err(_) => "second refused",
        };
        *seen.entry(what).or_default() += 1;
    }
    seen
}

#[test]
fn every_outcome_has_its_share() {
    let seen = shares();
    let share = |what: &str| seen.get(what).map_or(0, |count| 100 * count / SEEDS);
    assert!((45..=58).contains(&share("merged")), "{seen:?}");
    for (what, least) in [("33", 10), ("34", 5), ("35", 5)] {
        assert!(share(what) >= least, "{what}: {seen:?}");
    }
    for (what, least) in [("first refused", 3), ("second refused", 3), ("both refused", 2)] {
        assert!(share(what) >= least, "{what}: {seen:?}");
    }
}

/// Lines of a sheet with a letter.
fn count(sheet: &[u8], letter: u8) -> usize {
    sheet.split(|&byte| byte == b'\n').filter(|line| line.first() == Some(&letter)).count()
}

/// What is met in pairs that are merged.
fn met(first: &[u8], second: &[u8], merged: &[u8]) -> Vec<&'static str> {
    let both = [first, second];
    let sheets = both.map(|sheet| Sheet::read(sheet).unwrap_or_else(|_| panic!("a sound sheet")));
    let [one, other] = &sheets;
    let types: Vec<u32> = sheets.iter().flat_map(|sheet| sheet.tables.types()).collect();
    let cars = count(merged, b'C');
    let listings = both.map(|sheet| String::from_utf8(listing::of(sheet)).unwrap());
    let has = |refusal: u32| {
        let end = format!("{refusal:>9}");
        listings
            .iter()
            .flat_map(|text| text.lines())
            .any(|l| l.starts_with('X') && l.ends_with(&end))
    };
    let kinds = [
        ("sixty cars", cars == 60),
        ("no cars", cars == 0),
        ("cars on one sheet only", both.iter().any(|sheet| count(sheet, b'C') == 0) && cars > 0),
        ("four types", count(merged, b'T') == 4),
        ("one type", count(merged, b'T') == 1),
        ("a table in common", one.tables.types().any(|of| other.tables.find(of).is_some())),
        ("tables that fall", types.windows(2).any(|pair| pair[0] > pair[1])),
        ("an unused table", types.iter().any(|of| !is_used(merged, *of))),
        ("a struck car", listings.iter().any(|text| text.contains("\nK"))),
        ("a car refused by 9", has(9)),
        ("a car refused by 10", has(10)),
        ("a car refused by 11", has(11)),
        ("a car refused by 12", has(12)),
        ("a car refused by 17", has(17)),
        ("a long sheet", merged.len() > 20_000),
        ("numbers struck here and held there", is_moved(one, other, merged)),
    ];
    kinds.into_iter().filter(|(_, is_met)| *is_met).map(|(what, _)| what).collect()
}

fn is_used(merged: &[u8], car_type: u32) -> bool {
    Sheet::read(merged).is_ok_and(|sheet| sheet.cars().any(|car| car.car_type == car_type))
}

/// Whether a car of the merged sheet has lines on both sheets.
fn is_moved(one: &Sheet, other: &Sheet, merged: &[u8]) -> bool {
    let on = |sheet: &Sheet, number: u32| sheet.cars().any(|car| car.number == number);
    Sheet::read(merged).is_ok_and(|sheet| {
        let mut numbers = sheet.cars().map(|car| car.number);
        numbers.any(|number| on(one, number) && on(other, number))
    })
}

#[test]
fn merged_pairs_are_of_every_kind() {
    let mut seen: BTreeMap<&str, u32> = BTreeMap::new();
    for seed in 0..SEEDS {
        let (first, second) = sheets::pair(seed);
        let Ok(merged) = merge::of(&first, &second) else { continue };
        for what in met(&first, &second, &merged) {
            *seen.entry(what).or_default() += 1;
        }
    }
    let at_least = [
        ("sixty cars", 200),
        ("no cars", 50),
        ("cars on one sheet only", 100),
        ("four types", 200),
        ("one type", 100),
        ("a table in common", 500),
        ("tables that fall", 500),
        ("an unused table", 300),
        ("a struck car", 500),
        ("a car refused by 9", 50),
        ("a car refused by 10", 200),
        ("a car refused by 11", 200),
        ("a car refused by 12", 200),
        ("a car refused by 17", 200),
        ("a long sheet", 5),
        ("numbers struck here and held there", 100),
    ];
    for (what, times) in at_least {
        assert!(seen.get(what).is_some_and(|&met| met >= times), "{what}: {seen:?}");
    }
}

#[test]
fn limits_are_met_on_both_sides() {
    let mut seen: BTreeMap<(usize, usize), u32> = BTreeMap::new();
    for seed in 0..SEEDS {
        let (first, second) = sheets::pair(seed);
        let (Ok(one), Ok(other)) = (Sheet::read(&first), Sheet::read(&second)) else { continue };
        if merge::of(&first, &second).is_err_and(|refused| refused.refusal != Refusal::MergedSize) {
            continue;
        }
        let types: HashSet<u32> = one.tables.types().chain(other.tables.types()).collect();
        let held = [&first, &second].map(|sheet| held(sheet)).iter().sum::<usize>();
        *seen.entry((types.len().min(5), held.clamp(59, 61))).or_default() += 1;
    }
    for types in [4, 5] {
        for held in [59, 60, 61] {
            assert!(seen.get(&(types, held)).is_some_and(|&met| met >= 5), "{seen:?}");
        }
    }
}

/// How many cars a sheet holds in the end, by what it comes to where it is merged with its own tables.
fn held(sheet: &[u8]) -> usize {
    let text = std::str::from_utf8(sheet).unwrap();
    let tables: String = text
        .lines()
        .filter(|line| line.starts_with(['T', 'R']))
        .map(|line| format!("{line}\n"))
        .collect();
    let merged = merge::of(sheet, format!("{tables}E        0\n").as_bytes());
    merged.map_or(0, |merged| count(&merged, b'C'))
}

#[test]
fn full_pairs_merge_to_the_greatest_length() {
    for seed in 0..10 {
        let (first, second) = sheets::full_pair(seed);
        assert_eq!([first.len(), second.len()], [MERGED_BYTES - 30 * 128; 2]);
        let merged = merge::of(&first, &second).unwrap_or_else(|_| panic!("seed {seed}"));
        assert_eq!(merged.len(), MERGED_BYTES);
        let (first, second) = sheets::fullest_pair(seed);
        assert_eq!([first.len(), second.len()], [SHEET_BYTES; 2]);
        let merged = merge::of(&first, &second).unwrap_or_else(|_| panic!("seed {seed}"));
        assert_eq!(merged.len(), MERGED_BYTES);
        assert!(listing::of(&merged).windows(10).any(|text| text == b"S       60"));
    }
}
