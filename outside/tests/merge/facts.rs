//! What is so of every merged sheet, by the library's own answers to it and to the two sheets.

use outside::random::Random;
use reference::sheets;

use crate::listed::Listed;
use crate::merged;

/// Generated pairs that are tried.
const PAIRS: u64 = 3_000;

/// The pairs that are merged, each with its merged sheet.
fn merged_pairs() -> impl Iterator<Item = (Vec<u8>, Vec<u8>, Vec<u8>)> {
    (0..PAIRS).map(sheets::pair).filter_map(|(first, second)| {
        let sheet = merged(&first, &second).ok()?;
        Some((first, second, sheet))
    })
}

/// The held cars of both sheets stand on it by their lines, rising, and the tables of both before them.
#[test]
fn tables_and_cars_are_those_of_both() {
    let mut count = 0;
    for (first, second, sheet) in merged_pairs() {
        let [one, other] = [&first, &second].map(|sheet| Listed::new(sheet));
        let (mut tables, mut held) = (one.tables, one.held);
        tables.extend(other.tables);
        held.extend(other.held);
        let mut expected: String = tables.into_values().collect();
        expected.extend(held.values().map(|(line, _)| line.as_str()));
        expected += &format!("E{:>9}\n", held.len());
        assert_eq!(String::from_utf8_lossy(&sheet), expected);
        count += 1;
    }
    assert!(count > PAIRS / 3, "only {count} pairs are merged");
}

/// Each car is answered as on its own sheet, and S and G lines are the sums.
#[test]
fn answers_stay_and_totals_are_sums() {
    for (first, second, sheet) in merged_pairs() {
        let [one, other, both] = [&first, &second, &sheet].map(|sheet| Listed::new(sheet));
        let mut held = one.held;
        held.extend(other.held);
        assert_eq!(both.held, held);
        let pairs = one.totals.iter().zip(&other.totals);
        for (grade, (sums, (here, there))) in (0..).zip(both.totals.iter().zip(pairs)) {
            let mut expected: Vec<u64> = here.iter().zip(there).map(|(x, y)| x + y).collect();
            if grade > 0 {
                expected[0] = grade;
            }
            assert_eq!(*sums, expected);
        }
    }
}

#[test]
fn the_other_way_round_it_is_the_same() {
    for seed in 0..PAIRS {
        let (first, second) = sheets::pair(seed);
        let (one, other) = (merged(&first, &second), merged(&second, &first));
        match (&one, &other) {
            // A sheet's own refusal: that of the first is given.
            (Err((2..=9, _)), Err((2..=9, _))) => {}
            _ => assert!(one == other, "{seed}"),
        }
    }
}

/// With any of its tables and no cars a merged sheet gives itself, and so it does where its cars are dealt
/// out to two sheets and these are merged.
#[test]
fn a_merged_sheet_comes_again_of_its_parts() {
    let mut random = Random::new(11);
    for (_, _, sheet) in merged_pairs() {
        let parts = Listed::new(&sheet);
        let again = Ok(sheet.clone());
        for table in parts.tables.values() {
            let alone = format!("{table}E        0\n").into_bytes();
            assert!(merged(&sheet, &alone) == again && merged(&alone, &sheet) == again);
        }
        let tables: String = parts.tables.into_values().collect();
        let (mut halves, mut counts) = ([tables.clone(), tables], [0, 0]);
        for (line, _) in parts.held.values() {
            let half = random.below(2);
            halves[half] += line;
            counts[half] += 1;
        }
        let ended = |half: usize| format!("{}E{:>9}\n", halves[half], counts[half]).into_bytes();
        assert!(merged(&ended(0), &ended(1)) == again);
    }
}

/// A sheet with itself: 34 where it holds a car, else its tables, rising.
#[test]
fn a_sheet_with_itself() {
    for seed in 0..PAIRS {
        let (sheet, _) = sheets::pair(seed);
        let with_itself = merged(&sheet, &sheet);
        if matches!(with_itself, Err((2..=9, _))) {
            continue;
        }
        let Listed { held, tables, .. } = Listed::new(&sheet);
        let tables: String = tables.into_values().collect();
        let alone = format!("{tables}E        0\n").into_bytes();
        let expected = if held.is_empty() { Ok(alone) } else { Err((34, 0)) };
        assert!(with_itself == expected, "{seed}");
    }
}
