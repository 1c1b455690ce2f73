//! Merging: an example by hand, a second calculation from sheets and listings as text, and what holds of
//! every merged sheet.

use std::collections::BTreeMap;

use reference::merge::{merge, Merge, MERGED_BYTES};
use reference::sheet::Sheet;
use reference::{listing, merge as merging, sheets};

const SEEDS: u64 = 3_000;

/// What a buffer holds before a merge.
const LENT: u8 = 0xa5;

/// Lines of letter and numbers, set in columns.
fn columns(text: &str) -> Vec<u8> {
    let set = |line: &str| {
        let mut words = line.split_whitespace();
        let letter = words.next().unwrap().to_string();
        words.fold(letter, |line, word| format!("{line}{word:>9}")) + "\n"
    };
    text.trim().lines().map(set).collect::<String>().into_bytes()
}

/// The paper's sheet, and one with a second type and the paper's: the number 50000004 is entered twice,
/// 50000005 struck, 50000003 typed twice, and a line has no number.
const FIRST: &str = "
    T 1 4
    R 0 0
    R 1000 20000
    R 2000 50000
    R 3000 70000
    C 50000001 1 3 1 2 1500 1500 0 0 0 600 9500 50 20
    C 50000002 1 3 1 2 1500 1501 0 0 1501 600 9500 50 20
    E 2";
const SECOND: &str = "
    T 62 2
    R 0 0
    R 2810 70865
    T 1 4
    R 0 0
    R 1000 20000
    R 2000 50000
    R 3000 70000
    C 50000004 62 1 1 2 900 900 0 0 0 600 9500 0 0
    C 50000005 1 3 1 2 700 700 0 0 0 600 9500 50 20
    K 50000004
    C 50000003 62 4 2 4 1500 1504 1501 1502 3 600 9500 50 20
    C 50000003 1 3 1 2 100 100 0 0 0 600 9500 50 20
    K 50000005
    C 50000000 9 3 1 2 800 800 0 0 0 600 9500 50 20
    C 50000004 62 2 2 2 901 900 0 0 0 600 9500 0 0
    C 0 1 3 1 2 1500 1500 0 0 0 600 9500 50 20
    K 7
    E 7";
const MERGED: &str = "
    T 1 4
    R 0 0
    R 1000 20000
    R 2000 50000
    R 3000 70000
    T 62 2
    R 0 0
    R 2810 70865
    C 50000000 9 3 1 2 800 800 0 0 0 600 9500 50 20
    C 50000001 1 3 1 2 1500 1500 0 0 0 600 9500 50 20
    C 50000002 1 3 1 2 1500 1501 0 0 1501 600 9500 50 20
    C 50000003 62 4 2 4 1500 1504 1501 1502 3 600 9500 50 20
    C 50000004 62 2 2 2 901 900 0 0 0 600 9500 0 0
    E 5";

/// A merge, and the buffer of so many bytes that was lent for it.
fn merged(first: &[u8], second: &[u8], buffer: usize) -> (Merge, Vec<u8>) {
    let mut out = vec![LENT; buffer];
    (merge(first, second, &mut out), out)
}

#[test]
fn an_example_by_hand() {
    let (first, second, right) = (columns(FIRST), columns(SECOND), columns(MERGED));
    for (one, other) in [(&first, &second), (&second, &first)] {
        let (handed_back, out) = merged(one, other, MERGED_BYTES + 9);
        assert_eq!(handed_back, Merge { length: 811, number: 0, line: 0 });
        assert_eq!(String::from_utf8_lossy(&out[..811]), String::from_utf8_lossy(&right));
        assert!(out[811..].iter().all(|&byte| byte == LENT));
    }
    assert_eq!(merging::of(&first, &second), Ok(right));
}

#[test]
fn refusals_by_hand() {
    let (first, second) = (FIRST, SECOND);
    let number = |first: &str, second: &str| {
        let (handed_back, out) = merged(&columns(first), &columns(second), MERGED_BYTES);
        assert_eq!(handed_back.length, 0);
        assert!(out.iter().all(|&byte| byte == LENT));
        (handed_back.number, handed_back.line)
    };
    let other_row = second.replace("R 3000 70000", "R 3000 70001");
    let same_number = second.replace("C 50000000 9", "C 50000001 9");
    let its_type = second.replace("C 50000000 9", "C 50000000 63");
    let with_63 = first.replace("T 1 4", "T 63 2\nR 0 0\nR 1 1\nT 1 4");
    let more: String = (63..66).map(|of| format!("T {of} 2\nR 0 0\nR 1 1\n")).collect();
    assert_eq!(number(&first.replace("E 2", "E 3"), &second.replace("T 62", "T 0")), (9, 8));
    assert_eq!(number(first, &second.replace("T 62", "T 0")), (7, 1));
    assert_eq!(number(first, &other_row), (33, 0));
    assert_eq!(number(&with_63, &its_type), (33, 0));
    assert_eq!(number(first, &same_number), (34, 0));
    assert_eq!(number(first, &(more.clone() + second.trim())), (7, 13));
    assert_eq!(number(&(more + first.trim()), second), (35, 0));
    let (short, out) = merged(&columns(first), b"", MERGED_BYTES - 1);
    assert_eq!(short, Merge { length: 0, number: 1, line: 0 });
    assert!(out.iter().all(|&byte| byte == LENT));
}

/// A sheet as text when it is done: rows by type, and the lines of held cars with their answers.
struct Done {
    tables: BTreeMap<u32, Vec<String>>,
    held: BTreeMap<u32, (String, String)>,
}

fn number(line: &str, field: usize) -> u32 {
    line[1 + 9 * field..10 + 9 * field].trim().parse().unwrap()
}

/// Goes through a sheet beside its listing; a refused one gives number and line.
fn done(sheet: &[u8]) -> Result<Done, (u32, u32)> {
    let listing = String::from_utf8(listing::of(sheet)).unwrap();
    if listing.starts_with('Z') {
        return Err((number(&listing, 1), number(&listing, 0)));
    }
    let mut answers = listing.lines();
    let mut done = Done { tables: BTreeMap::new(), held: BTreeMap::new() };
    let mut rows: Vec<String> = Vec::new();
    for line in std::str::from_utf8(sheet).unwrap().lines().rev() {
        match &line[..1] {
            "R" => rows.push(line.to_string()),
            "T" => drop(done.tables.insert(number(line, 0), rows.drain(..).rev().collect())),
            _ => {}
        }
    }
    let lines = std::str::from_utf8(sheet).unwrap().lines();
    for line in lines.filter(|line| line.starts_with(['C', 'K'])) {
        let answer = answers.next().unwrap();
        let turned_away = answer.starts_with('X') && matches!(number(answer, 1), 9..=11 | 30);
        if turned_away {
            continue;
        } else if line.starts_with('K') {
            done.held.remove(&number(line, 0));
        } else {
            let before = done.held.insert(number(line, 0), (line.to_string(), answer.to_string()));
            assert!(before.is_none());
        }
    }
    Ok(done)
}

/// The merged sheet as text, or the refusal and its line, by the papers.
fn expected(first: &[u8], second: &[u8]) -> Result<String, (u32, u32)> {
    let (first, second) = (done(first)?, done(second)?);
    let differs =
        first.tables.iter().any(|(of, rows)| second.tables.get(of).is_some_and(|o| o != rows));
    let finds = |one: &Done, other: &Done| {
        let mut types = one.held.values().map(|(line, _)| number(line, 1));
        types.any(|of| !one.tables.contains_key(&of) && other.tables.contains_key(&of))
    };
    if differs || finds(&first, &second) || finds(&second, &first) {
        return Err((33, 0));
    }
    if first.held.keys().any(|number| second.held.contains_key(number)) {
        return Err((34, 0));
    }
    let tables: BTreeMap<_, _> = first.tables.into_iter().chain(second.tables).collect();
    let cars: BTreeMap<_, _> = first.held.into_iter().chain(second.held).collect();
    if tables.len() > 4 || cars.len() > 60 {
        return Err((35, 0));
    }
    let table = |(of, rows): (&u32, &Vec<String>)| {
        format!("T{of:>9}{:>9}\n{}\n", rows.len(), rows.join("\n"))
    };
    let lines: String = cars.values().map(|(line, _)| format!("{line}\n")).collect();
    let end = format!("E{:>9}\n", cars.len());
    Ok(tables.iter().map(table).collect::<String>() + &lines + &end)
}

#[test]
fn generated_pairs_as_the_second_calculation_has_them() {
    for seed in 0..SEEDS {
        let (first, second) = sheets::pair(seed);
        let buffer = MERGED_BYTES + (seed as usize % 3) * 77;
        let (handed_back, out) = merged(&first, &second, buffer);
        let (text, rest) = out.split_at(handed_back.length);
        let right = match expected(&first, &second) {
            Ok(right) => {
                assert_eq!((handed_back.number, handed_back.line), (0, 0), "seed {seed}");
                right
            }
            Err(refusal) => {
                assert_eq!((handed_back.number, handed_back.line), refusal, "seed {seed}");
                String::new()
            }
        };
        assert_eq!(String::from_utf8_lossy(text), right, "seed {seed}");
        assert!(rest.iter().all(|&byte| byte == LENT), "seed {seed}");
        let (short, out) = merged(&first, &second, MERGED_BYTES - 1 - seed as usize % 50);
        assert_eq!(short, Merge { length: 0, number: 1, line: 0 });
        assert!(out.iter().all(|&byte| byte == LENT), "seed {seed}");
    }
}

/// The S line and the G lines of a listing, each with its numbers.
fn totals(sheet: &[u8]) -> Vec<Vec<u32>> {
    let listing = String::from_utf8(listing::of(sheet)).unwrap();
    let lines: Vec<&str> = listing.lines().collect();
    let totals = &lines[lines.len() - 5..];
    let counted = |line: &&str| usize::from(line.starts_with('G'));
    totals
        .iter()
        .map(|line| (counted(line)..counted(line) + 3).map(|field| number(line, field)).collect())
        .collect()
}

/// What holds of a merged sheet and the two that it was made of.
fn hold(seed: u64, first: &[u8], second: &[u8], merged: &[u8]) {
    let read = Sheet::read(merged).unwrap_or_else(|_| panic!("seed {seed}: not read"));
    let (one, other) = (done(first).unwrap(), done(second).unwrap());
    let all = done(merged).unwrap();
    assert_eq!(all.held.len(), read.cars().count(), "seed {seed}: a car is not held");
    assert_eq!(read.events().len(), read.cars().count(), "seed {seed}: a K line");
    let own: BTreeMap<_, _> = one.held.into_iter().chain(other.held).collect();
    assert_eq!(all.held, own, "seed {seed}: lines and answers");
    let sum = |(a, b): (Vec<u32>, Vec<u32>)| -> Vec<u32> {
        a.iter().zip(b).map(|(a, b)| a + b).collect()
    };
    let sums: Vec<Vec<u32>> = totals(first).into_iter().zip(totals(second)).map(sum).collect();
    assert_eq!(totals(merged), sums, "seed {seed}");
}

/// A sheet of the table at a place of a merged sheet, and no cars.
fn table_of(merged: &[u8], place: usize) -> Vec<u8> {
    let text = std::str::from_utf8(merged).unwrap();
    let heads: Vec<usize> = text.match_indices('T').map(|(at, _)| at).collect();
    let start = heads[place % heads.len()];
    let ends = |at: &usize| *at > start;
    let end = heads.iter().copied().find(ends).or(text.find('C')).or(text.find('E')).unwrap();
    format!("{}E        0\n", &text[start..end]).into_bytes()
}

#[test]
fn merged_sheets_keep_what_both_sheets_say() {
    let mut count = 0;
    for seed in 0..SEEDS {
        let (first, second) = sheets::pair(seed);
        let Ok(merged) = merging::of(&first, &second) else { continue };
        count += 1;
        hold(seed, &first, &second, &merged);
        assert_eq!(merging::of(&second, &first).as_ref(), Ok(&merged), "seed {seed}: turned round");
        let table = table_of(&merged, seed as usize);
        assert_eq!(merging::of(&merged, &table).as_ref(), Ok(&merged), "seed {seed}: again");
        assert_eq!(merging::of(&table, &merged).as_ref(), Ok(&merged), "seed {seed}: again");
    }
    assert!(count > SEEDS / 3, "{count} merged");
}

#[test]
fn merges_that_are_refused_turned_round() {
    for seed in 0..SEEDS {
        let (first, second) = sheets::pair(seed);
        let Err(one) = merging::of(&first, &second) else { continue };
        let Err(other) = merging::of(&second, &first) else { panic!("seed {seed}: merged") };
        let own = one.refusal.number() <= 9;
        assert!(own || one == other, "seed {seed}: {one:?} and {other:?}");
    }
}
