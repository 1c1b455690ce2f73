//! Every conformance sheet gives the listing written down for it, and the sheets try every refusal.

use std::collections::HashSet;

use reference::conformance::{cases, merges};
use reference::{listing, SHEET_BYTES};

#[test]
fn listings() {
    for case in cases() {
        let listing = listing::of(&case.sheet);
        assert_eq!(
            String::from_utf8_lossy(&listing),
            String::from_utf8_lossy(&case.listing),
            "{}",
            case.name
        );
    }
}

#[test]
fn names_differ_and_sheets_are_small() {
    let cases = cases();
    let names: HashSet<&str> = cases.iter().map(|case| case.name).collect();
    assert_eq!(names.len(), cases.len());
    assert!(cases.len() >= 100);
    // Tables of 400 rows, more than 77 cars, or more bytes than 16 bits count.
    let large = cases.iter().filter(|case| case.sheet.len() > 10_000).count();
    assert_eq!(large, 27);
}

#[test]
fn the_longest_sheet_and_the_longest_listing() {
    let cases = cases();
    let longest = |name: &str| cases.iter().find(|case| case.name == name).unwrap();
    let case = longest("accepted-longest-sheet-48111-bytes");
    assert_eq!((case.sheet.len(), case.listing.len()), (SHEET_BYTES, 120 * 56 + 60 * 11 + 181));
    assert_eq!(longest("refusal-02-sheet-of-48112-bytes").sheet.len(), SHEET_BYTES + 1);
    assert!(cases.iter().all(|other| other.listing.len() <= case.listing.len()));
}

#[test]
fn every_refusal_is_tried_and_named() {
    let cases = cases();
    for refusal in (2..=21).chain([23, 30]) {
        let field = format!("{refusal:>9}\n");
        for letter in letters(refusal) {
            let tried = cases.iter().any(|case| {
                let mut lines = case.listing.split_inclusive(|&byte| byte == b'\n');
                lines.any(|line| {
                    line.starts_with(letter.as_bytes()) && line.ends_with(field.as_bytes())
                })
            });
            assert!(tried, "refusal {refusal} is not tried with {letter}");
        }
        let name = format!("refusal-{refusal:02}-");
        assert!(cases.iter().any(|case| case.name.starts_with(&name)), "{name} is missing");
    }
}

/// The letters of the lines that show a refusal: of a sheet, of a car or a strike.
fn letters(refusal: u32) -> &'static [&'static str] {
    match refusal {
        ..9 => &["Z"],
        9 => &["Z", "X"],
        _ => &["X"],
    }
}

#[test]
fn names_tell_the_outcome() {
    for case in cases() {
        let whole = !case.listing.starts_with(b"Z");
        if let Some(rest) = case.name.strip_prefix("refusal-") {
            let refusal: u32 = rest[..2].parse().unwrap();
            let begins =
                |line: &str| letters(refusal).iter().any(|letter| line.starts_with(letter));
            let listing = String::from_utf8_lossy(&case.listing);
            let shown = listing
                .lines()
                .any(|line| begins(line) && line.ends_with(&format!("{refusal:>9}")));
            assert!(shown, "{}", case.name);
        } else if !case.name.starts_with("order-") {
            assert!(whole, "{}", case.name);
        }
        let strikes = String::from_utf8_lossy(&case.listing).contains("\nK");
        assert!(strikes || !case.name.starts_with("strike-"), "{}", case.name);
    }
}

#[test]
fn the_index_has_every_sheet_and_every_pair_once() {
    let cases = cases();
    let pairs = merges::pairs();
    let index = reference::conformance::index::of(&cases, &pairs);
    let names = cases.iter().map(|case| case.name);
    for name in names.chain(pairs.iter().map(|pair| pair.name.as_str())) {
        let row = format!("| `{name}` | ");
        assert_eq!(index.matches(&row).count(), 1, "{name}");
    }
}

#[test]
fn the_paper_s_car_has_the_card_s_figures_on_the_way() {
    let steps = reference::conformance::steps::of(&cases());
    let figures = "| `paper-sheet` | 50000001 | 15000 | 3500000 | 3507000 | 718937 | 331894951 |";
    assert!(steps.contains(figures));
    assert!(steps.contains("| 9673552332 | 3392515 | 32229 | 32003 |"));
}
