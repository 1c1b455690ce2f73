//! Heads and rows of capacity tables at their bounds (7 and 8).

use super::rack::NONE_ACCEPTED;
use super::text::columns;
use super::Case;

pub fn cases() -> Vec<Case> {
    [heads(), rows()].into_iter().flatten().collect()
}

/// A table of so many rows, 9 mm and 500 dm³ apart, and no cars.
fn rising(car_type: u32, rows: u32) -> Vec<u8> {
    let rows: Vec<String> = (0..rows).map(|row| format!("R {} {}", 9 * row, 500 * row)).collect();
    columns(&format!("T {car_type} {}\n{}\nE 0", rows.len(), rows.join("\n")))
}

/// Refusal 7.
fn heads() -> Vec<Case> {
    let twice = columns("T 7 2\nR 0 0\nR 9 9\nT 8 2\nR 0 0\nR 9 9\nT 7 2\nR 0 0\nR 9 9\nE 0");
    vec![
        Case::new("refusal-07-type-0", rising(0, 2), "Z 1 7"),
        Case::new("accepted-type-1", rising(1, 2), NONE_ACCEPTED),
        Case::new("accepted-type-9999", rising(9_999, 2), NONE_ACCEPTED),
        Case::new("refusal-07-type-10000", rising(10_000, 2), "Z 1 7"),
        Case::new("refusal-07-type-used-before", twice, "Z 7 7"),
        Case::new("refusal-07-no-rows", columns("T 1 0\nE 0"), "Z 1 7"),
        Case::new("refusal-07-one-row", rising(1, 1), "Z 1 7"),
        Case::new("accepted-two-rows", rising(1, 2), NONE_ACCEPTED),
        Case::new("accepted-400-rows", rising(1, 400), NONE_ACCEPTED),
        Case::new("refusal-07-401-rows", columns("T 1 401\nR 0 0\nE 0"), "Z 1 7"),
    ]
}

/// A table of the given rows and no cars.
fn table(rows: &[(u32, u32)]) -> Vec<u8> {
    let lines: String =
        rows.iter().map(|(level, capacity)| format!("R {level} {capacity}\n")).collect();
    columns(&format!("T 1 {}\n{lines}E 0", rows.len()))
}

/// Refusal 8.
fn rows() -> Vec<Case> {
    let second_table = columns("T 1 2\nR 0 0\nR 9 9\nT 2 2\nR 10 10\nR 11 11\nE 0");
    let starts_anew = columns("T 1 2\nR 0 0\nR 3600 200000\nT 2 2\nR 0 0\nR 1 1\nE 0");
    vec![
        Case::new("refusal-08-first-level-not-0", table(&[(1, 0), (9, 9)]), "Z 2 8"),
        Case::new("refusal-08-first-capacity-not-0", table(&[(0, 1), (9, 9)]), "Z 2 8"),
        Case::new("refusal-08-second-table-goes-on-from-first", second_table, "Z 5 8"),
        Case::new("accepted-second-table-starts-anew", starts_anew, NONE_ACCEPTED),
        Case::new("refusal-08-row-repeated", table(&[(0, 0), (0, 0), (9, 9)]), "Z 3 8"),
        Case::new("refusal-08-level-as-before", table(&[(0, 0), (9, 9), (9, 10)]), "Z 4 8"),
        Case::new("refusal-08-level-falls", table(&[(0, 0), (9, 9), (8, 10)]), "Z 4 8"),
        Case::new("refusal-08-capacity-as-before", table(&[(0, 0), (9, 9), (10, 9)]), "Z 4 8"),
        Case::new("refusal-08-capacity-falls", table(&[(0, 0), (9, 9), (10, 8)]), "Z 4 8"),
        Case::new("accepted-both-rise-by-1", table(&[(0, 0), (9, 9), (10, 10)]), NONE_ACCEPTED),
        Case::new("accepted-3600-mm", table(&[(0, 0), (3600, 9)]), NONE_ACCEPTED),
        Case::new("refusal-08-3601-mm", table(&[(0, 0), (3601, 9)]), "Z 3 8"),
        Case::new("accepted-200000-dm3", table(&[(0, 0), (9, 200_000)]), NONE_ACCEPTED),
        Case::new("refusal-08-200001-dm3", table(&[(0, 0), (9, 200_001)]), "Z 3 8"),
        Case::new(
            "refusal-08-largest-numbers",
            table(&[(0, 0), (99_999_999, 99_999_999)]),
            "Z 3 8",
        ),
    ]
}
