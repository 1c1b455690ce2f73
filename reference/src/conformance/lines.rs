//! Lines that are missing, begin with a wrong letter, or have a wrong length or field (3 to 6).

use super::rack::{self, cars_on, CAR, TABLE};
use super::text::{change, columns, first_lines, without};
use super::Case;

pub fn cases() -> Vec<Case> {
    [missing(), letters(), lengths(), fields()].into_iter().flatten().collect()
}

/// Refusal 3.
fn missing() -> Vec<Case> {
    let rack = rack::sheet();
    let no_last_line_feed = &rack[..rack.len() - 1];
    vec![
        Case::new("refusal-03-empty-sheet", Vec::new(), "Z 1 3"),
        Case::new("refusal-03-no-line-feed-at-all", b"hello".to_vec(), "Z 1 3"),
        Case::new("refusal-03-one-letter", b"T".to_vec(), "Z 1 3"),
        Case::new("refusal-03-sheet-ends-before-rows", first_lines(&rack, 1), "Z 2 3"),
        Case::new("refusal-03-sheet-ends-among-rows", first_lines(&rack, 4), "Z 5 3"),
        Case::new("refusal-03-sheet-ends-after-tables", first_lines(&rack, 5), "Z 6 3"),
        Case::new("refusal-03-sheet-ends-after-cars", first_lines(&rack, 6), "Z 7 3"),
        Case::new("refusal-03-sheet-ends-inside-a-line", rack[..50].to_vec(), "Z 3 3"),
        Case::new("refusal-03-last-line-feed-missing", no_last_line_feed.to_vec(), "Z 7 3"),
    ]
}

/// Refusal 4.
fn letters() -> Vec<Case> {
    let rack = rack::sheet();
    let start = |text| columns(text);
    let among_rows = [&columns("G 1 0 0 0")[..], b"R"].concat();
    let after_car = |line: &str| {
        let end = format!("{line}\nE 1");
        change(&rack, 7, &columns("E 1"), &columns(&end))
    };
    vec![
        Case::new("refusal-04-sheet-begins-with-a-row", start("R 0 0\nE 0"), "Z 1 4"),
        Case::new("refusal-04-sheet-begins-with-a-car", without(&cars_on("", &[CAR]), 2), "Z 1 4"),
        Case::new("refusal-04-sheet-begins-with-its-end", start("E 0"), "Z 1 4"),
        Case::new("refusal-04-one-line-feed", b"\n".to_vec(), "Z 1 4"),
        Case::new("refusal-04-byte-order-mark", [b"\xef\xbb\xbf", &rack[..]].concat(), "Z 1 4"),
        Case::new("refusal-04-space-before-letter", [b" ", &rack[..]].concat(), "Z 1 4"),
        Case::new("refusal-04-small-letter", change(&rack, 6, b"C", b"c"), "Z 6 4"),
        Case::new("refusal-04-letter-of-the-listing", change(&rack, 6, b"C", b"A"), "Z 6 4"),
        Case::new("refusal-04-letter-g-of-the-listing", change(&rack, 6, b"C", b"G"), "Z 6 4"),
        Case::new("refusal-04-sheet-begins-with-a-g-line", start("G 1 0 0 0\nE 0"), "Z 1 4"),
        Case::new("refusal-04-g-line-among-rows", change(&rack, 3, b"R", &among_rows), "Z 3 4"),
        Case::new("refusal-04-g-line-after-a-car", after_car("G 3 1 32229 32003"), "Z 7 4"),
        Case::new("refusal-04-s-line-after-a-car", after_car("S 1 32229 32003"), "Z 7 4"),
        Case::new("refusal-04-empty-line-between", change(&rack, 6, b"C", b"\nC"), "Z 6 4"),
        Case::new("refusal-04-table-while-rows-are-due", change(&rack, 3, b"R", b"T"), "Z 3 4"),
        Case::new("refusal-04-one-row-too-few", without(&rack, 5), "Z 5 4"),
        Case::new("refusal-04-end-while-a-row-is-due", change(&rack, 1, b"4", b"5"), "Z 6 4"),
        Case::new("refusal-04-one-row-too-many", change(&rack, 1, b"4", b"3"), "Z 5 4"),
        Case::new("refusal-04-row-after-a-car", after_car("R 0 0"), "Z 7 4"),
        Case::new("refusal-04-table-after-a-car", after_car("T 2 2\nR 0 0\nR 9 9"), "Z 7 4"),
    ]
}

/// Refusal 5.
fn lengths() -> Vec<Case> {
    let rack = rack::sheet();
    let carriage_returns = String::from_utf8_lossy(&rack).replace('\n', "\r\n").into_bytes();
    vec![
        Case::new("refusal-05-table-line-short", change(&rack, 1, b"T ", b"T"), "Z 1 5"),
        Case::new("refusal-05-table-line-long", change(&rack, 1, b"T ", b"T  "), "Z 1 5"),
        Case::new("refusal-05-row-line-short", change(&rack, 3, b"R ", b"R"), "Z 3 5"),
        Case::new("refusal-05-row-line-long", change(&rack, 3, b"R ", b"R  "), "Z 3 5"),
        Case::new("refusal-05-car-line-short", change(&rack, 6, b"20\n", b"2\n"), "Z 6 5"),
        Case::new("refusal-05-car-line-long", change(&rack, 6, b"20\n", b"20 \n"), "Z 6 5"),
        Case::new(
            "refusal-05-car-of-thirteen-fields",
            change(&rack, 6, b"       20\n", b"\n"),
            "Z 6 5",
        ),
        Case::new(
            "refusal-05-car-of-fifteen-fields",
            change(&rack, 6, b"\n", b"        0\n"),
            "Z 6 5",
        ),
        Case::new("refusal-05-end-line-short", change(&rack, 7, b"E ", b"E"), "Z 7 5"),
        Case::new("refusal-05-end-line-long", change(&rack, 7, b"1\n", b"1 \n"), "Z 7 5"),
        Case::new("refusal-05-letter-alone", b"T\n".to_vec(), "Z 1 5"),
        Case::new("refusal-05-table-of-one-field", columns("T 1\nR 0 0"), "Z 1 5"),
        Case::new("refusal-05-two-lines-in-one", change(&rack, 2, b"0\n", b"0"), "Z 2 5"),
        Case::new(
            "refusal-05-line-feed-inside-a-field",
            change(&rack, 6, b"9500", b"95\n0"),
            "Z 6 5",
        ),
        Case::new("refusal-05-carriage-returns", carriage_returns, "Z 1 5"),
        Case::new("refusal-05-one-carriage-return", change(&rack, 7, b"\n", b"\r\n"), "Z 7 5"),
    ]
}

/// Refusal 6, each in place of the field "     1000" or of the four bytes "1000".
fn fields() -> Vec<Case> {
    let rack = rack::sheet();
    let level = |field: &[u8; 9]| change(&rack, 3, b"     1000", field);
    vec![
        Case::new("refusal-06-leading-zero", level(b"    01000"), "Z 3 6"),
        Case::new("refusal-06-two-zeros", change(&rack, 2, b" 0\n", b"00\n"), "Z 2 6"),
        Case::new("refusal-06-plus-sign", level(b"    +1000"), "Z 3 6"),
        Case::new("refusal-06-minus-sign", level(b"    -1000"), "Z 3 6"),
        Case::new("refusal-06-spaces-alone", level(b"         "), "Z 3 6"),
        Case::new("refusal-06-nine-digits", change(&rack, 6, b" 50000001", b"150000001"), "Z 6 6"),
        Case::new("refusal-06-nine-zeros", level(b"000000000"), "Z 3 6"),
        Case::new("refusal-06-left-justified", level(b" 1000    "), "Z 3 6"),
        Case::new("refusal-06-space-after-number", level(b"    1000 "), "Z 3 6"),
        Case::new("refusal-06-space-inside-number", level(b"    10 00"), "Z 3 6"),
        Case::new("refusal-06-tab", level(b"\t    1000"), "Z 3 6"),
        Case::new("refusal-06-zero-byte", level(b"    \x001000"), "Z 3 6"),
        Case::new("refusal-06-no-break-space", level(b"   \xc2\xa01000"), "Z 3 6"),
        Case::new("refusal-06-carriage-return-inside", level(b"    \r1000"), "Z 3 6"),
        Case::new("refusal-06-decimal-point", level(b"   1000.0"), "Z 3 6"),
        Case::new("refusal-06-decimal-comma", level(b"   1000,0"), "Z 3 6"),
        Case::new("refusal-06-exponent", level(b"      1e3"), "Z 3 6"),
        Case::new("refusal-06-letter-o", level(b"     1O00"), "Z 3 6"),
        Case::new("refusal-06-byte-before-digit-0", level(b"     100/"), "Z 3 6"),
        Case::new("refusal-06-byte-after-digit-9", level(b"     100:"), "Z 3 6"),
        Case::new("refusal-06-last-field-of-a-car", change(&rack, 6, b" 20\n", b"020\n"), "Z 6 6"),
        Case::new("refusal-06-end-line", change(&rack, 7, b" 1\n", b"01\n"), "Z 7 6"),
        Case::new(
            "accepted-eight-digits",
            change(&cars_on(TABLE, &[CAR]), 6, b"50000001", b"99999999"),
            "A 99999999 15000 3500000 3392515 32229 32003
             S 1 32229 32003
             G 1 0 0 0
             G 2 0 0 0
             G 3 1 32229 32003
             G 4 0 0 0",
        ),
    ]
}
