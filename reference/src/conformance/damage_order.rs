//! Two faults on one line, or on two: which refusal from 2 to 9 is given, for each letter.

use super::rack;
use super::text::{change, columns, first_lines};
use super::Case;

pub fn cases() -> Vec<Case> {
    [of_one_line(), letters(), of_two_lines()].into_iter().flatten().collect()
}

/// 3 before 5 and 6, and 5 before 6, for T, R, C and E lines.
fn of_one_line() -> Vec<Case> {
    let rack = rack::sheet();
    let ends = [(1, "t"), (3, "r"), (6, "c")];
    let cut = |line| {
        let whole = first_lines(&rack, line);
        whole[..whole.len() - 1].to_vec()
    };
    let mut cases = Vec::new();
    for (line, letter) in ends {
        let too_long = [&cut(line)[..], b" "].concat();
        let mut no_number = cut(line);
        let last = no_number.len() - 1;
        no_number[last] = b'x';
        let name = format!("order-03-before-05-{letter}-line");
        cases.push(Case::new(name.leak(), too_long, &format!("Z {line} 3")));
        let name = format!("order-03-before-06-{letter}-line");
        cases.push(Case::new(name.leak(), no_number, &format!("Z {line} 3")));
    }
    cases.extend([
        Case::new(
            "order-05-before-06-r-line",
            change(&rack, 3, b"    1000", b"   01000 "),
            "Z 3 5",
        ),
        Case::new(
            "order-05-before-06-c-line",
            change(&rack, 6, b"    1500", b"   01500 "),
            "Z 6 5",
        ),
        Case::new(
            "order-05-before-06-e-line",
            change(&rack, 7, b"        1", b"       01 "),
            "Z 7 5",
        ),
        Case::new(
            "order-06-before-07-by-the-rows",
            change(&rack, 1, b"        1        4", b"       01        1"),
            "Z 1 6",
        ),
        Case::new(
            "order-06-before-08-by-the-level",
            change(&rack, 4, b"     2000    50000", b"      900   050000"),
            "Z 4 6",
        ),
        Case::new(
            "order-06-before-08-by-the-capacity",
            change(&rack, 4, b"     2000    50000", b"    02000    19000"),
            "Z 4 6",
        ),
    ]);
    cases
}

/// 4 before 5 and 6: a line out of place that is too long, or has a field that is no number.
fn letters() -> Vec<Case> {
    let rack = rack::sheet();
    let car = columns(&String::from_utf8_lossy(&first_lines(&rack, 6)[100..]));
    let car = String::from_utf8(car).expect("a sheet of ASCII");
    let after_cars = |line: &str| {
        change(&rack, 7, &columns("E 1"), &[line.as_bytes(), &columns("E 1")].concat())
    };
    let last = |line: &str| change(&rack, 7, &columns("E 1"), line.as_bytes());
    let among_rows = |line: &str| change(&rack, 3, b"R", format!("{line}R").as_bytes());
    vec![
        Case::new("order-04-before-05-t-line", after_cars("T        2        2 \n"), "Z 7 4"),
        Case::new("order-04-before-06-t-line", after_cars("T        2       02\n"), "Z 7 4"),
        Case::new("order-04-before-05-r-line", after_cars("R        2        2 \n"), "Z 7 4"),
        Case::new("order-04-before-06-r-line", after_cars("R        2       02\n"), "Z 7 4"),
        Case::new("order-04-before-05-c-line", among_rows(&car.replace('\n', " \n")), "Z 3 4"),
        Case::new("order-04-before-06-c-line", among_rows(&car.replace(" 20\n", "020\n")), "Z 3 4"),
        Case::new("order-04-before-05-e-line", among_rows("E        0 \n"), "Z 3 4"),
        Case::new("order-04-before-06-e-line", among_rows("E       00\n"), "Z 3 4"),
        Case::new("order-04-before-05-g-line", among_rows("G        1        0\n"), "Z 3 4"),
        Case::new(
            "order-04-before-06-g-line",
            after_cars("G       03        1    32229    32003\n"),
            "Z 7 4",
        ),
        Case::new("order-03-before-04-t-line", last("T        2        2"), "Z 7 3"),
        Case::new("order-03-before-04-r-line", last("R        2        2"), "Z 7 3"),
        Case::new("order-03-before-04-g-line", last("G        1        0"), "Z 7 3"),
        Case::new("order-03-before-04-c-line", b"C 50000001".to_vec(), "Z 1 3"),
        Case::new("order-03-before-04-e-line", b"E        0".to_vec(), "Z 1 3"),
        Case::new("refusal-04-table-before-rows", change(&rack, 2, b"R", b"T"), "Z 2 4"),
        Case::new("refusal-04-end-before-rows", change(&rack, 2, b"R", b"E"), "Z 2 4"),
    ]
}

/// An earlier line's refusal before a later line's; 2 before all; 9 for bytes after the end last.
fn of_two_lines() -> Vec<Case> {
    let rack = rack::sheet();
    let long = [&change(&rack, 1, b"T", b"Q")[..], &vec![b' '; 48_112 - rack.len()]].concat();
    vec![
        Case::new("order-02-before-04", long, "Z 0 2"),
        Case::new(
            "order-05-before-09-bytes-after-end",
            [&change(&rack, 7, b"1\n", b"1 \n")[..], b"\n"].concat(),
            "Z 7 5",
        ),
        Case::new(
            "order-06-before-09-bytes-after-end",
            [&change(&rack, 7, b" 1\n", b"01\n")[..], b"\n"].concat(),
            "Z 7 6",
        ),
        Case::new(
            "order-table-before-its-rows",
            change(&change(&rack, 1, b"       1 ", b"   10000 "), 3, b"R", b"Q"),
            "Z 1 7",
        ),
        Case::new(
            "order-row-before-later-field",
            change(&change(&rack, 3, b"1000", b"   0"), 4, b" 2000", b"02000"),
            "Z 3 8",
        ),
        Case::new("refusal-05-carriage-return-r-line", change(&rack, 3, b"\n", b"\r\n"), "Z 3 5"),
        Case::new("refusal-05-carriage-return-c-line", change(&rack, 6, b"\n", b"\r\n"), "Z 6 5"),
        Case::new("refusal-04-small-letter-t", change(&rack, 1, b"T", b"t"), "Z 1 4"),
        Case::new("refusal-04-small-letter-r", change(&rack, 3, b"R", b"r"), "Z 3 4"),
        Case::new("refusal-04-small-letter-e", change(&rack, 7, b"E", b"e"), "Z 7 4"),
        Case::new("refusal-04-car-while-rows-are-due", change(&rack, 4, b"R", b"C"), "Z 4 4"),
        Case::new("refusal-04-car-before-rows", change(&rack, 2, b"R", b"C"), "Z 2 4"),
    ]
}
