//! K lines on a sheet: where they may stand, their length and field, how many there may be, and the
//! count of cars beside them (3 to 6 and 9).

use super::super::rack::{self, cars_on, events_on, CAR, TABLE};
use super::super::tenths::Named;
use super::super::text::{change, columns, first_lines};
use super::super::Case;
use super::{alike, car, named, on_rack, strikes};
use crate::car::Car;
use crate::sheet::Event::{self, Enter, Strike};

pub fn cases() -> Vec<Case> {
    let refused = [missing(), letters(), answers(), lengths(), fields(), counts(), too_many()];
    let whole = named([places(), late_cars()].concat(), include_str!("lines.txt"));
    refused.into_iter().flatten().chain(whole).collect()
}

/// The paper's table and first car, which is struck: C on line 6, K on line 7, E on line 8.
pub fn sheet() -> Vec<u8> {
    on_rack(&[Enter(CAR), Strike(CAR.number)])
}

/// The same with another line in place of the K line, its line feed included.
fn instead(line: &[u8]) -> Vec<u8> {
    change(&sheet(), 7, &columns("K 50000001"), line)
}

/// The same with a line between the K line and E.
fn behind(line: &[u8]) -> Vec<u8> {
    change(&sheet(), 8, b"E", &[line, b"E"].concat())
}

/// Wherever a C line may stand.
fn places() -> Vec<Named> {
    let four_tables: String =
        (1..=4).map(|car_type| format!("T {car_type} 2\nR 0 0\nR 3000 60000\n")).collect();
    vec![
        ("accepted-strike-directly-behind-a-table", on_rack(&[Strike(7), car(7, 1500)])),
        ("accepted-strike-and-no-cars", on_rack(&[Strike(7)])),
        ("accepted-strikes-and-no-cars", on_rack(&strikes(7..=12))),
        ("accepted-strike-between-cars", on_rack(&[car(7, 1500), Strike(7), car(8, 900)])),
        ("accepted-strike-before-the-end", on_rack(&[car(7, 1500), car(8, 900), Strike(7)])),
        (
            "accepted-strike-behind-four-tables",
            events_on(&four_tables, &[Strike(7), car(7, 1500), Strike(7), car(8, 900)]),
        ),
        (
            "accepted-strikes-and-cars-in-any-order",
            on_rack(&[
                Strike(1),
                car(1, 1500),
                Strike(2),
                Strike(1),
                car(2, 900),
                car(1, 700),
                Strike(3),
                Strike(2),
            ]),
        ),
        (
            "accepted-count-with-cars-turned-away-by-10-and-11",
            on_rack(&[car(7, 1500), car(7, 900), car(0, 800), Strike(7), Strike(7), Strike(0)]),
        ),
        ("accepted-sixty-strikes", on_rack(&[alike(1..=3), strikes(1..=60)].concat())),
    ]
}

/// 120 C lines, of which the last sixty are tested and entered like the first: numbers 0 leave the train
/// empty until then.
fn late_cars() -> Vec<Named> {
    let zeros = |count: usize| vec![car(0, 1500); count];
    let sixty: Vec<Event> = (1..=60).map(|number| car(number, 20 * number)).collect();
    let repeated = [&zeros(60)[..], &sixty[..58], &[car(1, 900), car(58, 900)]].concat();
    vec![
        ("refusal-10-on-120-car-lines", on_rack(&zeros(120))),
        ("refusal-11-on-the-last-two-of-120-car-lines", on_rack(&repeated)),
        (
            "strike-sixty-cars-of-car-lines-61-to-120",
            on_rack(&[zeros(60), sixty, strikes(1..=60)].concat()),
        ),
    ]
}

/// Refusal 3.
fn missing() -> Vec<Case> {
    let sheet = sheet();
    let until = first_lines(&sheet, 7);
    let cut = until.len() - 1;
    vec![
        Case::new("refusal-03-sheet-ends-after-a-strike", until.clone(), "Z 8 3"),
        Case::new("refusal-03-strike-without-line-feed", until[..cut].to_vec(), "Z 7 3"),
        Case::new("refusal-03-sheet-ends-inside-a-strike", until[..cut - 4].to_vec(), "Z 7 3"),
        Case::new("refusal-03-letter-of-a-strike-alone", until[..=cut - 10].to_vec(), "Z 7 3"),
    ]
}

/// Refusal 4: strikes out of place, and what may not follow one.
fn letters() -> Vec<Case> {
    let rack = rack::sheet();
    let strike = columns("K 50000001");
    let before = |letter: &[u8]| [&strike, letter].concat();
    let table_behind = columns(&format!("{TABLE}\nK 7\nT 2 2\nR 0 0\nR 9 9\nE 0"));
    vec![
        Case::new("refusal-04-sheet-begins-with-a-strike", before(&rack), "Z 1 4"),
        Case::new("refusal-04-strike-before-rows", change(&rack, 2, b"R", &before(b"R")), "Z 2 4"),
        Case::new("refusal-04-strike-among-rows", change(&rack, 3, b"R", &before(b"R")), "Z 3 4"),
        Case::new(
            "refusal-04-strike-before-the-last-row",
            change(&rack, 5, b"R", &before(b"R")),
            "Z 5 4",
        ),
        Case::new(
            "refusal-04-strike-while-a-row-is-due",
            change(&on_rack(&[Strike(7)]), 1, b"4", b"5"),
            "Z 6 4",
        ),
        Case::new("refusal-04-table-after-a-strike", table_behind, "Z 7 4"),
        Case::new(
            "refusal-04-table-after-a-car-and-a-strike",
            behind(&columns("T 2 2\nR 0 0\nR 9 9")),
            "Z 8 4",
        ),
        Case::new("refusal-04-row-after-a-strike", behind(&columns("R 0 0")), "Z 8 4"),
        Case::new("refusal-04-empty-line-after-a-strike", behind(b"\n"), "Z 8 4"),
        Case::new("refusal-04-small-letter-k", change(&sheet(), 7, b"K", b"k"), "Z 7 4"),
        Case::new("refusal-04-space-before-letter-k", change(&sheet(), 7, b"K", b" K"), "Z 7 4"),
        Case::new("refusal-04-letter-before-k", change(&sheet(), 7, b"K", b"J"), "Z 7 4"),
        Case::new("refusal-04-letter-after-k", change(&sheet(), 7, b"K", b"L"), "Z 7 4"),
        Case::new(
            "refusal-04-cyrillic-letter-k",
            change(&sheet(), 7, b"K ", "К".as_bytes()),
            "Z 7 4",
        ),
    ]
}

/// Refusal 4: lines of an answer where a K line may come.
fn answers() -> Vec<Case> {
    let lines = [
        ("a", "A 50000001 15000 3500000 3392515 32229 32003"),
        ("x", "X 50000001 30"),
        ("s", "S 1 32229 32003"),
        ("g", "G 3 1 32229 32003"),
        ("z", "Z 7 4"),
    ];
    let of = |(letter, line): (&str, &str)| {
        let name = |place: &str| format!("refusal-04-{letter}-line-{place}").leak();
        let line = columns(line);
        let first = change(&on_rack(&[Strike(7)]), 6, &columns("K 7"), &line);
        vec![
            Case::new(name("after-a-strike"), behind(&line), "Z 8 4"),
            Case::new(name("in-place-of-a-strike"), instead(&line), "Z 7 4"),
            Case::new(name("directly-behind-a-table"), first, "Z 6 4"),
        ]
    };
    lines.into_iter().flat_map(of).collect()
}

/// Refusal 5.
fn lengths() -> Vec<Case> {
    let strike = |old: &[u8], new: &[u8]| change(&sheet(), 7, old, new);
    let as_a_car = change(&rack::sheet(), 6, b"C", b"K");
    vec![
        Case::new("refusal-05-strike-line-short", strike(b"K ", b"K"), "Z 7 5"),
        Case::new("refusal-05-strike-line-long", strike(b"K ", b"K  "), "Z 7 5"),
        Case::new("refusal-05-strike-line-long-at-its-end", strike(b"\n", b" \n"), "Z 7 5"),
        Case::new("refusal-05-strike-of-no-fields", instead(b"K\n"), "Z 7 5"),
        Case::new("refusal-05-strike-of-two-fields", instead(&columns("K 50000001 1")), "Z 7 5"),
        Case::new("refusal-05-strike-of-fourteen-fields", as_a_car, "Z 6 5"),
        Case::new("refusal-05-car-of-one-field", instead(&columns("C 50000002")), "Z 7 5"),
        Case::new("refusal-05-strike-and-end-in-one-line", strike(b"\n", b""), "Z 7 5"),
        Case::new("refusal-05-line-feed-inside-a-strike", strike(b"5000", b"50\n0"), "Z 7 5"),
        Case::new("refusal-05-carriage-return-k-line", strike(b"\n", b"\r\n"), "Z 7 5"),
    ]
}

/// Refusal 6: a field of two digits, beside what `damage` has.
fn fields() -> Vec<Case> {
    let two_digits = |field: &[u8]| change(&on_rack(&[Strike(1)]), 6, b" 1\n", field);
    vec![
        Case::new("refusal-06-k-line-zero-before-one-digit", two_digits(b"01\n"), "Z 6 6"),
        Case::new("refusal-06-k-line-two-zeros", two_digits(b"00\n"), "Z 6 6"),
    ]
}

/// Refusal 9: E has the number of the C lines, whatever became of their cars, and no other.
fn counts() -> Vec<Case> {
    let events = [car(7, 1500), car(8, 900), car(7, 800), Strike(7), Strike(5), Strike(8)];
    let of = |events: &[Event], right: u32, count: u32| {
        let line = 6 + events.len();
        let sheet = change(
            &on_rack(events),
            line,
            &columns(&format!("E {right}")),
            &columns(&format!("E {count}")),
        );
        (sheet, format!("Z {line} 9"))
    };
    let case = |name, (sheet, listing): (Vec<u8>, String)| Case::new(name, sheet, &listing);
    vec![
        case("refusal-09-count-with-strikes", of(&events, 3, 6)),
        case("refusal-09-count-with-refused-strikes", of(&events, 3, 4)),
        case("refusal-09-count-less-strikes", of(&events, 3, 0)),
        case("refusal-09-count-without-struck-cars", of(&events, 3, 1)),
        case("refusal-09-count-without-the-number-typed-twice", of(&events, 3, 2)),
        case("refusal-09-count-of-strikes-without-cars", of(&[Strike(7)], 0, 1)),
        case("refusal-09-count-of-sixty-though-61-cars-stand", of(&alike(1..=61), 61, 60)),
        Case::new(
            "refusal-09-strike-after-end",
            [&rack::sheet()[..], &columns("K 50000001")].concat(),
            "Z 8 9",
        ),
    ]
}

/// Refusal 9: the sixty-first K line and the 121st C line.
fn too_many() -> Vec<Case> {
    let sixty_one = strikes(1..=61);
    let in_turn: Vec<Event> =
        (1..=61).flat_map(|number| [car(number, 1500), Strike(number)]).collect();
    let turned_away = alike((1..=121).map(|number| 1 + number % 2));
    let with_strikes = [alike(1..=60), strikes(1..=60), alike(61..=121)].concat();
    vec![
        Case::new("refusal-09-61st-strike-line", on_rack(&sixty_one), "Z 66 9"),
        Case::new("refusal-09-61st-strike-line-after-cars", on_rack(&in_turn), "Z 127 9"),
        Case::new("refusal-09-121st-car-line", on_rack(&alike(1..=121)), "Z 126 9"),
        Case::new("refusal-09-121st-car-line-of-two-numbers", on_rack(&turned_away), "Z 126 9"),
        Case::new("refusal-09-121st-car-line-after-strikes", on_rack(&with_strikes), "Z 186 9"),
        Case::new("refusal-09-61st-strike-line-number-0", on_rack(&[Strike(0); 61]), "Z 66 9"),
        Case::new(
            "refusal-09-121st-car-line-number-0",
            cars_on(TABLE, &[Car { number: 0, ..CAR }; 121]),
            "Z 126 9",
        ),
    ]
}
