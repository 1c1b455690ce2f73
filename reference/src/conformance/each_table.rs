//! 7 and 8 in each of four tables, at early and late rows, with levels unlike capacities.

use super::rack::{cars_on, CAR};
use super::text::columns;
use super::Case;
use crate::car::Car;
use crate::table::Row;

/// Four sound tables of three rows: steep and flat by turns.
fn sound() -> Vec<(u32, Vec<Row>)> {
    let steep = |car_type| (car_type, rows(&[(0, 0), (10, 30_000), (20, 60_000)]));
    let flat = |car_type| (car_type, rows(&[(0, 0), (1200, 3), (2400, 6)]));
    vec![steep(7), flat(9_999), steep(1), flat(62)]
}

fn rows(numbers: &[(u32, u32)]) -> Vec<Row> {
    numbers.iter().map(|&(level, capacity)| Row { level, capacity }).collect()
}

/// A sheet of tables without cars, and the line at which each table begins.
fn sheet(tables: &[(u32, Vec<Row>)]) -> (Vec<u8>, Vec<usize>) {
    let mut text = String::new();
    let mut begins = Vec::new();
    for (car_type, rows) in tables {
        begins.push(text.lines().count() + 1);
        text.push_str(&format!("T {car_type} {}\n", rows.len()));
        rows.iter().for_each(|row| text.push_str(&format!("R {} {}\n", row.level, row.capacity)));
    }
    (columns(&format!("{text}E 0")), begins)
}

pub fn cases() -> Vec<Case> {
    [heads(), repeats(), first_rows(), later_rows(), limits()].into_iter().flatten().collect()
}

/// A bad head in each later table.
fn heads() -> Vec<Case> {
    let bad = |name: &'static str, place: usize, car_type: u32, count: u32| {
        let mut tables = sound();
        tables[place].0 = car_type;
        let (bytes, begins) = sheet(&tables);
        let count_of_rows = format!("{car_type:>9}{:>9}", tables[place].1.len());
        let bytes = replace(&bytes, &count_of_rows, &format!("{car_type:>9}{count:>9}"));
        Case::new(name, bytes, &format!("Z {} 7", begins[place]))
    };
    vec![
        bad("refusal-07-type-0-in-table-2", 1, 0, 3),
        bad("refusal-07-type-10000-in-table-3", 2, 10_000, 3),
        bad("refusal-07-type-0-in-table-4", 3, 0, 3),
        bad("refusal-07-401-rows-in-table-2", 1, 9_999, 401),
        bad("refusal-07-one-row-in-table-3", 2, 1, 1),
        bad("refusal-07-401-rows-in-table-4", 3, 62, 401),
    ]
}

fn replace(sheet: &[u8], old: &str, new: &str) -> Vec<u8> {
    let text = String::from_utf8(sheet.to_vec()).expect("a sheet of ASCII");
    text.replacen(old, new, 1).into_bytes()
}

/// A type that stands on an earlier table.
fn repeats() -> Vec<Case> {
    let pairs = [(0, 1), (1, 2), (0, 3), (1, 3), (2, 3)];
    pairs
        .into_iter()
        .map(|(first, second)| {
            let mut tables = sound();
            tables[second].0 = tables[first].0;
            let name = format!("refusal-07-table-{}-has-type-of-{}", second + 1, first + 1);
            let (bytes, begins) = sheet(&tables);
            Case::new(name.leak(), bytes, &format!("Z {} 7", begins[second]))
        })
        .collect()
}

/// A first row that is not 0 and 0, in each later table.
fn first_rows() -> Vec<Case> {
    let firsts =
        [("level", Row { level: 1, capacity: 0 }), ("capacity", Row { level: 0, capacity: 1 })];
    let all = firsts.into_iter().flat_map(|(what, row)| {
        (1..4).map(move |place| {
            let mut tables = sound();
            tables[place].1[0] = row;
            let name = format!("refusal-08-first-{what}-not-0-in-table-{}", place + 1);
            let (bytes, begins) = sheet(&tables);
            Case::new(name.leak(), bytes, &format!("Z {} 8", begins[place] + 1))
        })
    });
    all.collect()
}

/// A later row that does not rise or passes a limit: the second row of table 2 (the third where it
/// falls), the third of table 3, the four hundredth of table 4.
fn later_rows() -> Vec<Case> {
    let ways = [
        "level-as-before",
        "level-falls",
        "capacity-as-before",
        "capacity-falls",
        "3601-mm",
        "200001-dm3",
    ];
    let all = ways.into_iter().flat_map(|way| {
        let second = if way.ends_with("falls") { 2 } else { 1 };
        [(1, second), (2, 2), (3, 399)].into_iter().map(move |(place, row)| {
            let mut tables = sound();
            tables[place].1 = shaped(way, row + 1);
            bend(way, &mut tables[place].1, row);
            let name = format!("refusal-08-{way}-row-{}-of-table-{}", row + 1, place + 1);
            let (bytes, begins) = sheet(&tables);
            Case::new(name.leak(), bytes, &format!("Z {} 8", begins[place] + 1 + row))
        })
    });
    all.collect()
}

/// So many rows: levels far above capacities where the level is tried, else far below.
fn shaped(way: &str, count: usize) -> Vec<Row> {
    let step = |place: usize| place as u32;
    let flat = way.starts_with("level") || way == "3601-mm";
    let of = |place| {
        let (level, capacity) =
            if flat { (9 * step(place), step(place)) } else { (step(place), 500 * step(place)) };
        Row { level, capacity }
    };
    (0..count).map(of).collect()
}

fn bend(way: &str, rows: &mut [Row], place: usize) {
    let before = rows[place - 1];
    let row = &mut rows[place];
    match way {
        "level-as-before" => row.level = before.level,
        "level-falls" => row.level = before.level - 1,
        "capacity-as-before" => row.capacity = before.capacity,
        "capacity-falls" => row.capacity = before.capacity - 1,
        "3601-mm" => row.level = 3601,
        _ => row.capacity = 200_001,
    }
}

/// Every table at both limits, and cars in each.
fn limits() -> Vec<Case> {
    let tables = "T 9999 2\nR 0 0\nR 3600 200000\nT 1 2\nR 0 0\nR 3600 200000\n\
                  T 9998 2\nR 0 0\nR 3600 200000\nT 2 2\nR 0 0\nR 3600 200000";
    let cars: Vec<Car> = [9_999, 1, 9_998, 2]
        .into_iter()
        .zip(1..)
        .map(|(car_type, number)| Car { number, car_type, readings: [3600, 3600, 0, 0], ..CAR })
        .collect();
    let rows: String = (1..400).map(|row| format!("R {} {}\n", 9 * row, 500 * row)).collect();
    let rows = rows.replace("R 3591 199500", "R 3600 200000");
    let long = format!("T 1 400\nR 0 0\n{rows}");
    let alike = "T 1 2\nR 0 0\nR 3000 60000\nT 1001 2\nR 0 0\nR 3000 30000";
    let of_type = |number, car_type| Car { number, car_type, ..CAR };
    vec![
        Case::new(
            "refusal-08-capacity-as-before-far-above-the-levels",
            columns("T 1 3\nR 0 0\nR 10 30000\nR 20 30000\nE 0"),
            "Z 4 8",
        ),
        Case::new(
            "accepted-400-rows-up-to-both-limits",
            cars_on(&long, &[Car { number: 1, readings: [3600, 3600, 0, 0], ..CAR }]),
            "A 1 36000 20000000 19385799 184165 182876
             S 1 184165 182876
             G 1 0 0 0
             G 2 0 0 0
             G 3 1 184165 182876
             G 4 0 0 0",
        ),
        Case::new(
            "refusal-12-types-alike-in-their-last-digits",
            cars_on(
                alike,
                &[of_type(1, 1), of_type(2, 1001), of_type(3, 10_001), of_type(4, 2_001)],
            ),
            "A 1 15000 3000000 2907870 27625 27432
             A 2 15000 1500000 1453935 13812 13715
             X 3 12
             X 4 12
             S 2 41437 41147
             G 1 0 0 0
             G 2 0 0 0
             G 3 2 41437 41147
             G 4 0 0 0",
        ),
        Case::new(
            "accepted-limits-in-each-table",
            cars_on(tables, &cars),
            "A 1 36000 20000000 19385799 184165 182876
             A 2 36000 20000000 19385799 184165 182876
             A 3 36000 20000000 19385799 184165 182876
             A 4 36000 20000000 19385799 184165 182876
             S 4 736660 731504
             G 1 0 0 0
             G 2 0 0 0
             G 3 4 736660 731504
             G 4 0 0 0",
        ),
    ]
}
