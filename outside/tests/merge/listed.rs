//! A sheet beside the library's listing of it: its held cars, each by its line and its answer, and its totals.

use std::collections::BTreeMap;

use outside::answer_sheet;
use reference::ANSWER_BYTES;

/// A held car's C line and the line of its answer.
type Held = (String, String);

/// The numbers of an S or a G line.
type Totals = Vec<u64>;

/// What a sheet comes to.
pub struct Listed {
    /// The held cars, by their numbers.
    pub held: BTreeMap<u32, Held>,
    /// The S line and the four G lines.
    pub totals: Vec<Totals>,
    /// The tables, each a T line and its rows, by their types.
    pub tables: BTreeMap<u32, String>,
}

impl Listed {
    /// What a sheet that is not refused holds at its end.
    pub fn new(sheet: &[u8]) -> Self {
        let text = std::str::from_utf8(sheet).expect("a sheet without fault");
        let listing = listing(sheet);
        let (lines, totals) = listing.split_at(listing.len() - 5);
        let totals = totals.iter().map(|line| numbers(line)).collect();
        Self { held: held(text, lines), totals, tables: tables(text) }
    }
}

/// The lines of a sheet's listing.
fn listing(sheet: &[u8]) -> Vec<String> {
    let mut answer = [0; ANSWER_BYTES];
    let (length, number) = answer_sheet(sheet, &mut answer);
    assert_eq!(number, 0);
    let text = std::str::from_utf8(&answer[..length]).expect("a listing");
    text.split_inclusive('\n').map(str::to_string).collect()
}

fn numbers(line: &str) -> Vec<u64> {
    line[1..].split_whitespace().map(|word| word.parse().expect("a number")).collect()
}

/// Goes through cars and strikes beside their answers.
fn held(sheet: &str, answers: &[String]) -> BTreeMap<u32, Held> {
    let mut held = BTreeMap::new();
    let lines = sheet.split_inclusive('\n').filter(|line| line.starts_with(['C', 'K']));
    for (line, answer) in lines.zip(answers) {
        let number = numbers(line)[0] as u32;
        let is_turned_away = answer.starts_with('X') && matches!(numbers(answer)[1], 9..=11 | 30);
        match &line[..1] {
            _ if is_turned_away => {}
            "C" => drop(held.insert(number, (line.to_string(), answer.clone()))),
            _ => drop(held.remove(&number)),
        }
    }
    held
}

fn tables(sheet: &str) -> BTreeMap<u32, String> {
    let mut tables = BTreeMap::new();
    let mut car_type = 0;
    for line in sheet.split_inclusive('\n').filter(|line| line.starts_with(['T', 'R'])) {
        if line.starts_with('T') {
            car_type = numbers(line)[0] as u32;
        }
        tables.entry(car_type).or_insert_with(String::new).push_str(line);
    }
    tables
}
