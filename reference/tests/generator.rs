//! The generator: equal seeds, all sizes, all refusals, a good share of accepted sheets and cars, and
//! strikes of every kind.

use std::collections::{BTreeMap, HashMap, HashSet};

use reference::level;
use reference::sheet::{Event, Sheet};
use reference::{listing, sheets, SHEET_BYTES};

const SEEDS: u64 = 4_000;

#[test]
fn equal_seeds_give_equal_sheets() {
    for seed in [0, 1, 77, u64::MAX] {
        assert_eq!(sheets::sheet(seed), sheets::sheet(seed));
    }
    let sheets: HashSet<Vec<u8>> = (0..100).map(sheets::sheet).collect();
    assert!(sheets.len() >= 98);
}

#[test]
fn every_outcome_is_met() {
    let mut seen: BTreeMap<(u8, u32), u32> = BTreeMap::new();
    let mut accepted_sheets = 0;
    for seed in 0..SEEDS {
        let listing = listing::of(&sheets::sheet(seed));
        for line in String::from_utf8(listing).unwrap().lines() {
            let letter = line.as_bytes()[0];
            let refusal = if b"XZ".contains(&letter) { numbers(line)[1] } else { 0 };
            *seen.entry((letter, refusal)).or_default() += 1;
            accepted_sheets += u64::from(letter == b'S');
        }
    }
    for refusal in 2..=9 {
        assert!(seen[&(b'Z', refusal)] >= 5, "sheet refusal {refusal}");
    }
    for refusal in (9..=21).chain([23, 30]) {
        assert!(seen[&(b'X', refusal)] >= 100, "refusal {refusal} of a car or a strike");
    }
    let third = SEEDS / 3;
    assert!((third - 200..2 * third).contains(&accepted_sheets), "{accepted_sheets} accepted");
    let answers: u32 =
        seen.iter().filter(|((letter, _), _)| b"AX".contains(letter)).map(|(_, n)| n).sum();
    let cars = answers - seen[&(b'X', 30)];
    assert!(2 * seen[&(b'A', 0)] > cars, "half the cars and more are accepted");
    assert!(u64::from(cars) > 10 * accepted_sheets, "many cars on an accepted sheet");
}

#[test]
fn spans_on_both_sides_of_the_limit_are_met() {
    let mut seen: BTreeMap<(u32, u32), u32> = BTreeMap::new();
    let mut wild = 0;
    for seed in 0..SEEDS {
        let bytes = sheets::sheet(seed);
        let Ok(sheet) = Sheet::read(&bytes) else { continue };
        for car in sheet.cars().filter(|car| car.given == 4) {
            let [first, second, ..] = car.readings;
            let mut sorted = car.readings;
            sorted.sort_unstable();
            let [a, b, c, d] = sorted;
            let spans = (c - a, d - b);
            if first.abs_diff(second) > 1 {
                *seen.entry(spans).or_default() += 1;
            } else {
                wild += u32::from(spans.0.min(spans.1) > 3);
            }
        }
    }
    let count = |fits: fn(u32, u32, u32) -> bool, span: u32| -> u32 {
        seen.iter().filter(|((lower, upper), _)| fits(*lower, *upper, span)).map(|(_, n)| n).sum()
    };
    for span in 2..=5 {
        assert!(count(|lower, upper, span| lower == span && upper > span, span) >= 50);
        assert!(count(|lower, upper, span| upper == span && lower > span, span) >= 50);
        assert!(count(|lower, upper, span| lower == span && upper == span, span) >= 50);
    }
    assert!(wild >= 500, "{wild} cars have first readings that agree and others that do not");
}

/// Accepted cars by the tenths of their mean level, of two readings and of three, cars below 1 mm, and
/// cars that a part of a mm turns away by 16 or 17, or would if it were 1 mm more.
#[test]
fn tenths_of_every_kind_are_met() {
    let mut tenths: BTreeMap<u64, u32> = BTreeMap::new();
    let (mut low, mut past_the_end) = ([0; 10], BTreeMap::<u64, u32>::new());
    let mut over_water: BTreeMap<i64, u32> = BTreeMap::new();
    for seed in 0..SEEDS {
        let bytes = sheets::sheet(seed);
        let Ok(sheet) = Sheet::read(&bytes) else { continue };
        for car in sheet.cars() {
            let Ok(level) = level::mean(car.given, car.readings) else { continue };
            let Some(table) = sheet.tables.find(car.car_type) else { continue };
            let end = level::in_tenths(table.last_level());
            if level > end && level < end + 10 {
                *past_the_end.entry(level - end).or_default() += 1;
            }
            let over = level as i64 - level::in_tenths(car.water_level) as i64;
            *over_water.entry(over).or_default() += 1;
            if car.work_out(&sheet.tables).is_ok() {
                *tenths.entry(level % 10).or_default() += 1;
                low[(level as usize).min(10) % 10] += u32::from(level < 10);
            }
        }
    }
    for tenth in [0, 3, 5, 7] {
        assert!(tenths[&tenth] >= 1_000, "{tenth}: {tenths:?}");
        assert!(tenth == 0 || low[tenth as usize] >= 10, "{tenth}: {low:?}");
        assert!(tenth == 0 || past_the_end[&tenth] >= 20, "{tenth}: {past_the_end:?}");
    }
    for over in [-10, -7, -5, -3, 0, 3, 5, 7, 10] {
        assert!(over_water[&over] >= 20, "{over}");
    }
}

#[test]
fn all_sizes_are_met() {
    let mut tables = HashSet::new();
    let (mut cars, mut strikes) = (HashSet::new(), HashSet::new());
    let mut rows = HashSet::new();
    let mut longest = 0;
    for seed in 0..SEEDS {
        let bytes = sheets::sheet(seed);
        longest = longest.max(bytes.len());
        if let Ok(sheet) = Sheet::read(&bytes) {
            tables.insert(sheet.tables.count());
            cars.insert(sheet.cars().count());
            strikes.insert(sheet.events().len() - sheet.cars().count());
            let text = String::from_utf8(bytes).unwrap();
            rows.extend(text.lines().filter(|line| line.starts_with('T')).map(|t| numbers(t)[1]));
        }
    }
    assert_eq!(tables, HashSet::from([1, 2, 3, 4]));
    assert!((0..=60).chain([61, 119, 120]).all(|count| cars.contains(&count)));
    assert!((0..=10).chain([59, 60]).all(|count| strikes.contains(&count)));
    assert!((2..=60).all(|count| rows.contains(&count)) && rows.contains(&400));
    assert!(longest > SHEET_BYTES);
}

#[test]
fn full_sheets_are_full_and_accepted() {
    for seed in 0..20 {
        let bytes = sheets::full_sheet(seed);
        assert_eq!(bytes.len(), 39_771);
        let listing = String::from_utf8(listing::of(&bytes)).unwrap();
        assert!(listing.lines().nth(60).unwrap().starts_with("S       60"));
    }
}

#[test]
fn fullest_sheets_have_the_greatest_length_and_every_car_accepted() {
    for seed in 0..20 {
        let bytes = sheets::fullest_sheet(seed);
        assert_eq!(bytes, sheets::fullest_sheet(seed));
        assert_eq!(bytes.len(), SHEET_BYTES);
        let listing = String::from_utf8(listing::of(&bytes)).unwrap();
        let letters: String = listing.lines().map(|line| &line[..1]).collect();
        assert_eq!(letters, "A".repeat(60) + &"KA".repeat(60) + "SGGGG");
        assert!(listing.lines().nth(180).unwrap().starts_with("S       60"));
        let again = met(&bytes)["a struck number accepted"];
        assert!((15..=45).contains(&again), "{again} numbers entered again");
    }
}

/// The numbers of a line.
fn numbers(line: &str) -> Vec<u32> {
    line[1..].split_whitespace().map(|number| number.parse().unwrap()).collect()
}

/// What happens on an accepted sheet, and how often, by a book of the numbers held: true is accepted.
#[derive(Default)]
struct Book {
    held: HashMap<u32, bool>,
    struck: HashSet<u32>,
    turned_away: HashSet<u32>,
    met: BTreeMap<&'static str, u32>,
}

impl Book {
    fn enter(&mut self, number: u32, refusal: Option<u32>) {
        let what = match (refusal, self.struck.contains(&number)) {
            (Some(9), _) if self.held.contains_key(&number) => "a held number met by a full train",
            (Some(9), _) if number == 0 => "the number 0 met by a full train",
            (Some(9), _) => "a car met by a full train",
            (Some(11), true) => "a number struck, entered again and typed once more",
            (None, true) => "a struck number accepted",
            (Some(12..), true) => "a struck number refused",
            _ => "another car",
        };
        *self.met.entry(what).or_default() += 1;
        if refusal == Some(9) {
            self.turned_away.insert(number);
        }
        if !matches!(refusal, Some(9..=11)) {
            self.held.insert(number, refusal.is_none());
            if self.held.len() == 60 && !self.turned_away.is_empty() {
                *self.met.entry("a free place of a full train taken").or_default() += 1;
            }
        }
    }

    fn strike(&mut self, number: u32) {
        let what = match self.held.remove(&number) {
            Some(true) => "an accepted car struck",
            Some(false) => "a refused car struck",
            None if number == 0 => "a strike of 0",
            None if self.struck.contains(&number) => "a strike of a number struck before",
            None if self.turned_away.contains(&number) => "a strike of a car turned away by 9",
            None => "a strike of a number never held",
        };
        *self.met.entry(what).or_default() += 1;
        if what.ends_with("car struck") {
            self.struck.insert(number);
        }
    }
}

/// What is met on an accepted sheet.
fn met(bytes: &[u8]) -> BTreeMap<&'static str, u32> {
    let sheet = Sheet::read(bytes).unwrap_or_else(|_| panic!("a sound sheet"));
    let listing = String::from_utf8(listing::of(bytes)).unwrap();
    let mut book = Book::default();
    for (event, answer) in sheet.events().iter().zip(listing.lines()) {
        let refusal = answer.starts_with('X').then(|| numbers(answer)[1]);
        match event {
            Event::Enter(car) => book.enter(car.number, refusal),
            Event::Strike(number) => {
                assert_eq!(refusal.is_none(), book.held.contains_key(number));
                book.strike(*number);
            }
        }
    }
    book.met
}

#[test]
fn strikes_of_every_kind_are_met() {
    let mut seen: BTreeMap<&str, u32> = BTreeMap::new();
    let (mut with_strikes, mut all) = (0, 0);
    for seed in 0..SEEDS {
        let bytes = sheets::sheet(seed);
        let Ok(sheet) = Sheet::read(&bytes) else { continue };
        all += 1;
        with_strikes += u32::from(sheet.cars().count() < sheet.events().len());
        for (what, times) in met(&bytes) {
            *seen.entry(what).or_default() += times;
        }
    }
    assert!((all / 4..all / 2).contains(&with_strikes), "{with_strikes} of {all} have strikes");
    let at_least = [
        ("an accepted car struck", 1_000),
        ("a refused car struck", 300),
        ("a strike of 0", 300),
        ("a strike of a number struck before", 300),
        ("a strike of a car turned away by 9", 20),
        ("a strike of a number never held", 300),
        ("a struck number accepted", 300),
        ("a struck number refused", 100),
        ("a number struck, entered again and typed once more", 100),
        ("a car met by a full train", 300),
        ("a held number met by a full train", 20),
        ("the number 0 met by a full train", 20),
        ("a free place of a full train taken", 100),
    ];
    for (what, times) in at_least {
        assert!(seen[what] >= times, "{what}: {seen:?}");
    }
}

/// Why a sheet is refused at a line, as far as lines K, or C and K lines in number, have to do with it.
fn fault(text: &str, number: usize, refusal: u32) -> &'static str {
    let lines: Vec<&str> = text.split('\n').collect();
    let letter = |place: usize| lines.get(place).and_then(|line| line.chars().next());
    let count = |of| (0..number).filter(|&place| letter(place) == Some(of)).count();
    let before = number.checked_sub(2).and_then(letter);
    match (letter(number - 1), refusal) {
        (Some('K'), 3) => "a K line without an end",
        (Some('K'), 4) if number == 1 => "a K line before the tables",
        (Some('K'), 4) => "a K line among rows",
        (Some('T'), 4) if before == Some('K') => "a table behind a K line",
        (Some('R'), 4) if before == Some('K') => "a row behind a K line",
        (Some('K'), 5) => "the length of a K line",
        (Some('K'), 6) => "the field of a K line",
        (Some('C'), 9) if count('C') == 121 => "the 121st C line",
        (Some('K'), 9) if count('K') == 61 => "the 61st K line",
        (Some('K'), 9) if before == Some('E') => "a K line behind the last line",
        (Some('E'), 9) if counts_strikes(&lines[..number]) => "strikes counted with the cars",
        _ => "something else",
    }
}

fn counts_strikes(lines: &[&str]) -> bool {
    let count = |of| lines.iter().filter(|line| line.starts_with(of)).count();
    let end = lines.last().and_then(|line| line[1..].trim().parse().ok());
    count('K') > 0 && end == Some(count('C') + count('K'))
}

#[test]
fn faults_of_lines_k_are_met() {
    let mut seen: BTreeMap<&str, u32> = BTreeMap::new();
    for seed in 0..2 * SEEDS {
        let bytes = sheets::sheet(seed);
        let listing = String::from_utf8(listing::of(&bytes)).unwrap();
        if let Some(fields) = listing.strip_prefix('Z').map(|_| numbers(&listing)) {
            if fields[0] > 0 {
                let text = String::from_utf8_lossy(&bytes);
                *seen.entry(fault(&text, fields[0] as usize, fields[1])).or_default() += 1;
            }
        }
    }
    let at_least = [
        ("a K line without an end", 2),
        ("a K line before the tables", 5),
        ("a K line among rows", 5),
        ("a table behind a K line", 5),
        ("a row behind a K line", 2),
        ("the length of a K line", 20),
        ("the field of a K line", 20),
        ("the 121st C line", 20),
        ("the 61st K line", 20),
        ("a K line behind the last line", 5),
        ("strikes counted with the cars", 5),
    ];
    for (what, times) in at_least {
        assert!(seen.get(what).is_some_and(|&met| met >= times), "{what}: {seen:?}");
    }
}
