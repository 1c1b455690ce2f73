//! Strikes: histories of C and K lines with their listings, and a plain book and the history itself
//! beside the running train.

use reference::car::{Car, Figures};
use reference::operations::{self, HandedIn};
use reference::refusal::Refusal;
use reference::sheet::{Event, Sheet};
use reference::table::Row;
use reference::train::{Place, Totals, Train};
use reference::{listing, sheets};

/// The table of the paper's sheet.
const TABLE: &str = "T 1 4\nR 0 0\nR 1000 20000\nR 2000 50000\nR 3000 70000\n";

/// What cars of the three kinds below are answered, from the paper and by hand. At 3000 mm Vt is
/// 7,014,000 and V15 6,785,029.6; 32,229 kg less 0.4 % is 32,100.1 kg.
const OF_40: &str = "15000 3500000 3392515 32229 32003";
const OF_100: &str = "30000 7000000 6785030 64458 64458";
const OF_F5: &str = "15000 3500000 3392515 32229 32100";

/// The first car of the paper's sheet, of grade 3.
fn of_40(number: u32) -> String {
    format!("C {number} 1 3 1 2 1500 1500 0 0 0 600 9500 50 20\n")
}

/// Twice the oil, of grade 4, without water and impurities.
fn of_100(number: u32) -> String {
    format!("C {number} 1 4 1 2 3000 3000 0 0 0 600 9500 0 0\n")
}

/// The first car's oil, of grade 1, with the most water and impurities.
fn of_f5(number: u32) -> String {
    format!("C {number} 1 1 1 2 1500 1500 0 0 0 600 9500 30 10\n")
}

/// The second car of the paper's sheet, which 17 turns away.
fn refused(number: u32) -> String {
    format!("C {number} 1 3 1 2 1500 1501 0 0 1501 600 9500 50 20\n")
}

/// Lines with their numbers in columns.
fn columns(text: &str) -> String {
    let column =
        |word: &str| if word.len() == 1 && word > "9" { word.into() } else { format!("{word:>9}") };
    let line = |line: &str| line.split_whitespace().map(column).collect::<String>() + "\n";
    text.lines().map(line).collect()
}

/// The listing of a sheet with these lines behind the paper's table and a right last line.
fn listing_of(lines: &str) -> String {
    let cars = lines.lines().filter(|line| line.starts_with('C')).count();
    listing_of_text(&columns(&format!("{TABLE}{lines}E {cars}\n")))
}

fn listing_of_text(text: &str) -> String {
    String::from_utf8(listing::of(text.as_bytes())).unwrap()
}

#[test]
fn a_car_shunted_out() {
    let listing = listing_of(&(of_40(50_000_001) + "K 50000001\n"));
    let expected = format!("A 50000001 {OF_40}\nK 50000001\n{NOTHING_HELD}");
    assert_eq!(listing, columns(&expected));
}

const NOTHING_HELD: &str = "S 0 0 0\nG 1 0 0 0\nG 2 0 0 0\nG 3 0 0 0\nG 4 0 0 0\n";

/// Held in the end: 4 and 1 of grade 1, 3 of grade 4.
#[test]
fn a_history_with_numbers_used_again() {
    let lines = [
        of_40(1),
        of_100(2),
        refused(3),
        of_f5(4),
        "K 2\nK 3\n".into(),
        of_100(3),
        of_100(1),
        "K 1\nK 1\n".into(),
        of_f5(1),
        "K 9\nK 0\nK 99999999\n".into(),
    ];
    let expected = format!(
        "A 1 {OF_40}\nA 2 {OF_100}\nX 3 17\nA 4 {OF_F5}\nK 2\nK 3\nA 3 {OF_100}\nX 1 11\nK 1\n\
         X 1 30\nA 1 {OF_F5}\nX 9 30\nX 0 30\nX 99999999 30\nS 3 128916 128658\n\
         G 1 2 64458 64200\nG 2 0 0 0\nG 3 0 0 0\nG 4 1 64458 64458\n"
    );
    assert_eq!(listing_of(&lines.concat()), columns(&expected));
}

/// The second car of a number is turned away and strikes nothing; the first is struck with the masses
/// that it had.
#[test]
fn a_number_typed_twice_does_not_alter_the_held_car() {
    for second in [of_100(7), refused(7), of_40(7)] {
        let lines = of_40(6) + &of_f5(7) + &second;
        let answers = format!("A 6 {OF_40}\nA 7 {OF_F5}\nX 7 11\n");
        let both = "S 2 64458 64103\nG 1 1 32229 32100\nG 2 0 0 0\nG 3 1 32229 32003\nG 4 0 0 0\n";
        assert_eq!(listing_of(&lines), columns(&(answers.clone() + both)));
        let one =
            "K 7\nX 7 30\nS 1 32229 32003\nG 1 0 0 0\nG 2 0 0 0\nG 3 1 32229 32003\nG 4 0 0 0\n";
        assert_eq!(listing_of(&(lines + "K 7\nK 7\n")), columns(&(answers + one)));
    }
}

/// Of a full train 5 is struck and 61 takes its place, then 60 is struck and 5 comes back.
#[test]
fn a_full_train() {
    let sixty: String = (1..=60).map(of_40).collect();
    let unknown_type = of_40(62).replace("C 62 1", "C 62 2");
    let full = [of_100(61), of_100(0), of_100(5), unknown_type].concat();
    let then = "K 61\nK 5\n".to_string() + &of_100(61) + &of_100(5) + "K 60\n" + &of_f5(5) + &full;
    let answers: String = (1..=60).map(|number| format!("A {number} {OF_40}\n")).collect();
    let nines = "X 61 9\nX 0 9\nX 5 9\nX 62 9\n";
    let expected = format!(
        "{answers}{nines}X 61 30\nK 5\nA 61 {OF_100}\nX 5 9\nK 60\nA 5 {OF_F5}\n{nines}\
         S 60 1965969 1952732\nG 1 1 32229 32100\nG 2 0 0 0\nG 3 58 1869282 1856174\n\
         G 4 1 64458 64458\n"
    );
    assert_eq!(listing_of(&(sixty + &full + &then)), columns(&expected));
}

#[test]
fn refused_cars_fill_a_train_too() {
    let sixty: String = (1..=60).map(refused).collect();
    let listing = listing_of(&(sixty + &of_40(61) + "K 61\nK 1\n" + &of_40(61) + "K 61\n"));
    let answers: String = (1..=60).map(|number| format!("X {number} 17\n")).collect();
    let expected = format!("{answers}X 61 9\nX 61 30\nK 1\nA 61 {OF_40}\nK 61\n{NOTHING_HELD}");
    assert_eq!(listing, columns(&expected));
}

#[test]
fn where_a_strike_may_stand() {
    let (car, cars) = (of_40(1), of_40(1) + &of_40(2));
    let accepted = [
        format!("{TABLE}K 1\nE 0\n"),
        format!("{TABLE}K 1\n{car}K 1\nK 1\n{car}E 2\n"),
        format!("{TABLE}T 2 2\nR 0 0\nR 1 1\nK 1\nE 0\n"),
        format!("{TABLE}{cars}K 2\nE 2\n"),
    ];
    for text in accepted {
        assert!(!listing_of_text(&columns(&text)).starts_with('Z'), "{text}");
    }
    let turned_away = [
        (format!("K 1\n{TABLE}E 0\n"), "Z 1 4"),
        ("T 1 2\nK 1\nR 0 0\nR 1 1\nE 0\n".into(), "Z 2 4"),
        ("T 1 2\nR 0 0\nK 1\nR 1 1\nE 0\n".into(), "Z 3 4"),
        (format!("{TABLE}K 1\nT 2 2\nR 0 0\nR 1 1\nE 0\n"), "Z 7 4"),
        (format!("{TABLE}K 1\nR 3001 70001\nE 0\n"), "Z 7 4"),
        (format!("{TABLE}{car}K 1\nT 2 2\nR 0 0\nR 1 1\nE 1\n"), "Z 8 4"),
        (format!("{TABLE}{car}K 1\nX 1 30\nE 1\n"), "Z 8 4"),
        (format!("{TABLE}{car}K 1\n"), "Z 8 3"),
        (format!("{TABLE}{car}E 1\nK 1\n"), "Z 8 9"),
        (format!("{TABLE}{car}K 1\nE 2\n"), "Z 8 9"),
        (format!("{TABLE}{cars}K 1\nE 1\n"), "Z 9 9"),
        (format!("{TABLE}{cars}K 1\nE 3\n"), "Z 9 9"),
    ];
    for (text, expected) in turned_away {
        assert_eq!(listing_of_text(&columns(&text)), columns(expected), "{text}");
    }
}

#[test]
fn faults_of_a_strike_s_line() {
    let before = columns(&(TABLE.to_string() + &of_40(1)));
    for (line, refusal) in [
        ("K        1", 3),
        ("K", 3),
        ("K       01 no end", 3),
        ("k        1\n", 4),
        (" K       1\n", 4),
        ("K       1\n", 5),
        ("K         1\n", 5),
        ("K        1\r\n", 5),
        ("K        1        1\n", 5),
        ("K\n", 5),
        ("K       01\n", 6),
        ("K         \n", 6),
        ("K100000000\n", 6),
        ("K       -1\n", 6),
        ("K       1 \n", 6),
    ] {
        let end = if refusal == 3 { "" } else { "E        1\n" };
        let listing = listing_of_text(&format!("{before}{line}{end}"));
        assert_eq!(listing, columns(&format!("Z 7 {refusal}")), "{line}");
    }
}

/// 120 cars and 60 strikes pass; one line more of either is refused at its own line, behind 3 to 6.
#[test]
fn lines_of_a_sheet() {
    let pairs: String = (1..=60).map(|number| format!("{}K {number}\n", of_40(number))).collect();
    let cars: String = (1..=60).map(of_40).collect();
    let most = pairs.clone() + &cars;
    let listing = listing_of(&most);
    assert_eq!(listing.matches('A').count(), 120);
    assert!(listing.contains(&columns("S 60 1933740 1920180")));

    let start = columns(&format!("{TABLE}{most}"));
    let (car, strike) = (columns(&of_40(61)), columns("K 61"));
    let z = |line: u32, refusal: u32| columns(&format!("Z {line} {refusal}"));
    for (line, refusal) in [
        (car.clone(), 9),
        (strike.clone(), 9),
        (columns(&of_40(0)), 9),
        (columns("K 0"), 9),
        (car.replace("61 ", "61x"), 6),
        (strike.replace("61", "61 "), 5),
        (strike.replace("61", "6x"), 6),
        (car.replace('\n', ""), 3),
        (strike.replace('\n', ""), 3),
    ] {
        let end = if refusal == 3 { "" } else { "E      120\n" };
        assert_eq!(listing_of_text(&format!("{start}{line}{end}")), z(186, refusal), "{line}");
    }
    // Each of the two is counted by itself.
    let few = columns(&format!("{TABLE}{cars}"));
    let strikes = columns(&"K 99\n".repeat(61));
    assert_eq!(listing_of_text(&format!("{few}{strikes}E       60\n")), z(126, 9));
    let many = columns(&cars.repeat(3));
    assert_eq!(listing_of_text(&format!("{}{many}E      180\n", columns(TABLE))), z(126, 9));
}

#[test]
fn a_line_by_itself() {
    assert_eq!(operations::fields(b'K'), Some(1));
    let mut buffer = [b'.'; 12];
    assert_eq!(operations::write_line(&mut buffer[..10], b'K', &[5]), None);
    assert_eq!(operations::write_line(&mut buffer, b'K', &[100_000_000]), None);
    assert_eq!(buffer, [b'.'; 12]);
    assert_eq!(operations::write_line(&mut buffer, b'K', &[50_000_001]), Some(11));
    assert_eq!(&buffer, b"K 50000001\n.");
    assert_eq!(operations::read_line(&buffer), Ok((b'K', vec![50_000_001])));
    assert_eq!(operations::read_line(b"K        0\n"), Ok((b'K', vec![0])));
    for (text, refusal) in [
        (&b"K        0"[..], Refusal::LineMissing),
        (b"k        0\n", Refusal::Letter),
        (b"K       0\n", Refusal::LineLength),
        (b"K       00\n", Refusal::Field),
    ] {
        assert_eq!(operations::read_line(text), Err(refusal));
    }
}

/// Numbers that are drawn anew from a seed (SplitMix64).
struct Random(u64);

impl Random {
    fn below(&mut self, bound: u64) -> u64 {
        self.0 = self.0.wrapping_add(0x9e37_79b9_7f4a_7c15);
        let mixed = (self.0 ^ (self.0 >> 30)).wrapping_mul(0xbf58_476d_1ce4_e5b9);
        let mixed = (mixed ^ (mixed >> 27)).wrapping_mul(0x94d0_49bb_1331_11eb);
        (mixed ^ (mixed >> 31)) % bound
    }

    /// Mostly one of eighty numbers, so that many are met again; at times one out of range.
    fn number(&mut self) -> u32 {
        match self.below(40) {
            0 => 0,
            1 => [99_999_999, 100_000_000, 4_000_000_000, u32::MAX][self.below(4) as usize],
            _ => 1 + self.below(80) as u32,
        }
    }

    /// A car of any grade, one in four refused by its type, grade, level or content.
    fn car(&mut self) -> Car {
        let level = 1 + self.below(3_000) as u32;
        let mut car = Car {
            number: self.number(),
            car_type: 1,
            grade: 1 + self.below(4) as u32,
            stick: 1 + self.below(2) as u32,
            given: 2,
            readings: [level, level, 0, 0],
            water_level: 0,
            temperature: 400 + self.below(501) as u32,
            density: 9_000 + self.below(500) as u32,
            water: self.below(31) as u32,
            impurities: self.below(11) as u32,
        };
        match self.below(16) {
            0 => car.car_type = 2,
            1 => car.grade = 5,
            2 => car.readings[0] += 2,
            3 => car.water = 101,
            _ => {}
        }
        car
    }

    /// Mostly the paper's table; one with a wrong type or a wrong row; none.
    fn tables(&mut self) -> Vec<HandedIn> {
        let rows = [(0, 0), (1_000, 20_000), (2_000, 50_000), (3_000, 70_000)];
        let rows = rows.map(|(level, capacity)| Row { level, capacity }).to_vec();
        let mut table = HandedIn { car_type: 1, announced: 4, rows };
        match self.below(40) {
            0 => table.car_type = 10_000,
            1 => table.rows[2].capacity = 20_000,
            2 => return Vec::new(),
            _ => {}
        }
        vec![table]
    }
}

/// A car with the tables handed in with it, or a strike.
enum Item {
    Enter(Vec<HandedIn>, Car),
    Strike(u32),
}

/// A list with spells in which strikes are rare and spells in which they are not.
fn list(seed: u64, items: u64) -> Vec<Item> {
    let mut random = Random(seed);
    let item = |place: u64| {
        let often = [2, 20, 50][(place / 150 % 3) as usize];
        if random.below(100) < often {
            Item::Strike(random.number())
        } else {
            Item::Enter(random.tables(), random.car())
        }
    };
    (0..items).map(item).collect()
}

/// An entry of the book: a number, and the grade and figures of an accepted car.
type Entry = (u32, Option<(u32, Figures)>);

/// What the paper's book does with a car, its tests in the listed order.
fn book_car(book: &mut Vec<Entry>, tables: &[HandedIn], car: &Car) -> Result<Figures, u32> {
    if let Err(refusal) = operations::check_tables(tables) {
        return Err(refusal.number());
    }
    if book.len() == 60 {
        return Err(9);
    }
    if !(1..=99_999_999).contains(&car.number) {
        return Err(10);
    }
    if book.iter().any(|(number, _)| *number == car.number) {
        return Err(11);
    }
    let answer = operations::work_out(tables, car);
    book.push((car.number, answer.ok().map(|figures| (car.grade, figures))));
    answer.map_err(Refusal::number)
}

/// A strike removes the entry of its number.
fn book_strike(book: &mut Vec<Entry>, number: u32) -> Result<(), u32> {
    let before = book.len();
    book.retain(|(held, _)| *held != number);
    if book.len() == before {
        Err(30)
    } else {
        Ok(())
    }
}

/// Totals of some accepted cars.
fn sum<'a>(cars: impl Iterator<Item = &'a (u32, Figures)>) -> Totals {
    cars.fold(Totals::default(), |sum, (_, figures)| Totals {
        accepted: sum.accepted + 1,
        gross: sum.gross + u64::from(figures.gross),
        net: sum.net + u64::from(figures.net),
    })
}

/// Totals of all accepted cars and of each grade.
fn totals(cars: &[(u32, Figures)]) -> (Totals, [Totals; 4]) {
    let of_grade = |grade| sum(cars.iter().filter(|(other, _)| *other == grade));
    (sum(cars.iter()), [1, 2, 3, 4].map(of_grade))
}

/// The train that a book stands beside, with nothing past the places held.
fn train_of(book: &[Entry]) -> Train {
    let accepted: Vec<(u32, Figures)> = book.iter().filter_map(|(_, accepted)| *accepted).collect();
    let (all, grades) = totals(&accepted);
    let mut train = Train { all, grades, held: book.len(), ..Train::default() };
    for (place, (number, accepted)) in train.places.iter_mut().zip(book) {
        let (grade, gross, net) =
            accepted.map_or((0, 0, 0), |(grade, figures)| (grade, figures.gross, figures.net));
        *place = Place { number: *number, grade, gross, net };
    }
    train
}

#[test]
fn a_plain_book_beside_the_train() {
    let (mut struck, mut full, mut not_held) = (0, 0, 0);
    for seed in 0..200 {
        let (mut train, mut book) = (Train::default(), Vec::new());
        for item in list(seed, 600) {
            match item {
                Item::Enter(tables, car) => {
                    let answer = operations::enter(&mut train, &tables, &car);
                    let expected = book_car(&mut book, &tables, &car);
                    full += u32::from(expected == Err(9));
                    assert_eq!(answer.map_err(Refusal::number), expected);
                }
                Item::Strike(number) => {
                    let answer = operations::strike(&mut train, number);
                    let expected = book_strike(&mut book, number);
                    struck += u32::from(expected.is_ok());
                    not_held += u32::from(expected.is_err());
                    assert_eq!(answer.map_err(Refusal::number), expected);
                }
            }
            assert_eq!(train, train_of(&book), "seed {seed}");
        }
    }
    assert!(struck > 5_000 && full > 5_000 && not_held > 5_000, "{struck} {full} {not_held}");
}

/// The accepted cars of a history that no later strike has, from the answers alone. `done` is whether a
/// strike must have been answered to count; it makes no difference.
fn read_off(history: &[(Item, bool, Option<Figures>)], done: bool) -> Vec<(u32, Figures)> {
    let stays = |place: usize, number: u32| {
        history[place + 1..].iter().all(|(item, answered, _)| match item {
            Item::Strike(struck) => *struck != number || (done && !answered),
            Item::Enter(..) => true,
        })
    };
    let car = |place: usize| match &history[place] {
        (Item::Enter(_, car), true, Some(figures)) if stays(place, car.number) => {
            Some((car.grade, *figures))
        }
        _ => None,
    };
    (0..history.len()).filter_map(car).collect()
}

#[test]
fn count_and_totals_read_off_the_history() {
    let mut most = 0;
    for seed in 1_000..1_400 {
        let mut train = Train::default();
        let mut history = Vec::new();
        for item in list(seed, 20 + seed % 300) {
            let (answered, figures) = match &item {
                Item::Enter(tables, car) => {
                    let figures = operations::enter(&mut train, tables, car).ok();
                    (figures.is_some(), figures)
                }
                Item::Strike(number) => (train.strike(*number).is_ok(), None),
            };
            history.push((item, answered, figures));
        }
        for done in [false, true] {
            let held = read_off(&history, done);
            assert_eq!((train.all, train.grades), totals(&held), "seed {seed}");
            most = most.max(held.len());
        }
    }
    assert!(most > 40, "{most} accepted cars at most");
}

/// The train of a sheet is sound at every line: with all tests of 9 the listing is the same.
#[test]
fn a_sheet_s_train_is_sound_at_every_line() {
    let drawn = (0..1_500).map(sheets::sheet).chain((0..10).map(sheets::fullest_sheet));
    for bytes in drawn {
        let Ok(sheet) = Sheet::read(&bytes) else { continue };
        let mut train = Train::default();
        let mut lines = String::new();
        for event in sheet.events() {
            let (number, answer) = match event {
                Event::Enter(car) => (car.number, train.enter(car, &sheet.tables).map(Some)),
                Event::Strike(number) => (*number, train.strike(*number).map(|()| None)),
            };
            lines += &match answer {
                Ok(Some(f)) => format!(
                    "A {number} {} {} {} {} {}\n",
                    f.level, f.volume, f.volume_at_15, f.gross, f.net
                ),
                Ok(None) => format!("K {number}\n"),
                Err(refusal) => format!("X {number} {}\n", refusal.number()),
            };
        }
        let listing = listing::of(&bytes);
        assert!(listing.starts_with(columns(&lines).as_bytes()));
        assert_eq!(listing.len(), columns(&lines).len() + 29 + 4 * 38);
    }
}
