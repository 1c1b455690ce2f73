//! Totals by grade: in the running train, in one that is handed in, and in the lines G.

use reference::car::Car;
use reference::operations::{self, HandedIn};
use reference::refusal::Refusal;
use reference::table::{Row, Tables};
use reference::train::{Place, Totals, Train};
use reference::{listing, sheets};

/// A car that every grade takes.
const CAR: Car = Car {
    number: 9,
    car_type: 1,
    grade: 1,
    stick: 1,
    given: 2,
    readings: [1500, 1500, 0, 0],
    water_level: 0,
    temperature: 600,
    density: 9400,
    water: 30,
    impurities: 10,
};

fn handed_in() -> Vec<HandedIn> {
    let rows = [(0, 0), (3000, 70_000)].map(|(level, capacity)| Row { level, capacity });
    vec![HandedIn { car_type: 1, announced: 2, rows: rows.to_vec() }]
}

fn tables() -> Tables {
    operations::check_tables(&handed_in()).unwrap()
}

fn totals(accepted: u32, gross: u64, net: u64) -> Totals {
    Totals { accepted, gross, net }
}

fn held(number: u32, grade: u32, gross: u32, net: u32) -> Place {
    Place { number, grade, gross, net }
}

/// A train of ten accepted cars, of which one has the number 7, and a refused car.
fn train() -> Train {
    let cars = [
        held(7, 1, 100, 90),
        held(12, 2, 500, 400),
        held(13, 2, 1_500, 1_400),
        held(14, 3, 9_000, 8_000),
        held(15, 3, 1_000, 900),
        held(8, 0, 0, 0),
        held(16, 3, 20_000, 18_100),
        held(17, 4, 1, 1),
        held(18, 4, 1, 1),
        held(19, 4, 1, 1),
        held(20, 4, 1, 0),
    ];
    let grades =
        [totals(1, 100, 90), totals(2, 2_000, 1_800), totals(3, 30_000, 27_000), totals(4, 4, 3)];
    let all = totals(10, 32_104, 28_893);
    let mut train = Train { all, grades, held: 11, ..Train::default() };
    train.places[..11].copy_from_slice(&cars);
    train
}

/// Whether the train answers 9 to cars that would pass, or be refused by 10, 11 or 12, and stays.
fn is_barred(handed_in: &Train) -> bool {
    let cars =
        [CAR, Car { number: 0, ..CAR }, Car { number: 7, ..CAR }, Car { car_type: 2, ..CAR }];
    cars.iter().all(|car| {
        let mut train = handed_in.clone();
        train.enter(car, &tables()) == Err(Refusal::Count) && train == *handed_in
    })
}

#[test]
fn an_accepted_car_counts_for_all_and_for_its_grade() {
    for grade in 1..=4 {
        let mut handed_back = train();
        let figures = handed_back.enter(&Car { grade, ..CAR }, &tables()).unwrap();
        assert!(figures.gross > figures.net && figures.net > 0);
        let mut expected = train();
        for totals in [&mut expected.all, &mut expected.grades[grade as usize - 1]] {
            totals.accepted += 1;
            totals.gross += u64::from(figures.gross);
            totals.net += u64::from(figures.net);
        }
        expected.places[11] = held(9, grade, figures.gross, figures.net);
        expected.held = 12;
        assert_eq!(handed_back, expected);
    }
}

#[test]
fn a_refused_car_counts_for_no_grade() {
    for grade in 0..=5 {
        let refused = [
            Car { number: 0, ..CAR },
            Car { number: 7, ..CAR },
            Car { car_type: 2, ..CAR },
            Car { stick: 3, ..CAR },
            Car { temperature: 901, ..CAR },
            Car { water: 101, ..CAR },
        ];
        for car in refused {
            let mut handed_back = train();
            handed_back.enter(&Car { grade, ..car }, &tables()).unwrap_err();
            assert_eq!((handed_back.all, handed_back.grades), (train().all, train().grades));
        }
    }
}

/// Fifty-nine cars with 12,000,000 kg, all of grade 4 or of all grades in turn.
#[test]
fn a_train_that_adds_up_takes_a_car() {
    let mut one_grade = Train { held: 59, ..Train::default() };
    let mut four_grades = one_grade.clone();
    for place in 0..59_u32 {
        // 58 × 200,000 and 400,000.
        let mass = if place == 58 { 400_000 } else { 200_000 };
        let turn = place as usize % 4;
        one_grade.places[place as usize] = held(100 + place, 4, mass, mass);
        four_grades.places[place as usize] = held(100 + place, turn as u32 + 1, mass, mass);
        four_grades.grades[turn].accepted += 1;
        four_grades.grades[turn].gross += u64::from(mass);
        four_grades.grades[turn].net += u64::from(mass);
    }
    let most = totals(59, 12_000_000, 12_000_000);
    (one_grade.all, one_grade.grades[3], four_grades.all) = (most, most, most);
    for mut train in [train(), one_grade, four_grades] {
        assert!(train.enter(&CAR, &tables()).is_ok());
    }
}

#[test]
fn a_train_that_does_not_add_up_is_barred() {
    let one_off: [fn(&mut Totals); 6] = [
        |totals| totals.accepted += 1,
        |totals| totals.accepted -= 1,
        |totals| totals.gross += 1,
        |totals| totals.gross -= 1,
        |totals| totals.net += 1,
        |totals| totals.net -= 1,
    ];
    for change in one_off {
        let mut barred = train();
        change(&mut barred.all);
        assert!(is_barred(&barred), "{:?}", barred.all);
        for grade in 0..4 {
            let mut barred = train();
            change(&mut barred.grades[grade]);
            assert!(is_barred(&barred), "{:?}", barred.grades);
        }
    }
    // Masses moved from one total to the other.
    let mut barred = train();
    (barred.all.gross, barred.all.net) = (barred.all.net, barred.all.gross);
    assert!(is_barred(&barred));
    assert!(is_barred(&Train { grades: [Totals::default(); 4], ..train() }));
    assert!(is_barred(&Train { all: Totals::default(), ..train() }));
}

#[test]
fn sums_are_not_cut() {
    let barred = |all, grades| is_barred(&Train { all, grades, ..Train::default() });
    let none = Totals::default();
    let (half_count, half) = (1 << 31, 1 << 63);
    let heavy = totals(0, half, 0);
    assert!(barred(totals(0, 5, 0), [heavy, heavy, totals(0, 5, 0), none]));
    let heavy = totals(0, 0, half);
    assert!(barred(totals(0, 0, 5), [none, heavy, totals(0, 0, 5), heavy]));
    let many = totals(half_count, 0, 0);
    assert!(barred(totals(5, 0, 0), [totals(5, 0, 0), none, many, many]));
    let most = totals(u32::MAX, u64::MAX, u64::MAX);
    assert!(barred(none, [most, totals(1, 1, 1), none, none]));
    assert!(barred(totals(1, 1, 1), [most, totals(2, 2, 2), none, none]));
    assert!(barred(most, [most; 4]));
    // These do add up, and pass the limits.
    assert!(barred(most, [none, none, none, most]));
}

#[test]
fn bad_tables_come_before_a_train_that_does_not_add_up() {
    let barred = Train { all: Totals::default(), ..train() };
    let mut tables = handed_in();
    tables[0].rows[1].level = 3_601;
    let mut handed_back = barred.clone();
    assert_eq!(operations::enter(&mut handed_back, &tables, &CAR), Err(Refusal::TableRow));
    assert_eq!(operations::enter(&mut handed_back, &handed_in(), &CAR), Err(Refusal::Count));
    assert_eq!(handed_back, barred);
}

/// The numbers of a line.
fn numbers(line: &str) -> Vec<u64> {
    line[1..].split_whitespace().map(|number| number.parse().unwrap()).collect()
}

/// Accepted cars, gross and net of some cars' answers.
fn sums<'a>(answers: impl Iterator<Item = &'a str>) -> Vec<u64> {
    let mut sums = vec![0; 3];
    for figures in answers.filter(|line| line.starts_with('A')).map(numbers) {
        sums[0] += 1;
        sums[1] += figures[4];
        sums[2] += figures[5];
    }
    sums
}

/// The lines of cars and strikes of a sheet with their answers, but for those answers of accepted cars
/// that a later strike took out.
fn held_in_the_end<'a>(lines: &[&'a str], answers: &[&'a str]) -> Vec<(&'a str, &'a str)> {
    let later_strike = |place: usize| {
        let number = numbers(lines[place])[0];
        let mut later = lines[place + 1..].iter().filter(|line| line.starts_with('K'));
        later.any(|line| numbers(line)[0] == number)
    };
    (0..lines.len())
        .filter(|&place| lines[place].starts_with('C') && !later_strike(place))
        .map(|place| (lines[place], answers[place]))
        .collect()
}

#[test]
fn the_lines_of_the_grades_add_up() {
    let (mut all_four, mut with_strikes) = (0, 0);
    for seed in 0..4_000 {
        let sheet = sheets::sheet(seed);
        let listing = String::from_utf8(listing::of(&sheet)).unwrap();
        let answers: Vec<&str> = listing.lines().collect();
        if listing.starts_with('Z') {
            assert_eq!(answers.len(), 1);
            continue;
        }
        let text = String::from_utf8(sheet).unwrap();
        let lines: Vec<&str> = text.lines().filter(|line| line.starts_with(['C', 'K'])).collect();
        let (answers, totals) = answers.split_at(answers.len() - 5);
        assert_eq!(answers.len(), lines.len());
        let held = held_in_the_end(&lines, answers);
        assert!(totals[0].starts_with('S'));
        assert_eq!(numbers(totals[0]), sums(held.iter().map(|(_, answer)| *answer)));
        for (grade, line) in (1..).zip(&totals[1..]) {
            let of_grade = held.iter().filter(|(car, _)| numbers(car)[2] == grade);
            let expected = [vec![grade], sums(of_grade.map(|(_, answer)| *answer))].concat();
            assert!(line.starts_with('G') && line.len() == 37);
            assert_eq!(numbers(line), expected);
        }
        let of_grades: Vec<Vec<u64>> = totals[1..].iter().map(|line| numbers(line)).collect();
        let added = [1, 2, 3].map(|part| of_grades.iter().map(|grade| grade[part]).sum::<u64>());
        assert_eq!(numbers(totals[0]), added);
        all_four += u32::from(of_grades.iter().all(|grade| grade[1] > 0));
        with_strikes += u32::from(answers.iter().any(|answer| answer.starts_with('K')));
    }
    assert!(all_four > 600, "{all_four} sheets have accepted cars of all grades");
    assert!(with_strikes > 300, "{with_strikes} sheets have strikes that were done");
}
