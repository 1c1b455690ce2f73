//! Trains that a caller hands in: what a strike does to every place, each part of 9 by itself for a
//! strike and for a car, and the numbers that 30 turns away.

use reference::car::Car;
use reference::operations::{self, HandedIn};
use reference::refusal::Refusal;
use reference::table::Row;
use reference::train::{Place, Totals, Train};

/// A car of grade 3 that [`tables`] accepts.
const CAR: Car = Car {
    number: 9,
    car_type: 1,
    grade: 3,
    stick: 1,
    given: 2,
    readings: [1500, 1500, 0, 0],
    water_level: 0,
    temperature: 600,
    density: 9500,
    water: 50,
    impurities: 20,
};

/// The paper's table.
fn tables() -> Vec<HandedIn> {
    let rows = [(0, 0), (1_000, 20_000), (2_000, 50_000), (3_000, 70_000)];
    let rows = rows.map(|(level, capacity)| Row { level, capacity }).to_vec();
    vec![HandedIn { car_type: 1, announced: 4, rows }]
}

fn held(number: u32, grade: u32, gross: u32, net: u32) -> Place {
    Place { number, grade, gross, net }
}

fn totals(accepted: u32, gross: u64, net: u64) -> Totals {
    Totals { accepted, gross, net }
}

/// A train of these cars with the totals that they make, whatever their grades.
fn made_by(cars: &[Place]) -> Train {
    let mut train = Train { held: cars.len(), ..Train::default() };
    train.places[..cars.len()].copy_from_slice(cars);
    for car in cars.iter().filter(|car| car.grade > 0) {
        let of_grade = train.grades.get_mut(car.grade as usize - 1);
        for totals in of_grade.into_iter().chain([&mut train.all]) {
            totals.accepted += 1;
            totals.gross += u64::from(car.gross);
            totals.net += u64::from(car.net);
        }
    }
    train
}

/// Two cars of grade 1, one of each other grade, and two refused ones. The places past them are not
/// empty, and repeat a number.
fn sound() -> Train {
    let cars = [
        held(11, 1, 1_000, 900),
        held(12, 0, 0, 0),
        held(13, 2, 20_000, 19_000),
        held(14, 1, 300, 300),
        held(15, 4, 7, 6),
        held(16, 0, 5, 5),
        held(17, 3, 64_458, 64_458),
    ];
    let mut train = made_by(&cars);
    assert_eq!(train.all, totals(5, 85_765, 84_664));
    assert_eq!(train.grades[0], totals(2, 1_300, 1_200));
    train.places[7] = held(9, 7, u32::MAX, u32::MAX);
    train.places[8] = held(11, 1, 1, 1);
    train.places[59] = held(u32::MAX, 2, 3, 4);
    train
}

/// The answers to strikes and to cars, each on a copy; a refusal by 9 or 30 leaves every place.
fn answers(train: &Train, strikes: &[u32], cars: &[u32]) -> Vec<Option<u32>> {
    let strike = |&number: &u32| {
        let mut copy = train.clone();
        (operations::strike(&mut copy, number).err(), copy)
    };
    let enter = |&number: &u32| {
        let mut copy = train.clone();
        (operations::enter(&mut copy, &tables(), &Car { number, ..CAR }).err(), copy)
    };
    let check = |(refusal, copy): (Option<Refusal>, Train)| {
        assert!(refusal.is_none() || copy == *train, "{refusal:?} altered the train");
        refusal.map(Refusal::number)
    };
    strikes.iter().map(strike).chain(cars.iter().map(enter)).map(check).collect()
}

/// Held numbers and others, the paper's 0 and 4,000,000,000 among them.
const STRIKES: [u32; 8] = [11, 12, 17, 9, 0, 99_999_999, 4_000_000_000, u32::MAX];
const CARS: [u32; 4] = [9, 0, 11, u32::MAX];

/// Whether all strikes and cars are answered 9, and nothing changes.
fn is_barred(train: &Train) -> bool {
    answers(train, &STRIKES, &CARS).iter().all(|&refusal| refusal == Some(9))
}

fn is_not_barred(train: &Train) -> bool {
    answers(train, &STRIKES, &CARS).iter().all(|&refusal| refusal != Some(9))
}

#[test]
fn a_sound_train_answers() {
    let expected = [None, None, None, Some(30), Some(30), Some(30), Some(30), Some(30)];
    assert_eq!(answers(&sound(), &STRIKES, &[]), expected);
    assert_eq!(answers(&sound(), &[], &CARS), [None, Some(10), Some(11), Some(10)]);
    assert_eq!(answers(&Train::default(), &STRIKES, &[]), [Some(30); 8]);
}

/// All sixty places move up behind the gap, also those past the cars held, and the last becomes empty.
#[test]
fn a_strike_moves_every_place_behind_it() {
    for gap in 0..7 {
        let before = sound();
        let mut after = before.clone();
        assert_eq!(after.strike(11 + gap as u32), Ok(()));
        assert_eq!(after.places[..gap], before.places[..gap]);
        assert_eq!(after.places[gap..59], before.places[gap + 1..]);
        assert_eq!(after.places[59], Place::default());
        let made = made_by(&after.places[..6]);
        assert_eq!((after.held, after.all, after.grades), (6, made.all, made.grades));
    }
}

#[test]
fn masses_leave_all_and_their_grade() {
    let mut train = sound();
    train.strike(11).unwrap();
    assert_eq!((train.all, train.grades[0]), (totals(4, 84_765, 83_764), totals(1, 300, 300)));
    train.strike(17).unwrap();
    assert_eq!((train.all, train.grades[2]), (totals(3, 20_307, 19_306), totals(0, 0, 0)));
    let before = train.clone();
    train.strike(16).unwrap();
    assert_eq!((train.all, train.grades), (before.all, before.grades));
}

/// The place is the first free one; what stands behind it stays.
#[test]
fn an_entered_car_takes_the_first_free_place() {
    let before = sound();
    let (mut accepted, mut refused) = (before.clone(), before.clone());
    operations::enter(&mut accepted, &tables(), &CAR).unwrap();
    operations::enter(&mut refused, &tables(), &Car { stick: 3, ..CAR }).unwrap_err();
    assert_eq!(accepted.places[7], held(9, 3, 32_229, 32_003));
    assert_eq!(refused.places[7], held(9, 0, 0, 0));
    for train in [accepted, refused] {
        assert_eq!(train.held, 8);
        assert_eq!(train.places[..7], before.places[..7]);
        assert_eq!(train.places[8..], before.places[8..]);
    }
}

/// Sixty cars, numbered from 101, one in five refused.
fn sixty() -> Train {
    let car = |number: u32| held(number, number % 5, 100 + number, number);
    made_by(&(101..=160).map(car).collect::<Vec<Place>>())
}

#[test]
fn sixty_numbers_bar_a_car_and_not_a_strike() {
    let train = sixty();
    assert_eq!((train.held, train.places[59].number), (60, 160));
    assert_eq!(answers(&train, &[101, 130, 160], &[]), [None; 3]);
    assert_eq!(answers(&train, &[100, 161, 0], &[]), [Some(30); 3]);
    assert_eq!(answers(&train, &[], &[161, 101, 0, u32::MAX]), [Some(9); 4]);
    let mut struck = train;
    struck.strike(160).unwrap();
    assert_eq!(
        answers(&struck, &[160, 101], &[160, 101, 0]),
        [Some(30), None, None, Some(11), Some(10)]
    );
}

#[test]
fn more_than_sixty_numbers() {
    for many in [61, 62, 64, 120, 65_536 + 7, 1 << 31, u32::MAX as usize, usize::MAX] {
        assert!(is_barred(&Train { held: many, ..sound() }), "{many}");
        assert!(is_barred(&Train { held: many, ..sixty() }), "{many}");
        assert!(is_barred(&Train { held: many, ..Train::default() }), "{many}");
    }
}

/// Of two accepted cars, two refused ones or one of each, with the totals that they make.
#[test]
fn a_number_twice() {
    let pairs = [[1, 1], [1, 2], [0, 0], [0, 3], [4, 0]];
    for [first, second] in pairs {
        let cars = [held(11, first, 5, 4), held(12, 1, 6, 5), held(11, second, 3, 2)];
        assert!(is_barred(&made_by(&cars)));
        let [a, b, c] = cars;
        assert!(is_barred(&made_by(&[a, c, b])) && is_barred(&made_by(&[b, a, c])));
        assert!(is_not_barred(&made_by(&[a, b, Place { number: 17, ..c }])));
    }
    for number in [0, u32::MAX] {
        assert!(is_barred(&made_by(&[held(number, 1, 1, 1), held(number, 2, 2, 2)])));
    }
    let mut ends = sixty();
    ends.places[59].number = ends.places[0].number;
    assert!(is_barred(&ends));
    // Past the cars held the number does not count.
    assert!(is_not_barred(&sound()));
}

#[test]
fn more_than_sixty_accepted_cars() {
    for many in [61, 62, 1 << 31, u32::MAX] {
        let mut train = Train { all: totals(many, 0, 0), ..Train::default() };
        train.grades[1] = train.all;
        assert!(is_barred(&train));
    }
}

/// A total that one held car makes, or sixty do.
#[test]
fn totals_about_the_largest() {
    let most = 12_000_000;
    let of = |gross, net| made_by(&[held(11, 2, gross, net)]);
    for train in [of(most, most), of(most, 0), of(0, most), of(most - 1, most)] {
        assert!(is_not_barred(&train));
    }
    for train in [of(most + 1, most), of(most, most + 1), of(most + 1, 0), of(0, most + 1)] {
        assert!(is_barred(&train));
    }
    assert!(is_barred(&of(u32::MAX, u32::MAX)));
    let cars: Vec<Place> = (1..=60).map(|number| held(number, 1, 200_000, 200_000)).collect();
    let mut full = made_by(&cars);
    assert_eq!(answers(&full, &[1, 60], &[61]), [None, None, Some(9)]);
    full = made_by(&[&cars[..59], &[held(60, 1, 200_001, 200_000)]].concat());
    assert_eq!(answers(&full, &[1, 60], &[61]), [Some(9); 3]);
    let heaviest: Vec<Place> = (1..=60).map(|number| held(number, 4, u32::MAX, u32::MAX)).collect();
    assert!(is_barred(&made_by(&heaviest)));
}

/// An entry may bring a total above the largest; from then on cars and strikes are answered 9.
#[test]
fn an_entry_beyond_the_largest_total() {
    let mut train = made_by(&[held(11, 2, 12_000_000, 12_000_000)]);
    operations::enter(&mut train, &tables(), &CAR).unwrap();
    assert_eq!(train.all, totals(2, 12_032_229, 12_032_003));
    assert!(is_barred(&train));
}

const CHANGES: [fn(&mut Totals); 9] = [
    |totals| totals.accepted += 1,
    |totals| totals.accepted -= 1,
    |totals| totals.gross += 1,
    |totals| totals.gross -= 1,
    |totals| totals.net += 1,
    |totals| totals.net -= 1,
    |totals| totals.accepted = u32::MAX,
    |totals| totals.gross = u64::MAX,
    |totals| totals.net = u64::MAX,
];

/// A part of the totals of all, of a grade, or of both so that the sums still agree.
#[test]
fn totals_that_the_held_cars_do_not_make() {
    for change in CHANGES {
        let mut train = sound();
        change(&mut train.all);
        assert!(is_barred(&train), "{:?}", train.all);
        for grade in 0..4 {
            let mut train = sound();
            change(&mut train.grades[grade]);
            assert!(is_barred(&train), "{:?}", train.grades);
            change(&mut train.all);
            assert!(is_barred(&train), "{:?} {:?}", train.all, train.grades);
        }
    }
    for (one, other) in [(0, 1), (1, 0), (2, 3), (3, 0)] {
        let mut train = sound();
        train.grades.swap(one, other);
        assert!(is_barred(&train), "grades {one} and {other} exchanged");
        let moves: [fn(&mut Totals, &mut Totals); 3] = [
            |from, to| (from.accepted, to.accepted) = (from.accepted - 1, to.accepted + 1),
            |from, to| (from.gross, to.gross) = (from.gross - 1, to.gross + 1),
            |from, to| (from.net, to.net) = (from.net - 1, to.net + 1),
        ];
        for change in moves {
            let mut train = sound();
            let [from, to] = train.grades.get_disjoint_mut([one, other]).unwrap();
            change(from, to);
            assert!(is_barred(&train), "moved from grade {one} to {other}");
        }
    }
}

/// One part of a held car changed under totals that stay.
#[test]
fn held_cars_that_do_not_make_the_totals() {
    let changes: [fn(&mut Place); 6] = [
        |place| place.gross += 1,
        |place| place.net -= 1,
        |place| place.gross = u32::MAX,
        |place| place.grade = place.grade % 4 + 1,
        |place| place.grade = 0,
        |place| place.grade += 4,
    ];
    for change in changes {
        for place in [0, 2, 3, 4, 6] {
            let mut train = sound();
            change(&mut train.places[place]);
            assert!(is_barred(&train), "{:?}", train.places[place]);
        }
    }
    for place in [1, 5] {
        let mut train = sound();
        train.places[place].grade = 1;
        assert!(is_barred(&train), "a refused car becomes an accepted one");
        // The masses of a refused car are not looked at.
        train.places[place] = Place { grade: 0, gross: u32::MAX, net: 77, ..train.places[place] };
        assert!(is_not_barred(&train));
    }
    assert!(is_barred(&Train { held: 6, ..sound() }) && is_barred(&Train { held: 8, ..sound() }));
    assert!(is_barred(&Train { all: Totals::default(), grades: Default::default(), ..sound() }));
    assert!(is_barred(&Train { held: 0, ..sound() }));
}

/// A held car of no grade counts in all and in none of the four, so that no totals fit; nor do those
/// that leave it out, or count it in a grade.
#[test]
fn a_held_car_of_no_grade() {
    for grade in [5, 6, 8, 256 + 1, 65_536 + 1, (1 << 31) + 1, u32::MAX] {
        for mass in [0, 10] {
            let cars = [held(11, 1, 5, 4), held(12, grade, mass, mass)];
            assert!(is_barred(&made_by(&cars)), "{grade}");
            let mut left_out = made_by(&cars);
            left_out.all = left_out.grades[0];
            assert!(is_barred(&left_out), "{grade}");
            for counted in 0..4 {
                let mut counts = made_by(&cars);
                counts.grades[counted].accepted += 1;
                counts.grades[counted].gross += u64::from(mass);
                counts.grades[counted].net += u64::from(mass);
                assert!(is_barred(&counts), "{grade}");
            }
        }
    }
}

/// Sums of grades that agree with the totals of all only in 32 or 64 bits.
#[test]
fn sums_are_not_cut() {
    let cars = [held(11, 1, 5, 4), held(12, 3, 50, 40)];
    for (more, rest) in [(1 << 63, 1 << 63), (u64::MAX, 1)] {
        let mut train = made_by(&cars);
        train.grades[1] = totals(0, more, more);
        train.grades[3] = totals(0, rest, rest);
        assert!(is_barred(&train));
    }
    for (more, rest) in [(1 << 31, 1 << 31), (u32::MAX, 1)] {
        let mut train = made_by(&cars);
        train.grades[1].accepted = more;
        train.grades[3].accepted = rest;
        assert!(is_barred(&train));
    }
    // 2³² kg and the largest total that a grade can hold.
    let mut train = made_by(&cars);
    train.all.gross += 1 << 32;
    train.grades[0].gross += 1 << 32;
    assert!(is_barred(&train));
    let most = totals(u32::MAX, u64::MAX, u64::MAX);
    assert!(is_barred(&Train { all: most, grades: [most; 4], held: usize::MAX, ..sound() }));
    assert!(is_barred(&Train { all: most, grades: [most; 4], ..sound() }));
    assert!(is_barred(&Train {
        places: [held(u32::MAX, u32::MAX, u32::MAX, u32::MAX); 60],
        ..sixty()
    }));
}

/// Numbers that no car can be entered with are held all the same, and are struck.
#[test]
fn numbers_out_of_range_that_are_held() {
    let cars = [held(0, 1, 5, 4), held(4_000_000_000, 0, 0, 0), held(u32::MAX, 2, 3, 2)];
    let train = made_by(&cars);
    assert_eq!(
        answers(&train, &[0, 4_000_000_000, u32::MAX, 100_000_000], &[9, 0, u32::MAX]),
        [None, None, None, Some(30), None, Some(10), Some(10)]
    );
}

/// 7 and 8 of the tables come before 9 for a car; a strike has no tables.
#[test]
fn bad_tables_come_before_a_train_that_is_barred() {
    let mut barred = sound();
    barred.all.net += 1;
    let mut of_type_0 = tables();
    of_type_0[0].car_type = 0;
    let mut falling = tables();
    falling[0].rows[3].capacity = 1;
    let before = barred.clone();
    assert_eq!(operations::enter(&mut barred, &of_type_0, &CAR), Err(Refusal::TableHead));
    assert_eq!(operations::enter(&mut barred, &falling, &CAR), Err(Refusal::TableRow));
    assert_eq!(operations::strike(&mut barred, 9), Err(Refusal::Count));
    assert_eq!(barred, before);
    assert_eq!(operations::strike(&mut sound(), 9), Err(Refusal::NotHeld));
    assert_eq!(Refusal::NotHeld.number(), 30);
}
