//! The portable probe as a caller of the library meets it: figures worked out by hand, what each refusal
//! leaves untouched, and lengths that are wrong, which come before 31 and 32.

use outside::slices::Slices;
use outside::train::{state_of, train_of};
use outside::{
    BAD_LENGTH, ERRORS, FIELDS, FIGURES, PERMITTED, PROBE_FIELDS, SET, TRAIN, TRAIN_HELD,
    TRAIN_NUMBERS,
};
use reference::operations::HandedIn;
use reference::probe::Set;
use reference::table::Row;
use reference::train::{Totals, Train};

/// What a place holds before it is lent: no figure.
const LENT: u32 = 0xa5a5_a5a5;

/// Lengths that are asked for: a car's numbers, tenths, figures, those with the permitted error, a train.
const LENGTHS: [usize; 5] = [PROBE_FIELDS, SET, FIGURES, PERMITTED, TRAIN];

/// The rules' own car, dipped and as a probe measures it.
const DIPPED: [u32; FIELDS] = [50_000_001, 1, 3, 1, 2, 1_500, 1_500, 0, 0, 0, 600, 9_500, 50, 20];
const CAR: [u32; PROBE_FIELDS] = [50_000_001, 1, 3, 1, 0, 50, 20];
const MEASURED: Set = Set { level: 1_500.0, temperature: 60.0, density: 950.0 };

/// Sets that 31 turns away, at each float, and such as 32 does.
const TURNED_AWAY: [(u32, Set); 6] = [
    (31, Set { level: -0.01, ..MEASURED }),
    (32, Set { level: 10_000_000.0, temperature: f32::NAN, density: -1.0 }),
    (31, Set { temperature: f32::INFINITY, density: f32::MAX, ..MEASURED }),
    (32, Set { temperature: f32::MAX, density: f32::NAN, ..MEASURED }),
    (31, Set { density: f32::NAN, ..MEASURED }),
    (32, Set { density: 10_000_000.0, ..MEASURED }),
];

/// The rules' own table.
fn tables() -> Slices {
    let rows = [(0, 0), (1_000, 20_000), (2_000, 50_000), (3_000, 70_000)];
    let rows = rows.map(|(level, capacity)| Row { level, capacity }).to_vec();
    Slices::new(&[HandedIn { car_type: 1, announced: 4, rows }])
}

fn at(level: f32) -> Set {
    Set { level, ..MEASURED }
}

fn empty() -> [u32; TRAIN] {
    state_of(&Train::default())
}

/// What the set by itself, the car alone, its permitted error and its entry in a train hand back with slices of
/// these lengths; all that is lent is held to stay as it was.
fn refused(set: Set, lengths: [usize; 5]) -> [u32; 4] {
    let [car, tenths, figures, permitted, train] = lengths;
    let (tables, car, errors) = (tables(), vec![1; car], [0; ERRORS]);
    let [mut tenths, mut figures, mut permitted] =
        [tenths, figures, permitted].map(|length| vec![LENT; length]);
    let (mut state, before) = (vec![0; train], vec![0; train]);
    let numbers = [
        outside::set_tenths(set, &mut tenths),
        outside::work_out_probe(tables.lent(), &car, set, &mut figures),
        outside::permitted_error_probe(tables.lent(), &car, set, &errors, &mut permitted),
        outside::train_enter_probe(&mut state, tables.lent(), &car, set, &mut figures),
    ];
    assert!([tenths, figures, permitted].concat().iter().all(|&place| place == LENT));
    assert_eq!(state, before);
    numbers
}

#[test]
fn readings() {
    for (reading, expected) in [
        (0.0, 0),
        (-0.0, 0),
        (1e-45, 0),
        (0.05, 1),
        (0.25, 3),
        (0.35, 3),
        (0.75, 8),
        (60.15, 602),
        (950.15, 9_502),
        (1_500.05, 15_001),
        (9_999_999.0, 99_999_990),
    ] {
        let mut tenths = LENT;
        assert_eq!(outside::reading_tenths(reading, &mut tenths), 0, "{reading}");
        assert_eq!(tenths, expected, "{reading}");
    }
    let no_numbers = [-1e-45, -1_500.0, f32::INFINITY, f32::NEG_INFINITY].map(|float| (float, 31));
    let nan =
        [0x7f80_0001, 0x7fc0_0000, 0xff80_0001, u32::MAX].map(|bits| (f32::from_bits(bits), 31));
    let large = [10_000_000.0, 429_496_736.0, f32::MAX].map(|float| (float, 32));
    for (reading, refusal) in [&no_numbers[..], &nan, &large].concat() {
        let mut tenths = LENT;
        assert_eq!(outside::reading_tenths(reading, &mut tenths), refusal, "{reading}");
        assert_eq!(tenths, LENT, "{reading}");
    }
}

#[test]
fn a_set_and_its_car() {
    let set = Set { level: 1_500.35, temperature: 60.15, density: 950.15 };
    let mut tenths = [LENT; SET];
    assert_eq!((outside::set_tenths(set, &mut tenths), tenths), (0, [15_003, 602, 9_502]));

    let mut aluminium = CAR;
    aluminium[3] = 2;
    for (car, set, expected) in [
        (CAR, MEASURED, [50_000_001, 15_000, 3_500_000, 3_392_515, 32_229, 32_003]),
        (CAR, at(1_500.4), [50_000_001, 15_004, 3_501_200, 3_393_678, 32_240, 32_014]),
        (CAR, at(0.1), [50_000_001, 1, 200, 193, 2, 2]),
        (aluminium, set, [50_000_001, 15_003, 3_500_900, 3_394_369, 32_253, 32_027]),
    ] {
        let mut figures = [LENT; FIGURES];
        assert_eq!(outside::work_out_probe(tables().lent(), &car, set, &mut figures), 0);
        assert_eq!(figures, expected);
    }
}

#[test]
fn the_permitted_error() {
    for (level, gross, limit) in
        [(1_500.0, 32_229, 6_511), (1_000.05, 18_417, 6_729), (1_000.06, 18_419, 7_674)]
    {
        let (errors, mut figures) = ([5_000, 1_600, 500, 5, 5, 30], [LENT; PERMITTED]);
        let set = at(level);
        let number =
            outside::permitted_error_probe(tables().lent(), &CAR, set, &errors, &mut figures);
        assert_eq!((number, figures[4], figures[6], figures[7]), (0, gross, limit, 0), "{level}");
    }
}

/// A dipped car and a probe's in one train, one that 16 turns away and is held, and such as 31 and 32 turn
/// away and are not.
#[test]
fn a_train_of_both() {
    let (mut train, mut figures, tables) = (empty(), [0; FIGURES], tables());
    assert_eq!(outside::train_enter(&mut train, tables.lent(), &DIPPED, &mut figures), 0);
    let mut enter = |number: u32, set: Set| {
        let (car, before) = ([number, 1, 3, 1, 0, 50, 20], train);
        let number = outside::train_enter_probe(&mut train, tables.lent(), &car, set, &mut figures);
        (number, train == before)
    };
    for (refusal, set) in TURNED_AWAY {
        assert_eq!(enter(2, set), (refusal, true), "{set:?}");
    }
    assert_eq!(enter(50_000_001, MEASURED), (11, true));
    assert_eq!(enter(2, at(3_000.05)), (16, false));
    assert_eq!(enter(3, at(1_500.4)), (0, false));
    assert_eq!([train[TRAIN_HELD], train[TRAIN_NUMBERS + 1], train[TRAIN_NUMBERS + 2]], [3, 2, 3]);
    let all = Totals { accepted: 2, gross: 32_229 + 32_240, net: 32_003 + 32_014 };
    assert_eq!([train_of(&train).all, train_of(&train).grades[2]], [all; 2]);
    assert_eq!(outside::train_strike(&mut train, 3), 0);
    assert_eq!(train_of(&train).all, Totals { accepted: 1, gross: 32_229, net: 32_003 });
}

#[test]
fn a_set_that_is_turned_away_leaves_all_as_it_was() {
    for (refusal, set) in TURNED_AWAY {
        assert_eq!(refused(set, LENGTHS), [refusal; 4]);
    }
}

/// One length at a time, with sets that are turned away: an operation that is handed it says so, and the
/// others tell of the set.
#[test]
fn lengths_come_first() {
    let handed: [&[usize]; 4] = [&[1], &[0, 2], &[0, 3], &[0, 2, 4]];
    for (refusal, set) in TURNED_AWAY {
        for (place, right) in LENGTHS.into_iter().enumerate() {
            for wrong in [0, right - 1, right + 1, FIELDS] {
                let mut lengths = LENGTHS;
                lengths[place] = wrong;
                let expected =
                    handed.map(|places| if places.contains(&place) { BAD_LENGTH } else { refusal });
                assert_eq!(refused(set, lengths), expected, "{lengths:?}");
            }
        }
    }
}
