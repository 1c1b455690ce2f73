//! Trains that 9 turns away, and such as only look so: sound ones with one number or two of their slice
//! changed, each part of 9 and each two, numbers twice in every two places, totals at and above the limit,
//! and totals that fit only where 32 or 64 bits overflow.

use outside::train::{state_of, train_of};
use outside::TRAIN;
use reference::car::GRADES;
use reference::train::{Place, Totals, Train, CARS};

use super::sound::{cars, made, remake, trains, MOST_KG};

/// A train's totals of cars, gross and net, of all and of each grade.
pub const TOTALS: usize = 3 * (1 + GRADES);

/// Cars, gross or net of some totals, by its place among the three.
fn part(totals: &Totals, place: usize) -> u64 {
    [totals.accepted.into(), totals.gross, totals.net][place]
}

fn set_part(totals: &mut Totals, place: usize, number: u64) {
    match place {
        0 => totals.accepted = number as u32,
        1 => totals.gross = number,
        _ => totals.net = number,
    }
}

/// Adds to one of a train's totals, around the ends of its word.
pub fn shift(train: &mut Train, place: usize, by: i64) {
    let totals = match place / 3 {
        0 => &mut train.all,
        grade => &mut train.grades[grade - 1],
    };
    let number = part(totals, place % 3).wrapping_add(by as u64);
    set_part(totals, place % 3, number);
}

/// Each number of the slice off by one, and at the end of its word.
pub fn each_number_off() -> Vec<Train> {
    let mut off = Vec::new();
    for state in trains().iter().map(state_of) {
        for place in 0..TRAIN {
            let number = state[place];
            for other in [number.wrapping_add(1), number.wrapping_sub(1), u32::MAX] {
                let mut state = state;
                state[place] = other;
                off.push(train_of(&state));
            }
        }
    }
    off
}

/// Each total off, and each two totals off by one in either direction, of which some add up again.
pub fn each_two_totals_off() -> Vec<Train> {
    let mut off = Vec::new();
    for train in trains() {
        for first in 0..TOTALS {
            for by in [1 << 31, 1 << 32, i64::MIN] {
                let mut other = train.clone();
                shift(&mut other, first, by);
                off.push(other);
            }
            for second in 0..first {
                for (by, and) in [(1, 1), (1, -1), (-1, 1), (-1, -1)] {
                    let mut other = train.clone();
                    shift(&mut other, first, by);
                    shift(&mut other, second, and);
                    off.push(other);
                }
            }
        }
    }
    off
}

/// What makes a train unsound, where it holds a car. The last four give it the totals of its cars anew.
const FAULTS: [fn(&mut Train); 24] = [
    // how many it holds
    |train| train.held = CARS + 1,
    |train| train.held = u32::MAX as usize,
    |train| train.held += 1,
    |train| train.held = train.held.saturating_sub(1),
    // a number twice
    |train| train.places[1].number = train.places[0].number,
    |train| train.places[train.held.clamp(1, CARS) - 1].number = train.places[0].number,
    // more than sixty accepted, and a total above 12,000,000 kg, that the held cars do not make
    |train| (train.all.accepted, train.grades[0].accepted) = (61, 61),
    |train| train.grades[0].accepted = 61,
    |train| train.all.gross = u64::from(MOST_KG) + 1,
    |train| train.all.net = u64::from(MOST_KG) + 1,
    // totals that add up and are not those of the held cars
    |train| [0, 9].into_iter().for_each(|place| shift(train, place, 1)),
    |train| [1, 10].into_iter().for_each(|place| shift(train, place, 1)),
    |train| [2, 11].into_iter().for_each(|place| shift(train, place, -1)),
    |train| [(4, 1), (13, -1)].into_iter().for_each(|(place, by)| shift(train, place, by)),
    // totals that stand for others
    |train| train.grades.rotate_left(1),
    |train| std::mem::swap(&mut train.all.gross, &mut train.all.net),
    // held cars that do not make the totals
    |train| train.places[0].gross ^= 1,
    |train| train.places[0].net ^= 1,
    |train| train.places[0].grade = train.places[0].grade % 4 + 1,
    |train| train.places[0].grade ^= 4,
    // a total above 12,000,000 kg that the held cars make
    |train| raise(train, MOST_KG + 1, 0),
    |train| raise(train, 0, MOST_KG + 1),
    // a grade that there is not, of which the totals of all tell
    |train| in_no_grade(train, 5),
    |train| in_no_grade(train, u32::MAX),
];

/// Brings the masses of the first car up to so much, and the totals with it.
fn raise(train: &mut Train, gross: u32, net: u32) {
    let car = &mut train.places[0];
    (car.gross, car.net) = (car.gross.max(gross), car.net.max(net));
    remake(train);
}

/// Gives the first car such a grade, and the train the totals of it.
fn in_no_grade(train: &mut Train, grade: u32) {
    train.places[0].grade = grade;
    remake(train);
}

/// Each fault by itself and each two.
pub fn each_two_faults() -> Vec<Train> {
    let mut faulty = Vec::new();
    for train in trains() {
        for (place, fault) in FAULTS.iter().enumerate() {
            let mut one = train.clone();
            fault(&mut one);
            for other in &FAULTS[..place] {
                let mut two = one.clone();
                other(&mut two);
                faulty.push(two);
            }
            faulty.push(one);
        }
    }
    faulty
}

/// Every number of cars held, of all that there are places for and more: with the totals of as many, and
/// with those of the train as it was.
pub fn every_number_held() -> Vec<Train> {
    let mut held = Vec::new();
    for train in trains() {
        for count in (0..=CARS + 2).chain([u32::MAX as usize]) {
            let mut other = Train { held: count, ..train.clone() };
            held.push(other.clone());
            remake(&mut other);
            held.push(other);
        }
    }
    held
}

/// A number in every two places of a full train, of which the second is the last that is held, or the
/// first behind those held.
pub fn twice_in_every_two_places() -> Vec<Train> {
    let mut twice = Vec::new();
    let sixty = cars(CARS);
    for second in 1..CARS {
        for first in 0..second {
            let mut cars = sixty.clone();
            cars[second].number = cars[first].number;
            twice.push(made(&cars[..=second]));
            let mut once = made(&cars[..second]);
            once.places[second] = cars[second];
            twice.push(once);
        }
    }
    twice
}

/// Masses of which some come to exactly the limit, some above it, and some above 32 bits.
fn loads() -> Vec<Vec<u32>> {
    let half = 1 << 31;
    vec![
        vec![MOST_KG - 1],
        vec![MOST_KG],
        vec![MOST_KG + 1],
        vec![MOST_KG, 0],
        vec![MOST_KG, 1],
        vec![MOST_KG / 2, MOST_KG / 2],
        vec![MOST_KG / 2, MOST_KG / 2 + 1],
        vec![MOST_KG / 60; 60],
        [vec![MOST_KG / 60; 59], vec![MOST_KG / 60 + 1]].concat(),
        vec![MOST_KG / 59; 59],
        vec![half, half],
        vec![half, half, MOST_KG],
        vec![half, half, MOST_KG + 1],
        vec![u32::MAX, 1],
        vec![u32::MAX; 2],
        vec![u32::MAX; 60],
    ]
}

/// Cars of these masses as gross, as net or as both, of one grade or of all in turn.
fn loaded(masses: &[u32], (as_gross, as_net): (bool, bool), grades: usize) -> Vec<Place> {
    let car = |(place, &mass): (usize, &u32)| {
        let (gross, net) = (if as_gross { mass } else { 3 }, if as_net { mass } else { 2 });
        Place { number: 1 + place as u32, grade: 1 + (place % grades) as u32, gross, net }
    };
    masses.iter().enumerate().map(car).collect()
}

/// Totals at the limit, above it, and above 32 bits, whole and by their low 32 bits.
pub fn totals_at_limits() -> Vec<Train> {
    let mut trains = Vec::new();
    for masses in loads() {
        for way in [(true, false), (false, true), (true, true)] {
            for train in [1, GRADES].map(|grades| made(&loaded(&masses, way, grades))) {
                let mut cut = train.clone();
                for totals in cut.grades.iter_mut().chain([&mut cut.all]) {
                    let Totals { gross, net, .. } = totals;
                    (*gross, *net) = (*gross & 0xffff_ffff, *net & 0xffff_ffff);
                }
                trains.extend([train, cut]);
            }
        }
    }
    trains
}

/// Four numbers that add up to a small total only where their sum overflows, once, twice or three
/// times, `most` being the largest number.
fn overflow(total: u64, most: u64) -> [[u64; GRADES]; 4] {
    let half = most / 2 + 1;
    [
        [half, half, total, 0],
        [most, 0, total, 1],
        [half, half, half, half + total],
        [most, most, total + 3, most],
    ]
}

/// The cars, the gross or the net of the grades replaced by numbers that add up to those of all only where
/// 32 or 64 bits overflow, and the grades' own with half of such an overflow on each two.
pub fn grades_that_overflow() -> Vec<Train> {
    let (bits_32, bits_64) = (u32::MAX.into(), u64::MAX);
    let mut trains = Vec::new();
    for train in super::sound::trains() {
        for (place, most) in [(0, bits_32), (1, bits_32), (2, bits_32), (1, bits_64), (2, bits_64)]
        {
            for mut numbers in overflow(part(&train.all, place), most) {
                for _ in 0..GRADES {
                    numbers.rotate_left(1);
                    let mut other = train.clone();
                    for (totals, number) in other.grades.iter_mut().zip(numbers) {
                        set_part(totals, place, number);
                    }
                    trains.push(other);
                }
            }
            for grade in 0..GRADES {
                let mut other = train.clone();
                for grade in [grade, (grade + 1) % GRADES] {
                    shift(&mut other, 3 * (1 + grade) + place, (most / 2 + 1) as i64);
                }
                trains.push(other);
            }
        }
    }
    trains
}
