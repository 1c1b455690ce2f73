//! A train that is handed in with a car or a strike, as the reference and its rewritten copy answer it.

use reference::car::{Car, Figures, FIELDS, GRADES};
use reference::conformance::vectors::train::{table, Vector};
use reference::refusal::Refusal;
use reference::sheet::Event;
use reference::train::{Place, Totals, Train, CARS};

use crate::draw::Draw;
use crate::tables;
use crate::turned;

/// The numbers that a caller sees of a train: its totals, how many cars it holds, and its places.
macro_rules! numbers {
    ($train:expr) => {{
        let totals = std::iter::once($train.all).chain($train.grades);
        let totals = totals.flat_map(|of| [of.accepted.into(), of.gross, of.net]);
        let places = $train.places.iter();
        let places = places.flat_map(|car| [car.number, car.grade, car.gross, car.net]);
        totals.chain([$train.held as u64]).chain(places.map(u64::from))
    }};
}

/// The numbers that a caller sees of an answer: 0 and the figures of a car, or the refusal.
macro_rules! answered {
    ($answer:expr) => {
        match $answer {
            Ok(Some(of)) => [0, of.number, of.level, of.volume, of.volume_at_15, of.gross, of.net],
            Ok(None) => [0; 7],
            Err(refusal) => [refusal.number(), 0, 0, 0, 0, 0, 0],
        }
    };
}

pub fn right(vector: &Vector) -> Vec<u8> {
    let (answer, train) = vector.work_out();
    bytes(answered!(answer), numbers!(train))
}

pub fn turned(vector: &Vector) -> Vec<u8> {
    let mut train = copy(&vector.train);
    let answer = match vector.asked {
        Event::Enter(car) => enter(&mut train, car).map(Some),
        Event::Strike(number) => train.strike(number).map(|()| None),
    };
    bytes(answered!(answer), numbers!(train))
}

/// What is seen where a car was entered.
pub fn shown((answer, train): (Result<Figures, Refusal>, Train)) -> Vec<u8> {
    bytes(answered!(answer.map(Some)), numbers!(train))
}

/// The same of the rewritten copy, which enters a car in the train that is handed in.
pub fn shown_turned(
    handed_in: &Train,
    enter: impl FnOnce(&mut turned::train::Train) -> Entered,
) -> Vec<u8> {
    let mut train = copy(handed_in);
    let answer = enter(&mut train);
    bytes(answered!(answer.map(Some)), numbers!(train))
}

fn bytes(answer: [u32; 7], train: impl Iterator<Item = u64>) -> Vec<u8> {
    answer.map(u64::from).into_iter().chain(train).flat_map(u64::to_ne_bytes).collect()
}

/// What the rewritten copy answers where a car is entered.
type Entered = Result<turned::car::Figures, turned::refusal::Refusal>;

fn enter(train: &mut turned::train::Train, car: Car) -> Entered {
    let tables = tables::turned(&[table()])?;
    train.enter(&turned::car::Car::from(<[u32; FIELDS]>::from(car)), &tables)
}

fn copy(train: &Train) -> turned::train::Train {
    let totals =
        |&Totals { accepted, gross, net }: &Totals| turned::train::Totals { accepted, gross, net };
    let place = |&Place { number, grade, gross, net }: &Place| turned::train::Place {
        number,
        grade,
        gross,
        net,
    };
    turned::train::Train {
        all: totals(&train.all),
        grades: train.grades.each_ref().map(totals),
        held: train.held,
        places: train.places.each_ref().map(place),
    }
}

/// The first car of the paper's sheet, which the table takes.
const CAR: [u32; FIELDS] = [50_000_001, 1, 3, 1, 2, 1500, 1500, 0, 0, 0, 600, 9500, 50, 20];

/// Trains by lot with a car or a strike.
pub fn drawn(count: u64) -> impl Iterator<Item = Vector> {
    (0..count).map(|seed| {
        let mut draw = Draw::new(seed);
        let train = draw_handed_in(&mut draw);
        let place = match draw.between(0, 2) {
            0 => draw.between(1, CARS as u32),
            _ => draw.between(1, train.held.clamp(1, CARS) as u32),
        };
        let number = match draw.between(0, 4) {
            0 => draw.between(0, 200),
            _ => train.places[place as usize - 1].number,
        };
        let asked = match draw.between(0, 2) {
            0 => Event::Enter(draw_car(&mut draw, number)),
            _ => Event::Strike(number),
        };
        Vector { name: format!("train by lot {seed}"), train, asked }
    })
}

/// A train by lot, in half of them with one number of the totals changed.
pub fn draw_handed_in(draw: &mut Draw) -> Train {
    let mut train = draw_train(draw);
    if draw.between(0, 1) == 0 {
        spoil(draw, &mut train);
    }
    train
}

/// A train that its held cars make, mostly of few cars, with something in its free places; one in three has
/// a held car like no other.
fn draw_train(draw: &mut Draw) -> Train {
    let held = [draw.between(0, 6), draw.between(0, 60), draw.between(58, 60)];
    let held = held[draw.between(0, 2) as usize] as usize;
    let mut train = Train { held, ..Train::default() };
    let heaviest = [0, 90, 200_000][draw.between(0, 2) as usize];
    let least = draw.between(0, 1);
    for (at, place) in (0..).zip(&mut train.places) {
        let (number, grade) = (3 * at + draw.between(0, 2), draw.between(least, GRADES as u32));
        let (gross, net) = (draw.between(0, heaviest), draw.between(0, heaviest));
        *place = Place { number, grade, gross, net };
    }
    if draw.between(0, 2) == 0 {
        train.places[held..].fill(Place::default());
    }
    if draw.between(0, 2) == 0 {
        make_odd(draw, &mut train);
    }
    add_up(&mut train);
    train
}

/// Gives a held car another's number, whole or in some bits, a grade that there is not or large masses.
fn make_odd(draw: &mut Draw, train: &mut Train) {
    let places = train.places;
    let odd = &mut train.places[draw.between(0, train.held.max(1) as u32 - 1) as usize];
    match draw.between(0, 4) {
        0 => odd.number = places[draw.between(0, 59) as usize].number,
        1 => {
            let other = places[draw.between(0, 59) as usize].number;
            odd.number = other + (1 << [16, 24, 31][draw.between(0, 2) as usize]);
        }
        2 => odd.grade = [5, 8, 257, u32::MAX][draw.between(0, 3) as usize],
        3 => odd.gross = 12_000_000 - draw.between(0, 90),
        _ => odd.net = u32::MAX - draw.between(0, 90),
    }
}

/// Makes totals of the held cars; one of a grade that there is not counts in all.
fn add_up(train: &mut Train) {
    for car in train.places[..train.held].iter().filter(|car| car.grade > 0) {
        let of_grade = train.grades.get_mut(car.grade as usize - 1);
        for totals in std::iter::once(&mut train.all).chain(of_grade) {
            totals.accepted += 1;
            totals.gross += u64::from(car.gross);
            totals.net += u64::from(car.net);
        }
    }
}

/// Changes how many cars a train holds, or one number of its totals.
fn spoil(draw: &mut Draw, train: &mut Train) {
    let by = 1 << [0, 8, 16, 31][draw.between(0, 3) as usize];
    let wide = 1 << [0, 16, 24, 32, 63][draw.between(0, 4) as usize];
    let totals = match draw.between(0, 5) {
        0 => {
            train.held += [1, 60, 256][draw.between(0, 2) as usize];
            return;
        }
        1 => &mut train.all,
        place => &mut train.grades[place as usize - 2],
    };
    match draw.between(0, 2) {
        0 => totals.accepted = totals.accepted.wrapping_add(by),
        1 => totals.gross = totals.gross.wrapping_add(wide),
        _ => totals.net = totals.net.wrapping_sub(wide),
    }
}

/// The car of the paper's sheet with a number, at times of another grade or refused.
fn draw_car(draw: &mut Draw, number: u32) -> Car {
    let car = Car::from(CAR);
    let number = if draw.between(0, 1) == 0 { number } else { car.number };
    match draw.between(0, 3) {
        0 => Car { number, grade: draw.between(0, 5), ..car },
        1 => Car { number, car_type: 2, ..car },
        _ => Car { number, ..car },
    }
}
