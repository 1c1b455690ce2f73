//! The line of a vector: the train, what is asked of it, the answer and the train handed back.

use super::super::{numbers, words, Group, Written};
use super::Vector;
use crate::car::{Car, Figures, FIELDS};
use crate::sheet::Event;
use crate::train::{Place, Totals, Train};

/// What stands before the vectors.
const HEAD: &str = "\
# A strike, or a car, and the train that is handed in with it: document 02, requests (a) and (h).
# Made by make_conformance.
#
# A case is one line. Its parts stand between bars:
#   name
#   held     how many cars the train holds, a number of 32 bits
#   all      accepted cars, gross and net of the whole train; a number of 32 bits, two of 64
#   grades   the same for each of grades 1 to 4, between commas
#   places   the train's sixty places, counted from 1, of which the first `held` are its cars:
#            place: number grade gross net, each a number of 32 bits; grade 0 is a refused car.
#            They stand between commas, those of four zeros are left out; a dash where none is left
#   asked    K and the number that is struck; or C and the fourteen fields of a car, whose table is
#            that of the sheet in document 01: 1: 0 0, 1000 20000, 2000 50000, 3000 70000
# and behind them:
#   answer   K where the car is struck; A and the six figures of an accepted car; or the refusal
#   train    the train that is handed back: unchanged, or held, all, grades and places as above
# A strike closes its gap: all places behind it move up by one, free ones too, and place 60 becomes
# four zeros. A car that is entered takes the first free place whole.
# Lines that begin with # and empty lines are no cases.
";

impl Written for Vector {
    const FILE: &'static str = "train-strike.vectors";
    const HEAD: &'static str = HEAD;
    const ANSWERS: &'static str = include_str!("answers.txt");

    fn groups() -> Vec<Group<Self>> {
        super::groups()
    }

    fn name(&self) -> &str {
        &self.name
    }

    fn question(&self) -> String {
        let asked = match self.asked {
            Event::Strike(number) => format!("K {number}"),
            Event::Enter(car) => format!("C {}", words(<[u32; FIELDS]>::from(car))),
        };
        format!("{} | {asked}", train_text(&self.train))
    }

    fn answer(&self) -> String {
        let (answer, train) = self.work_out();
        let answer = match answer {
            Ok(Some(figures)) => format!("A {}", figures_text(&figures)),
            Ok(None) => "K".to_string(),
            Err(refusal) => refusal.number().to_string(),
        };
        let unchanged = train == self.train;
        let train = if unchanged { "unchanged".to_string() } else { train_text(&train) };
        format!("{answer} | {train}")
    }

    fn read<'a>(mut part: impl FnMut() -> &'a str) -> Self {
        Self { name: part().to_string(), train: read_train(&mut part), asked: read_asked(part()) }
    }
}

fn figures_text(figures: &Figures) -> String {
    let Figures { number, level, volume, volume_at_15, gross, net } = *figures;
    words([number, level, volume, volume_at_15, gross, net])
}

fn train_text(train: &Train) -> String {
    let totals = |totals: Totals| words([totals.accepted.into(), totals.gross, totals.net]);
    let grades = train.grades.map(totals).join(", ");
    let places: Vec<String> = (1..)
        .zip(train.places)
        .filter(|(_, place)| *place != Place::default())
        .map(|(at, Place { number, grade, gross, net })| {
            format!("{at}: {}", words([number, grade, gross, net]))
        })
        .collect();
    let places = if places.is_empty() { "-".to_string() } else { places.join(", ") };
    format!("{} | {} | {grades} | {places}", train.held, totals(train.all))
}

fn read_totals(text: &str) -> Totals {
    let [accepted, gross, net]: [u64; 3] = numbers(text);
    Totals { accepted: accepted.try_into().expect("a number of 32 bits"), gross, net }
}

fn read_train<'a>(mut part: impl FnMut() -> &'a str) -> Train {
    let [held] = numbers(part());
    let all = read_totals(part());
    let mut train = Train { held, all, ..Train::default() };
    let grades = part().split(", ").map(read_totals);
    train.grades.iter_mut().zip(grades).for_each(|(totals, read)| *totals = read);
    for place in part().split(", ").filter(|text| *text != "-") {
        let (at, car) = place.split_once(": ").expect("a place and its car");
        let [at]: [usize; 1] = numbers(at);
        let [number, grade, gross, net] = numbers(car);
        train.places[at - 1] = Place { number, grade, gross, net };
    }
    train
}

fn read_asked(text: &str) -> Event {
    match text.split_once(' ').expect("a letter and numbers") {
        ("K", number) => {
            let [number] = numbers(number);
            Event::Strike(number)
        }
        (_, fields) => Event::Enter(Car::from(numbers::<u32, FIELDS>(fields))),
    }
}
