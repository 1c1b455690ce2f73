//! Parts of a probe's lines: floats, sets and a car's seven fields; tables, errors and trains as the other
//! files have them.

use super::{numbers, permitted, train, words, Written};
use crate::car::{Car, Figures};
use crate::operations::HandedIn;
use crate::permitted::Errors;
use crate::probe::{ProbeCar, Set, FIELDS};
use crate::sheet::Event;
use crate::train::Train;

/// The 32 bits of a float, and a decimal that tells it.
pub fn float_text(float: f32) -> String {
    let bits = float.to_bits();
    if float.is_nan() {
        format!("{bits:08x} nan")
    } else {
        format!("{bits:08x} {float:?}")
    }
}

/// The float of the bits.
pub fn read_float(text: &str) -> f32 {
    let (bits, _) = text.split_once(' ').expect("bits and a decimal");
    f32::from_bits(u32::from_str_radix(bits, 16).expect("bits in hexadecimal"))
}

/// Level, temperature and density.
pub fn set_text(set: &Set) -> String {
    [set.level, set.temperature, set.density].map(float_text).join(", ")
}

pub fn read_set(text: &str) -> Set {
    let floats: Vec<f32> = text.split(", ").map(read_float).collect();
    let [level, temperature, density] = floats[..] else { panic!("not three floats: {text}") };
    Set { level, temperature, density }
}

/// The seven fields of a probe's car, and its set.
pub fn car_text(car: &ProbeCar) -> String {
    let ProbeCar { number, car_type, grade, stick, water_level, water, impurities, set } = car;
    let fields = [number, car_type, grade, stick, water_level, water, impurities];
    format!("{} | {}", words(fields), set_text(set))
}

pub fn read_car<'a>(mut part: impl FnMut() -> &'a str) -> ProbeCar {
    let fields = numbers::<u32, FIELDS>(part());
    ProbeCar::new(fields, read_set(part()))
}

pub fn figures_text(figures: &Figures) -> String {
    let Figures { number, level, volume, volume_at_15, gross, net } = *figures;
    words([number, level, volume, volume_at_15, gross, net])
}

/// The tenths of an accepted car's set.
pub fn tenths_text(set: &Set) -> String {
    let tenths = set.tenths().expect("the tenths of an accepted car");
    words([tenths.level, tenths.temperature, tenths.density.0])
}

/// Tables as the permitted error has them.
pub fn tables_text(tables: &[HandedIn]) -> String {
    permitted_part(tables.to_vec(), Errors::default(), 0)
}

pub fn read_tables(text: &str) -> Vec<HandedIn> {
    read_permitted([text, &car_fields(), &errors_text(&Errors::default())]).tables
}

/// The six given errors as the permitted error has them.
pub fn errors_text(errors: &Errors) -> String {
    permitted_part(Vec::new(), *errors, 2)
}

pub fn read_errors(text: &str) -> Errors {
    read_permitted(["", &car_fields(), text]).errors
}

/// A part of a question about the permitted error: tables, car or errors.
fn permitted_part(tables: Vec<HandedIn>, errors: Errors, part: usize) -> String {
    let vector = permitted::Vector { name: String::new(), tables, car: Car::default(), errors };
    vector.question().split(" | ").nth(part).expect("tables, car and errors").to_string()
}

fn read_permitted(parts: [&str; 3]) -> permitted::Vector {
    let mut parts = [""].into_iter().chain(parts);
    permitted::Vector::read(|| parts.next().expect("name, tables, car and errors"))
}

/// The fields of a car that is not looked at.
fn car_fields() -> String {
    permitted_part(Vec::new(), Errors::default(), 1)
}

/// A strike that is not looked at.
const STRIKE: &str = "K 0";

/// Held, all, grades and places of a train as the trains that are handed in have them.
pub fn train_text(train: &Train) -> String {
    let (name, train, asked) = (String::new(), train.clone(), Event::Strike(0));
    let question = train::Vector { name, train, asked }.question();
    let (train, _) = question.rsplit_once(" | ").expect("a train and what is asked");
    train.to_string()
}

pub fn read_train<'a>(mut part: impl FnMut() -> &'a str) -> Train {
    let parts = [part(), part(), part(), part(), STRIKE];
    let mut parts = [""].into_iter().chain(parts);
    train::Vector::read(|| parts.next().expect("name, train and what is asked")).train
}
