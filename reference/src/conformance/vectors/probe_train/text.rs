//! The line of a vector: train, tables, fields and set, the answer and the train handed back.

use super::super::probe_parts::{
    car_text, figures_text, read_car, read_tables, read_train, tables_text, train_text,
};
use super::super::{Group, Written};
use super::Vector;

/// What stands before the vectors.
const HEAD: &str = "\
# A probe's car, and the train that is handed in with it: document 02, requests (a), (h) and (i).
# Made by make_conformance.
#
# A case is one line. Its parts stand between bars:
#   name
#   held     how many cars the train holds, a number of 32 bits
#   all      accepted cars, gross and net of the whole train; a number of 32 bits, two of 64
#   grades   the same for each of grades 1 to 4, between commas
#   places   the train's sixty places, counted from 1, of which the first `held` are its cars:
#            place: number grade gross net, each a number of 32 bits; grade 0 is a refused car.
#            They stand between commas, those of four zeros are left out; a dash where none is left
#   tables   type: level capacity, level capacity, ...; the next table behind a semicolon (mm, dm³)
#   fields   number, type, grade, stick, water level (mm), water, impurities (0.01 %), each a number
#            of 32 bits
#   set      level (mm), temperature (°C), density at 15 °C (kg/m³), between commas, each a float: its
#            32 bits in hexadecimal, which decide, then a decimal that tells it
# and behind them:
#   answer   A and the six figures of an accepted car; or the refusal
#   train    the train that is handed back: unchanged, or held, all, grades and places as above
# A car that is entered takes the first free place whole, a refused one with its number and three zeros.
# 31, 32 and 7 to 11 leave the train as it is.
# Lines that begin with # and empty lines are no cases.
";

impl Written for Vector {
    const FILE: &'static str = "probe-train.vectors";
    const HEAD: &'static str = HEAD;
    const ANSWERS: &'static str = include_str!("answers.txt");

    fn groups() -> Vec<Group<Self>> {
        super::groups()
    }

    fn name(&self) -> &str {
        &self.name
    }

    fn question(&self) -> String {
        let (train, tables) = (train_text(&self.train), tables_text(&self.tables));
        format!("{train} | {tables} | {}", car_text(&self.car))
    }

    fn answer(&self) -> String {
        let (answer, train) = self.work_out();
        let answer = match answer {
            Ok(figures) => format!("A {}", figures_text(&figures)),
            Err(refusal) => refusal.number().to_string(),
        };
        let unchanged = train == self.train;
        let train = if unchanged { "unchanged".to_string() } else { train_text(&train) };
        format!("{answer} | {train}")
    }

    fn read<'a>(mut part: impl FnMut() -> &'a str) -> Self {
        let name = part().to_string();
        let train = read_train(&mut part);
        let tables = read_tables(part());
        Self { name, train, tables, car: read_car(part) }
    }
}
