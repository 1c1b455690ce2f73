//! The line of a vector: tables, fields and set, tenths on the way, figures.

use super::super::probe_parts::{
    car_text, figures_text, read_car, read_tables, tables_text, tenths_text,
};
use super::super::{Group, Written};
use super::Vector;

/// What stands before the vectors.
const HEAD: &str = "\
# A probe's car worked out alone: document 02, requests (g) and (i). Made by make_conformance.
#
# A case is one line. Its parts stand between bars:
#   name
#   tables   type: level capacity, level capacity, ...; the next table behind a semicolon (mm, dm³)
#   fields   number, type, grade, stick, water level (mm), water, impurities (0.01 %), each a number
#            of 32 bits
#   set      level (mm), temperature (°C), density at 15 °C (kg/m³), between commas, each a float: its
#            32 bits in hexadecimal, which decide, then a decimal that tells it
# and behind them, for a car that is turned away, the number of its refusal alone; for any other:
#   tenths   level, temperature and density in tenths
#   figures  those of an A line: number, level, V0, V15, gross, net (0.1 mm, 0.01 dm³, kg)
# Tenths are shown to find a fault by; what must come out are the figures, or the refusal.
# Lines that begin with # and empty lines are no cases.
";

impl Written for Vector {
    const FILE: &'static str = "probe-car.vectors";
    const HEAD: &'static str = HEAD;
    const ANSWERS: &'static str = include_str!("answers.txt");

    fn groups() -> Vec<Group<Self>> {
        super::groups()
    }

    fn name(&self) -> &str {
        &self.name
    }

    fn question(&self) -> String {
        format!("{} | {}", tables_text(&self.tables), car_text(&self.car))
    }

    fn answer(&self) -> String {
        match self.work_out() {
            Ok(figures) => {
                format!("{} | {}", tenths_text(&self.car.set), figures_text(&figures))
            }
            Err(refusal) => refusal.number().to_string(),
        }
    }

    fn read<'a>(mut part: impl FnMut() -> &'a str) -> Self {
        let name = part().to_string();
        let tables = read_tables(part());
        Self { name, tables, car: read_car(part) }
    }
}
