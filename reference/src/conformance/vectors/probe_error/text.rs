//! The line of a vector: tables, fields, set and errors, tenths and terms on the way, figures and limit.

use super::super::probe_parts::{
    car_text, errors_text, figures_text, read_car, read_errors, read_tables, tables_text,
    tenths_text,
};
use super::super::{words, Group, Written};
use super::Vector;
use crate::permitted::{PermittedError, Terms};

/// What stands before the vectors.
const HEAD: &str = "\
# The permitted error of a probe's car: document 02, requests (c), (g) and (i). Made by make_conformance.
#
# A case is one line. Its parts stand between bars:
#   name
#   tables   type: level capacity, level capacity, ...; the next table behind a semicolon (mm, dm³)
#   fields   number, type, grade, stick, water level (mm), water, impurities (0.01 %), each a number
#            of 32 bits
#   set      level (mm), temperature (°C), density at 15 °C (kg/m³), between commas, each a float: its
#            32 bits in hexadecimal, which decide, then a decimal that tells it
#   errors   capacity, density, processing (0.0001 %), density temperature, oil temperature (0.1 °C),
#            level (0.1 mm)
# and behind them, for a car that is turned away, the number of its refusal alone; for any other:
#   tenths   level, temperature and density in tenths
#   terms    L, tRho, tOil, G, dens, dtmp, S, as in permitted-error.vectors
#   figures  those of an A line: number, level, V0, V15, gross, net (0.1 mm, 0.01 dm³, kg)
#   limit    n (0.0001 %), then yes where it is within 0.65 %, from 100,000 kg gross on 0.50 %, else no
# Tenths and terms are shown to find a fault by; what must come out are figures and limit, or the refusal.
# Lines that begin with # and empty lines are no cases.
";

impl Written for Vector {
    const FILE: &'static str = "probe-error.vectors";
    const HEAD: &'static str = HEAD;
    const ANSWERS: &'static str = include_str!("answers.txt");

    fn groups() -> Vec<Group<Self>> {
        super::groups()
    }

    fn name(&self) -> &str {
        &self.name
    }

    fn question(&self) -> String {
        let (tables, errors) = (tables_text(&self.tables), errors_text(&self.errors));
        format!("{tables} | {} | {errors}", car_text(&self.car))
    }

    fn answer(&self) -> String {
        match self.work_out() {
            Err(refusal) => refusal.number().to_string(),
            Ok(PermittedError { figures, terms, limit, within }) => {
                let (tenths, figures) = (tenths_text(&self.car.set), figures_text(&figures));
                let within = if within { "yes" } else { "no" };
                format!("{tenths} | {} | {figures} | {limit} {within}", terms_text(&terms))
            }
        }
    }

    fn read<'a>(mut part: impl FnMut() -> &'a str) -> Self {
        let name = part().to_string();
        let tables = read_tables(part());
        let car = read_car(&mut part);
        Self { name, tables, car, errors: read_errors(part()) }
    }
}

fn terms_text(terms: &Terms) -> String {
    words([
        terms.level,
        terms.density_temperature,
        terms.oil_temperature,
        terms.factor,
        terms.density_by_factor,
        terms.density_temperature_by_factor,
        terms.squares,
    ])
}
