//! The line of a vector: tables, car and errors, terms, figures and limit.

use super::super::{numbers, words, Group, Written};
use super::Vector;
use crate::car::{Car, Figures, FIELDS};
use crate::operations::HandedIn;
use crate::permitted::{Errors, PermittedError, Terms, ERRORS};
use crate::table::Row;

/// What stands before the vectors.
const HEAD: &str = "\
# The permitted error beside the mass: document 02, requests (c) and (g). Made by make_conformance.
#
# A case is one line. Its parts stand between bars:
#   name
#   tables   type: level capacity, level capacity, ...; the next table behind a semicolon (mm, dm³)
#   car      the fourteen fields of its C line, each a number of 32 bits
#   errors   capacity, density, processing (0.0001 %), density temperature, oil temperature (0.1 °C),
#            level (0.1 mm)
# and behind them, for a car that is turned away, the number of its refusal alone; for any other:
#   terms    L, tRho, tOil, G, dens, dtmp, S: the terms of the level and of the two temperatures, G of
#            formula (17), the density error and tRho times G, and the sum of the squares of
#            capacity, L, dens, dtmp, tOil and processing (0.0001 %, G in millionths)
#   figures  those of the car's A line: number, mean level, V0, V15, gross, net
#            (0.1 mm, 0.01 dm³, kg)
#   limit    n (0.0001 %), then yes where it is within 0.65 %, from 100,000 kg gross on 0.50 %, else no
# Terms are shown to find a fault by; what must come out are figures and limit, or the refusal.
# Lines that begin with # and empty lines are no cases.
";

impl Written for Vector {
    const FILE: &'static str = "permitted-error.vectors";
    const HEAD: &'static str = HEAD;
    const ANSWERS: &'static str = include_str!("answers.txt");

    fn groups() -> Vec<Group<Self>> {
        super::groups()
    }

    fn name(&self) -> &str {
        &self.name
    }

    /// Tables, car and errors.
    fn question(&self) -> String {
        let tables: Vec<String> = self.tables.iter().map(table_text).collect();
        let car = words(<[u32; FIELDS]>::from(self.car));
        let errors = words(<[u32; ERRORS]>::from(self.errors));
        format!("{} | {car} | {errors}", tables.join("; "))
    }

    fn answer(&self) -> String {
        match self.work_out() {
            Err(refusal) => refusal.number().to_string(),
            Ok(PermittedError { figures, terms, limit, within }) => {
                let within = if within { "yes" } else { "no" };
                format!("{} | {} | {limit} {within}", terms_text(&terms), figures_text(&figures))
            }
        }
    }

    fn read<'a>(mut part: impl FnMut() -> &'a str) -> Self {
        Self {
            name: part().to_string(),
            tables: part().split("; ").filter(|text| !text.is_empty()).map(read_table).collect(),
            car: Car::from(numbers::<u32, FIELDS>(part())),
            errors: Errors::from(numbers::<u32, ERRORS>(part())),
        }
    }
}

fn terms_text(terms: &Terms) -> String {
    words([
        terms.level,
        terms.density_temperature,
        terms.oil_temperature,
        terms.factor,
        terms.density_by_factor,
        terms.density_temperature_by_factor,
        terms.squares,
    ])
}

fn figures_text(figures: &Figures) -> String {
    let Figures { number, level, volume, volume_at_15, gross, net } = *figures;
    words([number, level, volume, volume_at_15, gross, net])
}

fn table_text(table: &HandedIn) -> String {
    let rows: Vec<String> =
        table.rows.iter().map(|row| format!("{} {}", row.level, row.capacity)).collect();
    format!("{}: {}", table.car_type, rows.join(", "))
}

fn read_table(text: &str) -> HandedIn {
    let (car_type, rows) = text.split_once(": ").expect("a type and rows");
    let rows: Vec<Row> = rows
        .split(", ")
        .map(|row| {
            let [level, capacity] = numbers(row);
            Row { level, capacity }
        })
        .collect();
    let [car_type] = numbers(car_type);
    HandedIn { car_type, announced: rows.len() as u32, rows }
}
