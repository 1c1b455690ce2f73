//! The line of a vector: a reading or a set, and its tenths.

use super::super::probe_parts::{float_text, read_float, read_set, set_text};
use super::super::{Group, Written};
use super::{Asked, Vector};
use crate::probe::Reading;

/// What stands before the vectors.
const HEAD: &str = "\
# Floats of a portable probe and their tenths: document 02, request (i). Made by make_conformance.
#
# A case is one line. Its parts stand between bars:
#   name
#   asked    level (mm), temperature (°C) or density (kg/m³) and a float; or set and three floats,
#            level, temperature and density, between commas
# and behind them:
#   answer   tenths and the number of tenths, for a set three of them in the same order;
#            or the number of the refusal alone, 31 or 32
# A float is its 32 bits in hexadecimal, then a decimal that tells the same float: the sign's bit, eight of
# the exponent, 23 of the significand. The bits decide; -0.0 is zero, and nan is whatever is not a number.
# Lines that begin with # and empty lines are no cases.
";

impl Written for Vector {
    const FILE: &'static str = "probe.vectors";
    const HEAD: &'static str = HEAD;
    const ANSWERS: &'static str = include_str!("answers.txt");

    fn groups() -> Vec<Group<Self>> {
        super::groups()
    }

    fn name(&self) -> &str {
        &self.name
    }

    fn question(&self) -> String {
        match self.asked {
            Asked::One(Reading::Level(level)) => format!("level {}", float_text(level)),
            Asked::One(Reading::Temperature(temperature)) => {
                format!("temperature {}", float_text(temperature))
            }
            Asked::One(Reading::Density(density)) => format!("density {}", float_text(density)),
            Asked::Three(set) => format!("set {}", set_text(&set)),
        }
    }

    fn answer(&self) -> String {
        match self.work_out() {
            Ok(tenths) => {
                let tenths: Vec<String> = tenths.iter().map(u32::to_string).collect();
                format!("tenths {}", tenths.join(" "))
            }
            Err(refusal) => refusal.number().to_string(),
        }
    }

    fn read<'a>(mut part: impl FnMut() -> &'a str) -> Self {
        Self { name: part().to_string(), asked: read_asked(part()) }
    }
}

fn read_asked(text: &str) -> Asked {
    match text.split_once(' ').expect("what it is, and floats") {
        ("set", set) => Asked::Three(read_set(set)),
        ("level", level) => Asked::One(Reading::Level(read_float(level))),
        ("temperature", float) => Asked::One(Reading::Temperature(read_float(float))),
        ("density", density) => Asked::One(Reading::Density(read_float(density))),
        (other, _) => panic!("no reading: {other}"),
    }
}
