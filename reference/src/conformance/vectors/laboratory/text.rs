//! The line of a vector: report and temperature, the figures on the way, the density at 15 °C.

use super::super::{numbers, words, Group, Written};
use super::Vector;
use crate::laboratory::{DENSEST, LIGHTEST};
use crate::refusal::Refusal;
use crate::thermal::{coefficient, contraction, density_at, Density15};

/// What stands before the vectors.
const HEAD: &str = "\
# Laboratory density at the temperature it was taken: document 02, request (d). Made by make_conformance.
#
# A case is one line. Its parts stand between bars:
#   name
#   report   the density that the laboratory gives (0.1 kg/m³) and its temperature (0.1 °C)
#   on the way, with f(r) = R(r × E(d) / 10¹⁰) for the density r at 15 °C (0.1 kg/m³):
#            where r is found, B and E(d) for it (10⁻⁹ per °C, 10⁻¹⁰), and f of r − 1, of r and of r + 1;
#            where 27 turns the report away, f(9000) and f(9900);
#            a dash for what there is not, and alone where 26 turns it away
#   answer   r, from 9000 to 9900, or the refusal, 26 or 27
# What stands on the way is shown to find a fault by; what must come out is the answer.
# Lines that begin with # and empty lines are no cases.
";

impl Written for Vector {
    const FILE: &'static str = "laboratory-density.vectors";
    const HEAD: &'static str = HEAD;
    const ANSWERS: &'static str = include_str!("answers.txt");

    fn groups() -> Vec<Group<Self>> {
        super::groups()
    }

    fn name(&self) -> &str {
        &self.name
    }

    fn question(&self) -> String {
        words([self.reported, self.temperature])
    }

    fn answer(&self) -> String {
        match self.work_out() {
            Ok(density) => format!("{} | {}", found(density, self.temperature), density.0),
            Err(refusal) => format!("{} | {}", ends(refusal, self.temperature), refusal.number()),
        }
    }

    fn read<'a>(mut part: impl FnMut() -> &'a str) -> Self {
        let name = part().to_string();
        let [reported, temperature] = numbers(part());
        Self { name, reported, temperature }
    }
}

/// B, E and the three densities at the temperature where a density at 15 °C is found.
fn found(density: Density15, temperature: u32) -> String {
    let tenths = temperature - 150;
    let shown = |density: u32| match density {
        LIGHTEST..=DENSEST => density_at(Density15(density), tenths).to_string(),
        _ => "-".to_string(),
    };
    let factors = words([coefficient(density), contraction(density, tenths)]);
    let Density15(density) = density;
    format!("{factors} {}", words([density - 1, density, density + 1].map(shown)))
}

/// The lightest and the densest at the temperature of a report that 27 turns away.
fn ends(refusal: Refusal, temperature: u32) -> String {
    match refusal {
        Refusal::LaboratoryDensity => {
            words([LIGHTEST, DENSEST].map(|of| density_at(Density15(of), temperature - 150)))
        }
        _ => "-".to_string(),
    }
}
