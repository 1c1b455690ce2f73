//! The line of a vector: the density, the quotient on the way, B.

use super::super::{numbers, words, Group, Written};
use super::Vector;

/// What stands before the vectors.
const HEAD: &str = "\
# The expansion of oil, looked up: document 01, step 4, and document 02, request (j). Made by make_conformance.
#
# A case is one line. Its parts stand between bars:
#   name
#   density  the density r at 15 °C (0.1 kg/m³), a number of 32 bits; from 9000 to 9900 it is answered
#   on the way, the quotient (18,696,960,000,000 + 4,861,800,000 × r) / r² cut to a whole number, and the
#            remainder: with half of r² or more of it the quotient goes up;
#            a dash where 19 turns the density away
#   answer   B (10⁻⁹ per °C), from 681857 to 771027, or the refusal, 19
# What stands on the way is shown to find a fault by; what must come out is the answer.
# Lines that begin with # and empty lines are no cases.
";

impl Written for Vector {
    const FILE: &'static str = "expansion.vectors";
    const HEAD: &'static str = HEAD;
    const ANSWERS: &'static str = include_str!("answers.txt");

    fn groups() -> Vec<Group<Self>> {
        super::groups()
    }

    fn name(&self) -> &str {
        &self.name
    }

    fn question(&self) -> String {
        self.density.to_string()
    }

    fn answer(&self) -> String {
        match self.work_out() {
            Ok(coefficient) => format!("{} | {coefficient}", quotient(self.density.into())),
            Err(refusal) => format!("- | {}", refusal.number()),
        }
    }

    fn read<'a>(mut part: impl FnMut() -> &'a str) -> Self {
        let name = part().to_string();
        let [density] = numbers(part());
        Self { name, density }
    }
}

/// The quotient of step 4 cut to a whole number, and its remainder.
fn quotient(density: u64) -> String {
    let dividend = 18_696_960_000_000 + 4_861_800_000 * density;
    let divisor = density * density;
    words([dividend / divisor, dividend % divisor])
}
