//! The figures on the way from dip to kilogram, for some cars of the kit.

use super::Case;
use crate::car::Car;
use crate::mass;
use crate::rounding::nearest;
use crate::sheet::Sheet;
use crate::thermal::{self, Density15, Stick, ONE};

/// The sheets whose accepted cars are shown.
const SHEETS: [&str; 10] = [
    "paper-sheet",
    "card-levels",
    "parting-expansion-of-wall-from-15",
    "parting-square-left-out",
    "parting-sticks-mixed-up",
    "rounding-coefficient-half-at-density-9600",
    "rounding-exponent-and-terms",
    "source-cylinder-of-31-rows",
    "figures-at-halves-1",
    "expansion-9900",
];

/// The figures as Markdown.
pub fn of(cases: &[Case]) -> String {
    let mut text = String::from(
        "# Figures on the way\n\n\
         Made by `make_conformance`: for the accepted cars of some sheets the figures of every step of \
         document 01, in its units, the level in 0.1 mm. u1 is X.\n\n\
         | Sheet | Car | Level | V0 | Vt | B | X | u2 | u3 | u4 | u5 | u6 | E | V15 | Gross | Net |\n\
         |---|---|---|---|---|---|---|---|---|---|---|---|---|---|---|---|\n",
    );
    for name in SHEETS {
        let case = cases.iter().find(|case| case.name == name).expect("a sheet of the kit");
        let sheet = Sheet::read(&case.sheet).unwrap_or_else(|_| panic!("{name} is refused"));
        for car in sheet.cars() {
            text.push_str(&row(name, car, &sheet).unwrap_or_default());
        }
    }
    text
}

/// The row of an accepted car.
fn row(name: &str, car: &Car, sheet: &Sheet) -> Option<String> {
    let figures = car.work_out(&sheet.tables).ok()?;
    let density = Density15(car.density);
    let stick = Stick::numbered(car.stick)?;
    let measured =
        thermal::volume_at_temperature(u64::from(figures.volume), stick, car.temperature);
    let coefficient = thermal::coefficient(density);
    let exponent = thermal::exponent(coefficient, car.temperature - 150);
    let terms = terms(exponent);
    let contraction = ONE - exponent + terms[0] - terms[1] + terms[2] - terms[3] + terms[4];
    assert_eq!(contraction, thermal::exponential(exponent));
    assert_eq!(
        u64::from(figures.volume_at_15),
        mass::volume_at_15(measured, density, car.temperature)
    );
    let before =
        [u64::from(figures.level), u64::from(figures.volume), measured, coefficient, exponent];
    let after = [
        contraction,
        u64::from(figures.volume_at_15),
        u64::from(figures.gross),
        u64::from(figures.net),
    ];
    let numbers: Vec<String> =
        before.iter().chain(&terms).chain(&after).map(u64::to_string).collect();
    Some(format!("| `{name}` | {} | {} |\n", car.number, numbers.join(" | ")))
}

/// u2 to u6 of step 6.
fn terms(exponent: u64) -> [u64; 5] {
    let mut term = exponent;
    [2, 3, 4, 5, 6].map(|power| {
        term = nearest(term * exponent, power * ONE);
        term
    })
}
