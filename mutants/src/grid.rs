//! E of step 6 for every density and every temperature, as a wrong program gives it, and the reports
//! of a laboratory that show it.

use reference::laboratory::Column;
use reference::thermal::{contraction, density_at, Density15};

use crate::hooks;
use crate::hooks::Context;
use crate::mutants::{contexts_of, Mutant};
use crate::trial::Trial;
use crate::turned::thermal as turned;
use crate::POINTS;

/// Functions on the way to E.
const ON_THE_WAY: [&str; 4] = ["coefficient", "exponent", "exponential", "contraction"];

/// Sheets on which refusal 21 judges every density at 15 °C, for grades 1 and 2.
pub fn every_density() -> impl Iterator<Item = Trial> {
    let fields: Vec<(u32, u32)> =
        (9_000..=9_900).flat_map(|density| [(1, density), (2, density)]).collect();
    let sheets: Vec<Trial> = fields.chunks(60).map(sheet_of).collect();
    sheets.into_iter()
}

fn sheet_of(cars: &[(u32, u32)]) -> Trial {
    let lines: String = cars
        .iter()
        .zip(1..)
        .map(|((grade, density), number)| {
            let car = [number, 1, *grade, 1, 2, 9, 9, 0, 0, 0, 500, *density, 0, 0];
            let fields: String = car.iter().map(|field| format!("{field:>9}")).collect();
            format!("C{fields}\n")
        })
        .collect();
    let tables = "T        1        2\nR        0        0\nR        9        9\n";
    let sheet = format!("{tables}{lines}E{:>9}\n", cars.len());
    Trial::new(format!("every density, from {}", cars[0].1), sheet.into_bytes())
}

/// Prints whether a wrong program's E differs anywhere, with what shows it.
pub fn report(mutant: Mutant) {
    let Mutant::Point(point, choice, place) = mutant else { return };
    let here = &POINTS[point];
    let context = contexts_of(point)[place];
    if here.module != "thermal" {
        return;
    }
    hooks::go_wrong(point, choice, context);
    let at = if context.key == hooks::AT { context.low } else { 15 };
    let everywhere = context.key == hooks::ALWAYS;
    if at == hooks::LABORATORY || (everywhere && here.function == "density_at") {
        report_densities(mutant);
    } else if at == 15 && ON_THE_WAY.contains(&here.function) {
        report_volumes(mutant, context);
    }
    hooks::go_wrong(hooks::NONE, 0, contexts_of(0)[0]);
}

/// Prints how far the wrong program's E is off, with a volume in 0.01 dm³ that shows it.
fn report_volumes(mutant: Mutant, context: Context) {
    let number = |key| if context.key == key { context.low } else { 0 };
    let grade = number(hooks::GRADE).max(1);
    let temperatures = if grade < 3 { 200..=900 } else { 400..=900 };
    let densest = [9_584, 9_634, 9_900, 9_900][grade as usize - 1];
    let densest = if context.key == hooks::GRADE { densest } else { 9_900 };
    let mut best = (0, 0, 0, 0);
    for temperature in temperatures {
        // No grade takes oil that is both cooler than 40 °C and denser than grade 2 may be.
        for density in 9_000..=if temperature < 400 { densest.min(9_634) } else { densest } {
            hooks::begin_sheet();
            hooks::place(hooks::GRADE, grade);
            hooks::place(hooks::STICK, number(hooks::STICK).max(1));
            hooks::place(hooks::AT, 15);
            let right = contraction(Density15(density), temperature - 150);
            let wrong = turned::contraction(turned::Density15(density), temperature - 150);
            let apart = right.abs_diff(wrong);
            if apart > best.0 {
                best = (apart, density, temperature, wrong);
            }
        }
    }
    let (apart, density, temperature, wrong) = best;
    let sample = if apart == 0 { 0 } else { shown(density, temperature, wrong) };
    println!("E apart by {apart}: {density} {temperature} {grade} {sample}: {mutant}");
}

/// A volume at the oil temperature for which the two V15 differ.
fn shown(density: u32, temperature: u32, wrong: u64) -> u64 {
    let right = contraction(Density15(density), temperature - 150);
    let round = |volume: u64, by: u64| reference::rounding::nearest(volume * by, 10_000_000_000);
    (1..=20_000_000).rev().find(|&volume| round(volume, right) != round(volume, wrong)).unwrap_or(0)
}

/// Prints how many reports the wrong program answers otherwise, with the first of them.
fn report_densities(mutant: Mutant) {
    let found: Vec<(u32, u32)> = (200..=900).flat_map(turned_reports).collect();
    match found.first() {
        Some((reported, temperature)) => {
            println!("{} reports, as {reported} at {temperature}: {mutant}", found.len());
        }
        None => println!("no report: {mutant}"),
    }
}

/// The reports at a temperature that the wrong program, which is set, answers otherwise.
fn turned_reports(temperature: u32) -> Vec<(u32, u32)> {
    hooks::begin_sheet();
    hooks::place(hooks::AT, hooks::LABORATORY);
    let comes_to = |density: u32| density_at(Density15(density), temperature - 150);
    let turned_to =
        |density: u32| turned::density_at(turned::Density15(density), temperature - 150);
    if (9_000..=9_900).all(|density| comes_to(density) == turned_to(density)) {
        return Vec::new();
    }
    let right = Column::at(temperature).expect("a temperature in range");
    let wrong = crate::turned::laboratory::Column::at(temperature).expect("the same");
    let differs = |reported: &u32| {
        right.look_up(*reported).ok().map(|density| density.0)
            != wrong.look_up(*reported).ok().map(|density| density.0)
    };
    let reports = comes_to(9_000) - 2..=comes_to(9_900) + 2;
    reports.filter(differs).map(|reported| (reported, temperature)).collect()
}
