//! Counts which wrong programs the conformance kit catches, its sheets and its vectors, which only
//! the generator of sheets does, and which neither: `mutants [OPTION NUMBER]...`; the README has the options.

mod draw;
mod expansion;
mod grid;
mod hooks;
mod laboratory;
mod merge;
mod mutants;
mod permitted;
mod probe;
mod probe_lot;
mod stick;
mod tables;
mod tape;
mod train;
mod trial;
/// The reference's modules, with points.
#[allow(clippy::all, unused, unused_parens, unreachable_code)]
mod turned {
    include!(concat!(env!("OUT_DIR"), "/turned.rs"));
}
mod wrong;
mod wrong_expansion;
mod wrong_merge;
mod wrong_probe;

use std::process::ExitCode;

use reference::conformance::vectors;

use expansion::Densities;
use mutants::Mutant;
use trial::Trial;

/// A place at which a program can go wrong.
pub struct Point {
    pub module: &'static str,
    pub function: &'static str,
    pub line: u32,
    pub code: &'static str,
    pub what: &'static str,
    /// The wrong ways, by name.
    pub choices: &'static [&'static str],
    /// The wrong numbers, where the point is a number.
    pub values: &'static [u64],
}

pub const POINTS: &[Point] = include!(concat!(env!("OUT_DIR"), "/points.rs"));

/// Programs that no sheet and no vector tells from the right one, with the reasons.
const EQUIVALENT: &str = include_str!("../EQUIVALENT.md");

struct Options {
    every: usize,
    sheets: u64,
    kit: usize,
    search: u64,
    grid: bool,
    generator: u64,
}

fn main() -> ExitCode {
    let Some(options) = options() else {
        eprintln!("usage: mutants [--every N] [--sheets COUNT] [--kit FIRST] [--generator 0] [--search SEEDS] [--grid 1]");
        return ExitCode::from(2);
    };
    std::panic::set_hook(Box::new(|_| {}));
    let kit = kit(options.kit);
    let generated = generated(options.sheets);
    let trials = || kit.trials.iter().chain(&generated);
    let (list, unmet): (Vec<Mutant>, Vec<Mutant>) = mutants::all()
        .into_iter()
        .step_by(options.every)
        .partition(|mutant| trials().any(|trial| trial.meets(*mutant)));
    let (mut left, caught) = measure(&list, &kit.trials);
    println!("{} wrong programs at {} points", list.len(), POINTS.len());
    println!(
        "left out, none of these sheets and vectors comes to where they go wrong: {}",
        unmet.len()
    );
    if options.generator > 1 {
        unmet.iter().for_each(|mutant| println!("unmet: {mutant}"));
    }
    let Kit { sheets, vectors, .. } = kit;
    println!("caught by the {sheets} sheets and {vectors} vectors of the kit: {}", caught.len());
    if options.grid {
        left.iter().for_each(|&mutant| grid::report(mutant));
        return ExitCode::SUCCESS;
    }
    if options.search > 0 {
        left.retain(|mutant| !is_listed(mutant));
        search(left, options.search);
        return ExitCode::SUCCESS;
    }
    try_generated(&options, &generated, &left, &caught)
}

/// Tries what is generated on the wrong programs that the kit left, and the sheets of it on those too that
/// the kit caught.
fn try_generated(
    options: &Options,
    generated: &[Trial],
    left: &[Mutant],
    caught: &[(Mutant, &str)],
) -> ExitCode {
    let (sheets, others) = generated.split_at(options.sheets as usize);
    let (left, by_sheets) = measure(left, sheets);
    if options.generator > 0 {
        let caught: Vec<Mutant> = caught.iter().map(|(mutant, _)| *mutant).collect();
        let (missed, by_both) = measure(&caught, sheets);
        let count = by_both.len() + by_sheets.len();
        println!("caught by {} generated sheets: {count}", sheets.len());
        let missed = missed.iter().chain(left.iter().filter(|mutant| !is_listed(mutant)));
        missed.filter(|_| options.generator > 1).for_each(|mutant| println!("missed: {mutant}"));
    }
    try_pairs(options, others, caught);
    let (left, by_others) = measure(&left, others);
    report(left, [by_sheets, by_others].concat())
}

/// Tries the generated pairs on the wrong merges that the kit caught.
fn try_pairs(options: &Options, generated: &[Trial], caught: &[(Mutant, &str)]) {
    if options.generator == 0 {
        return;
    }
    let pairs = &generated[generated.len() - options.sheets as usize..];
    let merges: Vec<Mutant> =
        caught.iter().map(|(mutant, _)| *mutant).filter(|mutant| mutant.is_of("merge")).collect();
    let (missed, caught) = measure(&merges, pairs);
    let (all, count) = (merges.len(), caught.len());
    println!("of {all} wrong merges, caught by {} generated pairs: {count}", pairs.len());
    missed.iter().for_each(|mutant| println!("missed by pairs: {mutant}"));
}

/// Prints what the kit leaves: wrong programs that the generator alone tells apart, with what does so, and
/// those that nothing does.
fn report(left: Vec<Mutant>, told: Vec<(Mutant, &str)>) -> ExitCode {
    let (listed, neither): (Vec<Mutant>, Vec<Mutant>) = left.into_iter().partition(is_listed);
    let (wrongly_listed, by_generator): (Vec<_>, Vec<_>) =
        told.into_iter().partition(|(mutant, _)| is_listed(mutant));
    println!("caught by the generator only: {}", by_generator.len());
    println!("caught by neither: {}", neither.len());
    println!("told apart by no sheet or vector, listed with the reason: {}", listed.len());
    for (mutant, name) in &wrongly_listed {
        println!("listed, but told apart by {name}: {mutant}");
    }
    for (mutant, name) in &by_generator {
        println!("generator only ({name}): {mutant}");
    }
    for mutant in &neither {
        println!("neither: {mutant}");
    }
    if wrongly_listed.is_empty() && by_generator.is_empty() && neither.is_empty() {
        ExitCode::SUCCESS
    } else {
        ExitCode::FAILURE
    }
}

/// The conformance kit: its trials, and how many sheets and vectors they are.
struct Kit {
    trials: Vec<Trial>,
    sheets: usize,
    vectors: usize,
}

/// The first so many sheets of the kit, and its vectors.
fn kit(first: usize) -> Kit {
    let cases = reference::conformance::cases();
    let cars = vectors::all::<vectors::permitted::Vector>();
    let reports = vectors::all::<vectors::laboratory::Vector>();
    let levels = vectors::all::<vectors::tape::Vector>();
    let checks = vectors::all::<vectors::stick::Vector>();
    let trains = vectors::all::<vectors::train::Vector>();
    let probes = probe::of_vectors();
    let densities = expansion::of_vectors();
    let pairs = merge::of_vectors();
    let sheets = cases.len().min(first);
    let vectors = [cars.len(), reports.len(), levels.len(), checks.len(), trains.len()];
    let vectors = vectors.iter().sum::<usize>() + probes.len();
    let vectors = vectors + densities.iter().map(Densities::count).sum::<usize>() + pairs.len();
    let cases = cases.into_iter().take(first);
    let trials = cases
        .map(|case| Trial::new(case.name.to_string(), case.sheet))
        .chain(cars.into_iter().map(Trial::of_vector))
        .chain(laboratory::of_vectors(&reports).into_iter().map(Trial::of_reports))
        .chain(levels.into_iter().map(|vector| Trial::of_level(vector.level)))
        .chain(checks.into_iter().map(Trial::of_check))
        .chain(trains.into_iter().map(Trial::of_train))
        .chain(probes.into_iter().map(Trial::of_probe))
        .chain(densities.into_iter().map(Trial::of_densities))
        .chain(pairs.into_iter().map(Trial::of_pair))
        .collect();
    Kit { trials, sheets, vectors }
}

/// So many generated sheets first, then sheets of every density, and vectors by lot.
fn generated(sheets: u64) -> Vec<Trial> {
    (0..sheets)
        .map(|seed| Trial::new(format!("seed {seed}"), reference::sheets::sheet(seed)))
        .chain(grid::every_density())
        .chain(permitted::drawn(sheets).map(Trial::of_vector))
        .chain(laboratory::drawn(sheets / 10).map(Trial::of_reports))
        .chain(tape::drawn(sheets).map(Trial::of_level))
        .chain(stick::drawn(sheets).map(Trial::of_check))
        .chain(train::drawn(sheets).map(Trial::of_train))
        .chain(probe_lot::drawn(sheets).map(Trial::of_probe))
        .chain(merge::drawn(sheets).map(Trial::of_pair))
        .collect()
}

/// Names the seeds of sheets of figures that catch most of what the kit leaves, the best first.
fn search(mut open: Vec<Mutant>, seeds: u64) {
    let sheets: Vec<Trial> = (0..seeds)
        .map(|seed| Trial::new(seed.to_string(), reference::conformance::figures::sheet(seed)))
        .collect();
    let catches: Vec<Vec<usize>> = open
        .iter()
        .map(|&mutant| {
            let tried = (0..sheets.len())
                .filter(|&place| trial::caught_by(mutant, &sheets, &[place]).is_some());
            tried.collect()
        })
        .collect();
    let mut left: Vec<usize> =
        (0..open.len()).filter(|&place| !catches[place].is_empty()).collect();
    while !left.is_empty() {
        let count = |seed: usize| left.iter().filter(|&&m| catches[m].contains(&seed)).count();
        let best = (0..sheets.len()).max_by_key(|&seed| count(seed)).expect("a sheet");
        println!("seed {best}: {}", count(best));
        left.retain(|&mutant| !catches[mutant].contains(&best));
    }
    let mut place = 0;
    open.retain(|_| {
        place += 1;
        catches[place - 1].is_empty()
    });
    open.iter().for_each(|mutant| println!("neither: {mutant}"));
}

fn options() -> Option<Options> {
    let mut options =
        Options { every: 1, sheets: 2_000, kit: usize::MAX, search: 0, grid: false, generator: 1 };
    let mut words = std::env::args().skip(1);
    while let Some(word) = words.next() {
        let number: u64 = words.next()?.parse().ok()?;
        match word.as_str() {
            "--every" => options.every = number.max(1) as usize,
            "--sheets" => options.sheets = number,
            "--kit" => options.kit = number as usize,
            "--search" => options.search = number,
            "--generator" => options.generator = number,
            "--grid" => options.grid = number > 0,
            _ => return None,
        }
    }
    Some(options)
}

/// The wrong programs that no trial catches, and those caught with the catching trial's name. What
/// caught the last ones is tried first.
fn measure<'a>(list: &[Mutant], trials: &'a [Trial]) -> (Vec<Mutant>, Vec<(Mutant, &'a str)>) {
    let mut left = Vec::new();
    let mut caught = Vec::new();
    let mut order: Vec<usize> = (0..trials.len()).collect();
    for &mutant in list {
        match trial::caught_by(mutant, trials, &order) {
            Some(turn) => {
                order[..=turn].rotate_right(1);
                caught.push((mutant, trials[order[0]].name.as_str()));
            }
            None => left.push(mutant),
        }
    }
    (left, caught)
}

/// Whether a line of the list of equivalent programs, in which `*` stands for anything, fits.
fn is_listed(mutant: &Mutant) -> bool {
    let text = mutant.to_string();
    EQUIVALENT.lines().filter_map(|line| line.strip_prefix("    ")).any(|line| fits(line, &text))
}

fn fits(pattern: &str, text: &str) -> bool {
    let mut rest = text;
    let parts: Vec<&str> = pattern.split('*').collect();
    for (place, part) in parts.iter().enumerate() {
        let found = if place == 0 {
            rest.starts_with(part).then_some(0)
        } else if place + 1 == parts.len() {
            rest.ends_with(part).then(|| rest.len() - part.len())
        } else {
            rest.find(part)
        };
        match found {
            Some(at) => rest = &rest[at + part.len()..],
            None => return false,
        }
    }
    rest.is_empty() || parts.last() == Some(&"")
}
