//! Trying a wrong program on sheets, on cars with given errors, on laboratories' reports, on levels, on
//! sticks set against the tape, on trains that are handed in, on a probe's numbers and cars, on densities
//! whose B is asked and on pairs of sheets to be merged.

use std::panic::{self, AssertUnwindSafe};

use reference::conformance::vectors::permitted::Vector;
use reference::conformance::vectors::stick::Vector as Check;
use reference::conformance::vectors::train::Vector as HandedIn;

use crate::expansion::Densities;
use crate::hooks;
use crate::laboratory::Reports;
use crate::merge::Asked as Pair;
use crate::mutants::{contexts_of, Mutant};
use crate::probe::Asked;
use crate::{permitted, stick, tape, train, turned, POINTS};

/// What a program is asked.
enum Question {
    Sheet(Vec<u8>),
    PermittedError(Vector),
    Density(Reports),
    /// The tape allowance at a level in 0.1 mm.
    Allowance(u64),
    StickAgainstTape(Check),
    /// A train with a car or a strike.
    Train(Box<HandedIn>),
    /// A probe's numbers or car.
    Probe(Asked),
    /// B of densities.
    Expansion(Densities),
    /// Two sheets, and a buffer for the merged one.
    Merge(Pair),
}

impl Question {
    /// What the reference answers.
    fn right(&self) -> Vec<u8> {
        match self {
            Self::Sheet(sheet) => reference::listing::of(sheet),
            Self::PermittedError(vector) => permitted::right(vector),
            Self::Density(reports) => reports.right(),
            Self::Allowance(level) => tape::right(*level),
            Self::StickAgainstTape(check) => stick::right(check),
            Self::Train(handed_in) => train::right(handed_in),
            Self::Probe(asked) => asked.right(),
            Self::Expansion(densities) => densities.right(),
            Self::Merge(pair) => pair.right(),
        }
    }

    /// What its copy answers, with whatever is set to go wrong.
    fn turned(&self) -> Vec<u8> {
        match self {
            Self::Sheet(sheet) => turned::listing::of(sheet),
            Self::PermittedError(vector) => permitted::turned(vector),
            Self::Density(reports) => reports.turned(),
            Self::Allowance(level) => tape::turned(*level),
            Self::StickAgainstTape(check) => stick::turned(check),
            Self::Train(handed_in) => train::turned(handed_in),
            Self::Probe(asked) => asked.turned(),
            Self::Expansion(densities) => densities.turned(),
            Self::Merge(pair) => pair.turned(),
        }
    }
}

/// A question, its answer, the contexts in which the right program meets each point on the way, and the
/// densities whose B it takes.
pub struct Trial {
    pub name: String,
    question: Question,
    answer: Vec<u8>,
    met: Vec<u128>,
    densities: Vec<u32>,
}

impl Trial {
    /// A sheet and its listing.
    pub fn new(name: String, sheet: Vec<u8>) -> Self {
        Self::of(name, Question::Sheet(sheet))
    }

    /// A car with given errors, and its permitted error.
    pub fn of_vector(vector: Vector) -> Self {
        Self::of(vector.name.clone(), Question::PermittedError(vector))
    }

    /// Reports at one temperature, and their densities at 15 °C.
    pub fn of_reports(reports: Reports) -> Self {
        let name = format!("reports at {}", reports.temperature);
        Self::of(name, Question::Density(reports))
    }

    /// A level in 0.1 mm, and its tape allowance.
    pub fn of_level(level: u64) -> Self {
        Self::of(format!("level {level}"), Question::Allowance(level))
    }

    /// A stick level with tape readings, and what is found of the stick.
    pub fn of_check(check: Check) -> Self {
        Self::of(check.name.clone(), Question::StickAgainstTape(check))
    }

    /// A train with a car or a strike, what it answers and how it is handed back.
    pub fn of_train(handed_in: HandedIn) -> Self {
        Self::of(handed_in.name.clone(), Question::Train(handed_in.into()))
    }

    /// A probe's numbers or car, and what comes of them.
    pub fn of_probe(asked: Asked) -> Self {
        Self::of(asked.name(), Question::Probe(asked))
    }

    /// Densities, and B of each.
    pub fn of_densities(densities: Densities) -> Self {
        Self::of(densities.name(), Question::Expansion(densities))
    }

    /// Two sheets, and what comes of merging them.
    pub fn of_pair(pair: Pair) -> Self {
        Self::of(pair.name.clone(), Question::Merge(pair))
    }

    /// # Panics
    ///
    /// If the rewritten program, with nothing gone wrong, does not give the reference's answer.
    fn of(name: String, question: Question) -> Self {
        let answer = question.right();
        let mut answered = Vec::new();
        let met = hooks::met(|| answered = question.turned());
        assert_eq!(answered, answer, "{name}: the copy is not the reference");
        Self { name, question, answer, met, densities: hooks::densities() }
    }

    /// Whether the trial comes to the place where the wrong program goes wrong. Lists of constants
    /// are made once, so that no trial is seen to meet them. A merge shows no figures, so that only what
    /// reads and holds lines is tried on it.
    pub fn meets(&self, mutant: Mutant) -> bool {
        let is_merge = matches!(self.question, Question::Merge(_));
        match mutant {
            Mutant::Point(point, ..) if is_merge && !is_of_lines(POINTS[point].module) => false,
            Mutant::Order(..) | Mutant::Stored(..) if is_merge => false,
            Mutant::Point(point, _, place) => {
                POINTS[point].function.is_empty() || self.met[point] >> place & 1 == 1
            }
            Mutant::Order(order, ..) => hooks::ORDERS[order].probe == self.probe(),
            Mutant::Stored(density, _) => self.densities.binary_search(&density).is_ok(),
        }
    }

    /// What a probe's numbers are handed over for in it, or 0.
    fn probe(&self) -> u32 {
        match &self.question {
            Question::Probe(asked) => asked.probe(),
            _ => 0,
        }
    }

    /// Whether the wrong program, which is set, gives another answer, or none.
    fn catches(&self, mutant: Mutant) -> bool {
        if !self.meets(mutant) {
            return false;
        }
        hooks::begin_sheet();
        let answer = panic::catch_unwind(AssertUnwindSafe(|| self.question.turned()));
        answer.map_or(true, |answer| answer != self.answer)
    }
}

/// Whether a module reads, holds or writes the lines of a sheet.
fn is_of_lines(module: &str) -> bool {
    matches!(module, "merge" | "sheet" | "line" | "field" | "table" | "train")
}

/// The turn of the first trial that catches the wrong program, tried in an order of their places.
pub fn caught_by(mutant: Mutant, trials: &[Trial], order: &[usize]) -> Option<usize> {
    match mutant {
        Mutant::Point(point, choice, place) => {
            hooks::go_wrong(point, choice, contexts_of(point)[place]);
        }
        Mutant::Order(order, first, second) => hooks::exchange(order, first, second),
        Mutant::Stored(density, more) => hooks::put_off(density, more),
    }
    let found = order.iter().position(|&place| trials[place].catches(mutant));
    hooks::go_wrong(hooks::NONE, 0, contexts_of(0)[0]);
    hooks::exchange(0, 0, 0);
    hooks::put_off(0, false);
    found
}
