//! A second calculation of a probe's permitted error that can go wrong in a part or two: each wrong
//! program must show in the answer of the vector that is named after it. The figures are the package's.

mod turns;

use reference::car::Figures;
use reference::conformance::vectors::{all, probe_error::Vector};
use reference::laboratory;
use reference::operations;
use reference::probe::{ProbeCar, Reading, Set};
use reference::refusal::Refusal;
use reference::table::Row;
use reference::thermal::Density15;

/// A way from a float to its tenths, or to the number of the refusal.
type Way = fn(f32) -> Result<u32, u32>;

fn rule(float: f32) -> Result<u32, u32> {
    Reading::Level(float).tenths().map_err(Refusal::number)
}

/// Ten times a float, without loss.
fn tenfold(float: f32) -> f64 {
    10.0 * f64::from(float)
}

fn cut(float: f32) -> Result<u32, u32> {
    rule(float).map(|_| tenfold(float) as u32)
}

/// A program; a wrong one is [`RULE`] but for what it names.
#[derive(Clone, Copy, Debug)]
struct Program {
    /// Ways to read temperature and density, and whether the two are exchanged.
    temperature: Way,
    density: Way,
    exchanged: bool,
    /// The level in tenths that the rows are around, of the car and its level.
    around: fn(&ProbeCar, f64) -> f64,
    /// What rows are multiplied by, and the pair on a row.
    row_unit: f64,
    upper_pair: bool,
    /// The level in tenths that V0 is at, the water level in tenths, and whether the wall expands.
    volume_at: fn(&ProbeCar, f64) -> f64,
    water_unit: f64,
    with_wall: bool,
    level_error_unit: f64,
    level_step_unit: f64,
    /// The temperature above the line of G in tenths, of the float and its tenths.
    above: fn(f32, f64) -> f64,
    upside_down: bool,
    /// The density that B is of.
    of_coefficient: fn(f64) -> f64,
    is_answered: bool,
}

const RULE: Program = Program {
    temperature: rule,
    density: rule,
    exchanged: false,
    around: |_, level| level,
    row_unit: 10.0,
    upper_pair: false,
    volume_at: |_, level| level,
    water_unit: 10.0,
    with_wall: false,
    level_error_unit: 1.0,
    level_step_unit: 1.0,
    above: |_, tenths| tenths,
    upside_down: false,
    of_coefficient: |density| density,
    is_answered: true,
};

/// What a caller sees: figures, n and whether it is within, or the refusal.
type Seen = Result<(Figures, u64, bool), u32>;

const HIGHEST: [u32; 6] = [10_000, 10_000, 10_000, 20, 20, 100];

impl Program {
    fn answer(self, vector: &Vector) -> Seen {
        let car = self.taken(vector.car)?;
        let figures = operations::work_out_probe(&vector.tables, &car).map_err(Refusal::number)?;
        let errors = <[u32; 6]>::from(vector.errors);
        if !self.is_answered {
            return Err(14);
        }
        if errors.iter().zip(HIGHEST).any(|(error, highest)| *error > highest) {
            return Err(24);
        }
        let errors = errors.map(f64::from);
        let level_term = self.level_term(vector, &car, &figures, errors[5])?;
        let above = (self.above)(vector.car.set.temperature, tenfold(car.set.temperature).round());
        let squares = self.squares(&car, errors, level_term, above);
        let limit = (0..).find(|n| 100 * n * n >= 121 * squares).expect("a limit");
        let within = limit <= if figures.gross < 100_000 { 6_500 } else { 5_000 };
        Ok((figures, limit, within))
    }

    /// The car with floats that have the tenths which the program takes.
    fn taken(self, car: ProbeCar) -> Result<ProbeCar, u32> {
        let Set { level, mut temperature, mut density } = car.set;
        if self.exchanged {
            (temperature, density) = (density, temperature);
        }
        rule(level)?;
        let temperature = (self.temperature)(temperature)? as f32 / 10.0;
        let density = (self.density)(density)? as f32 / 10.0;
        Ok(ProbeCar { set: Set { level, temperature, density }, ..car })
    }

    fn level_term(
        self,
        vector: &Vector,
        car: &ProbeCar,
        figures: &Figures,
        error: f64,
    ) -> Result<f64, u32> {
        let own = vector.tables.iter().find(|table| table.car_type == car.car_type);
        let rows = &own.expect("a table").rows;
        let level = f64::from(figures.level);
        let volume = self.volume(rows, car, level);
        if volume == 0.0 {
            return Err(25);
        }
        let mut around = (self.around)(car, level);
        let on_a_row = |row: &Row| 10.0 * f64::from(row.level) == around;
        if self.upper_pair && rows[..rows.len() - 1].iter().any(on_a_row) {
            around += 1.0;
        }
        let [level_step, capacity_step] = steps(rows, around, self.row_unit);
        let above = 10_000_000.0 * error * self.level_error_unit * capacity_step;
        let term = (above / (level_step * self.level_step_unit * volume)).round();
        if term > 10_000.0 {
            return Err(25);
        }
        Ok(term)
    }

    fn volume(self, rows: &[Row], car: &ProbeCar, level: f64) -> f64 {
        let water = self.water_unit * f64::from(car.water_level);
        let volume = capacity(rows, (self.volume_at)(car, level)) - capacity(rows, water);
        if !self.with_wall {
            return volume;
        }
        let expansion = if car.stick == 1 { 100.0 } else { 121.0 };
        let degrees = tenfold(car.set.temperature).round() - 200.0;
        (volume * (1.0 + expansion * degrees / 20_000_000.0)).round()
    }

    fn squares(self, car: &ProbeCar, errors: [f64; 6], level_term: f64, above: f64) -> u64 {
        let [capacity, density, processing, density_temperature, oil_temperature, _] = errors;
        let r = (self.of_coefficient)(tenfold(car.set.density).round());
        let coefficient = ((18_696_960_000_000.0 + 4_861_800_000.0 * r) / (r * r)).round();
        let term = |error: f64| (coefficient * error / 10_000.0).round();
        let factor = self.factor(coefficient, above);
        let by_factor = |term: f64| (term * factor / 1_000_000.0).round();
        let terms = [
            capacity,
            level_term,
            by_factor(density),
            by_factor(term(density_temperature)),
            term(oil_temperature),
            processing,
        ];
        terms.iter().map(|term| (term * term) as u64).sum()
    }

    /// G in millionths.
    fn factor(self, coefficient: f64, above: f64) -> f64 {
        let at = |tenths: f64| 10_000_000_000.0 + 2.0 * coefficient * tenths;
        let factor = at(above) / at(150.0);
        (1_000_000.0 * if self.upside_down { 1.0 / factor } else { factor }).round()
    }
}

/// The rows around a level in tenths, the lower pair on a row, or the last where none reach it.
fn pair(rows: &[Row], level: f64, unit: f64) -> &[Row] {
    let reaches = |pair: &&[Row]| level <= unit * f64::from(pair[1].level);
    rows.windows(2).find(reaches).unwrap_or(&rows[rows.len() - 2..])
}

/// Level step and capacity step.
fn steps(rows: &[Row], level: f64, unit: f64) -> [f64; 2] {
    let pair = pair(rows, level, unit);
    [pair[1].level - pair[0].level, pair[1].capacity - pair[0].capacity].map(f64::from)
}

/// In 0.01 dm³, at a level in tenths.
fn capacity(rows: &[Row], level: f64) -> f64 {
    let low = pair(rows, level, 10.0)[0];
    let [level_step, capacity_step] = steps(rows, level, 10.0);
    let above = 10.0 * capacity_step * (level - 10.0 * f64::from(low.level));
    100.0 * f64::from(low.capacity) + (above / level_step).round()
}

fn the_float(car: &ProbeCar, _: f64) -> f64 {
    tenfold(car.set.level)
}

fn cut_to_mm(_: &ProbeCar, level: f64) -> f64 {
    10.0 * (level / 10.0).floor()
}

fn to_the_nearest_mm(_: &ProbeCar, level: f64) -> f64 {
    10.0 * (level / 10.0).round()
}

fn brought_from_20(density: f64) -> f64 {
    let Density15(density) = laboratory::density_at_15(density as u32, 200).expect("a field");
    density.into()
}

const AROUND_THE_FLOAT: Program = Program { around: the_float, ..RULE };

const PROGRAMS: &[(&str, &[Program])] = &[
    ("parting-rows-around-the-float", &[AROUND_THE_FLOAT]),
    ("parting-rows-around-the-float-less-steep-above", &[AROUND_THE_FLOAT]),
    ("parting-rows-around-the-level-cut-to-mm", &[Program { around: cut_to_mm, ..RULE }]),
    ("parting-rows-around-the-nearest-mm", &[Program { around: to_the_nearest_mm, ..RULE }]),
    ("parting-rows-not-times-ten", &[Program { row_unit: 1.0, ..RULE }]),
    ("parting-upper-pair-on-a-row", &[Program { upper_pair: true, ..RULE }]),
    ("parting-volume-at-the-level-cut-to-mm", &[Program { volume_at: cut_to_mm, ..RULE }]),
    ("parting-volume-at-the-nearest-mm", &[Program { volume_at: to_the_nearest_mm, ..RULE }]),
    ("parting-volume-of-the-float", &[Program { volume_at: the_float, ..RULE }]),
    ("parting-level-step-in-tenths", &[Program { level_step_unit: 10.0, ..RULE }]),
    ("parting-level-error-in-mm", &[Program { level_error_unit: 10.0, ..RULE }]),
    ("parting-temperature-and-density-exchanged", &[Program { exchanged: true, ..RULE }]),
    ("parting-tenths-of-the-temperature-cut", &[Program { temperature: cut, ..RULE }]),
    ("parting-temperature-not-rounded", &[Program { above: |float, _| tenfold(float), ..RULE }]),
    ("parting-factor-upside-down", &[Program { upside_down: true, ..RULE }]),
    ("parting-factor-without-temperature", &[Program { above: |_, _| 150.0, ..RULE }]),
    ("parting-density-as-at-20", &[Program { of_coefficient: brought_from_20, ..RULE }]),
    ("parting-tenths-of-the-density-cut", &[Program { density: cut, ..RULE }]),
    ("parting-volume-with-the-water", &[Program { water_unit: 0.0, ..RULE }]),
    (
        "parting-pair-around-the-water-level",
        &[Program { around: |car, _| 10.0 * f64::from(car.water_level), ..RULE }],
    ),
    ("parting-refused-for-a-probe", &[Program { is_answered: false, ..RULE }]),
    ("parting-stick-sets-the-level-term", &[Program { with_wall: true, ..RULE }]),
];

#[test]
fn every_wrong_program_shows_in_its_vector() {
    turns::shows(PROGRAMS, RULE, Program::answer);
}

#[test]
fn by_the_rule_the_answers_are_the_same() {
    for vector in all::<Vector>() {
        let answer = vector.work_out().map_err(Refusal::number);
        let seen = answer.map(|permitted| (permitted.figures, permitted.limit, permitted.within));
        assert_eq!(RULE.answer(&vector), seen, "{}", vector.name);
    }
}

#[test]
fn every_parting_vector_has_a_wrong_program() {
    turns::has_all::<Vector, _>(PROGRAMS, "parting-");
}
