//! A second calculation of a probe's car that can go wrong in a part or two: each wrong program must show
//! in the answer of the vector that is named after it.
//!
//! Readings are held in 2⁻²⁰ of a tenth, so that a program may go on with a float that it has not rounded.

mod conversions;
mod turns;

use reference::car::Figures;
use reference::conformance::vectors::{all, probe_car::Vector};
use reference::laboratory;
use reference::operations::{self, HandedIn};
use reference::probe::ProbeCar;
use reference::refusal::Refusal;
use reference::thermal::Density15;

use conversions::{
    cut, cut_to_whole, half_down, half_to_even, in_hundredths, limit_of_3600, minus_zero_refused,
    negative_as_0, not_times_ten, product_rounded, rounded_up, rule, shortest_text, tenfold,
    to_whole, up_to_whole, Tenths, Way,
};

/// A tenth.
const TENTH: i128 = 1 << 20;

/// Steps of a program beside the refusals 7 to 21: the level, the temperature or the density is read, or
/// 31 is tested of all three.
const LEVEL: u32 = 0;
const TEMPERATURE: u32 = 1;
const DENSITY: u32 = 2;
const ANY_31: u32 = 3;

/// A program; a wrong one is [`RULE`] but for what it names.
#[derive(Clone, Copy, Debug)]
struct Program {
    steps: &'static [u32],
    /// Ways to read level, temperature and density, and the places of the set that they are read of.
    ways: [Way; 3],
    places: [usize; 3],
    /// One of them that is not rounded.
    unrounded: Option<usize>,
    /// What is compared with bounds, of the float and its tenths; the lowest level that passes 16.
    compared: fn(f32, i128) -> i128,
    lowest_level: i128,
    /// The table whose end is compared with the level, by the place of the car's among so many.
    bounded_by: fn(usize, usize) -> usize,
    /// What rows and the water level are multiplied by where they are compared, and the water level where
    /// it is taken off.
    row_unit: i128,
    water_unit: i128,
    water_off: i128,
    level_above_water: bool,
    rounded_once: bool,
    level_unit: i128,
    highest_stick: u32,
    lowest_stick: u32,
    /// c of sticks 1 and 2.
    expansions: [i128; 2],
    /// The lowest temperature of each grade.
    coolest: [i128; 4],
    /// The density that is worked with, of the density and the temperature in tenths.
    density: fn(i128, i128) -> i128,
    /// The density at 20 °C, of the float and its tenths.
    at_20: fn(i128, i128) -> i128,
}

const RULE: Program = Program {
    steps: &[LEVEL, TEMPERATURE, DENSITY, 7, 10, 12, 13, 16, 17, 18, 19, 20, 21],
    ways: [rule; 3],
    places: [0, 1, 2],
    unrounded: None,
    compared: |_, tenths| tenths,
    lowest_level: 1,
    bounded_by: |own, _| own,
    row_unit: 10,
    water_unit: 10,
    water_off: 10,
    level_above_water: false,
    rounded_once: false,
    level_unit: 1,
    lowest_stick: 1,
    highest_stick: 2,
    expansions: [100, 121],
    coolest: [200, 200, 400, 400],
    density: |density, _| density,
    at_20: |_, tenths| at_20(tenths),
};

/// The six figures of a car, or its refusal.
type Seen = Result<[i128; 6], u32>;

fn seen(vector: &Vector) -> Seen {
    let Figures { number, level, volume, volume_at_15, gross, net } =
        vector.work_out().map_err(Refusal::number)?;
    Ok([number, level, volume, volume_at_15, gross, net].map(i128::from))
}

/// A quotient to the nearest whole number, a half going up.
fn nearest(dividend: i128, divisor: i128) -> i128 {
    (2 * dividend + divisor).div_euclid(2 * divisor)
}

/// The float itself.
fn exact(float: f32) -> i128 {
    (tenfold(float) * TENTH as f64) as i128
}

/// E of steps 4 to 6, of a density and of a temperature less 15 °C.
fn contraction(density: i128, degrees: i128) -> i128 {
    const ONE: i128 = 10_000_000_000;
    let sum = 18_696_960_000_000 * TENTH * TENTH + 4_861_800_000 * density * TENTH;
    let product = nearest(nearest(sum, density * density) * degrees, TENTH);
    let exponent = product + nearest(8 * product * product, 10 * ONE);
    let (mut term, mut sum) = (exponent, ONE - exponent);
    for place in 2..=6 {
        term = nearest(term * exponent, place * ONE);
        sum += if place % 2 == 0 { term } else { -term };
    }
    sum
}

/// The density at 20 °C in whole tenths.
fn at_20(density: i128) -> i128 {
    nearest(density * contraction(density, 50 * TENTH), 10_000_000_000 * TENTH)
}

impl Program {
    fn answer(self, vector: &Vector) -> Seen {
        let Vector { tables, car, .. } = vector;
        let set = [car.set.level, car.set.temperature, car.set.density];
        let set = self.places.map(|place| set[place]);
        let mut readings = [0; 3];
        for step in self.steps {
            match *step {
                ANY_31 if set.iter().any(|float| rule(*float) == Err(31)) => return Err(31),
                ANY_31 => {}
                LEVEL..=DENSITY => {
                    let place = *step as usize;
                    readings[place] = i128::from(self.ways[place](set[place])?) * TENTH;
                }
                refusal => self.test(refusal, tables, car, set, readings)?,
            }
        }
        if let Some(place) = self.unrounded {
            readings[place] = exact(set[place]);
        }
        Ok(self.figures(tables, car, readings))
    }

    /// One refusal; 14, 15 and 23 are given where they are tested.
    fn test(
        self,
        refusal: u32,
        tables: &[HandedIn],
        car: &ProbeCar,
        set: [f32; 3],
        readings: [i128; 3],
    ) -> Result<(), u32> {
        let [level, temperature, density] =
            [0, 1, 2].map(|place| (self.compared)(set[place], readings[place]));
        let own = tables.iter().position(|table| table.car_type == car.car_type);
        let grade = car.grade as usize;
        let passes = match refusal {
            7 => return operations::check_tables(tables).map(drop).map_err(Refusal::number),
            10 => (1..=99_999_999).contains(&car.number),
            12 => own.is_some(),
            13 => {
                let sticks = self.lowest_stick..=self.highest_stick;
                (1..=4).contains(&grade) && sticks.contains(&car.stick)
            }
            16 => {
                let of = (self.bounded_by)(own.expect("a table"), tables.len());
                let last = tables[of].rows.last().expect("rows").level;
                let last = self.row_unit * i128::from(last) * TENTH;
                (self.lowest_level..=last).contains(&level)
            }
            17 => self.water_unit * i128::from(car.water_level) * TENTH < level,
            18 => (self.coolest[grade - 1] * TENTH..=900 * TENTH).contains(&temperature),
            19 => (9_000 * TENTH..=9_900 * TENTH).contains(&density),
            20 => {
                let [water, impurities] = [[30, 10], [30, 12], [100, 50], [100, 100]][grade - 1];
                car.water <= water && car.impurities <= impurities
            }
            21 => {
                let at_20 = (self.at_20)(exact(set[2]), readings[2]);
                grade > 2 || at_20 <= [9_550, 9_600][grade - 1]
            }
            _ => false,
        };
        if passes {
            Ok(())
        } else {
            Err(refusal)
        }
    }

    fn figures(self, tables: &[HandedIn], car: &ProbeCar, readings: [i128; 3]) -> [i128; 6] {
        let [level, temperature, density] = readings;
        let water = self.water_off * i128::from(car.water_level) * TENTH;
        let level = if self.level_above_water { level + water } else { level };
        let density = (self.density)(density, temperature);
        let own = tables.iter().find(|table| table.car_type == car.car_type).expect("a table");
        let volume = self.volume(own, level, water);
        let expansion = self.expansions[usize::from(car.stick == 2)];
        let wall = 20_000_000 * TENTH + expansion * (temperature - 200 * TENTH);
        let measured = nearest(volume * wall, 20_000_000 * TENTH);
        let contraction = contraction(density, temperature - 150 * TENTH);
        let volume_at_15 = nearest(measured * contraction, 10_000_000_000);
        let gross = nearest(volume_at_15 * density, 1_000_000 * TENTH);
        let rest = 10_000 - i128::from(car.water + car.impurities);
        let shown = level / TENTH / self.level_unit;
        [car.number.into(), shown, volume, volume_at_15, gross, nearest(gross * rest, 10_000)]
    }

    fn volume(self, table: &HandedIn, level: i128, water: i128) -> i128 {
        let ([above, below], [water_above, water_below]) =
            (capacity(table, level), capacity(table, water));
        if self.rounded_once {
            return nearest(above * water_below - water_above * below, below * water_below);
        }
        nearest(above, below) - nearest(water_above, water_below)
    }
}

/// A hundred times the capacity at a level, as what stands above a line and below it; past the last row it
/// goes on as before.
fn capacity(table: &HandedIn, level: i128) -> [i128; 2] {
    let rows: Vec<[i128; 2]> = table
        .rows
        .iter()
        .map(|row| [10 * TENTH * i128::from(row.level), row.capacity.into()])
        .collect();
    let pair = rows.windows(2).find(|pair| level <= pair[1][0]);
    let pair = pair.unwrap_or(&rows[rows.len() - 2..]);
    let steps = [pair[1][0] - pair[0][0], pair[1][1] - pair[0][1]];
    [100 * (pair[0][1] * steps[0] + steps[1] * (level - pair[0][0])), steps[0]]
}

/// A wrong way for the level, the temperature or the density.
const fn level(way: Way) -> Program {
    Program { ways: [way, rule, rule], ..RULE }
}

const fn temperature(way: Way) -> Program {
    Program { ways: [rule, way, rule], ..RULE }
}

const fn density(way: Way) -> Program {
    Program { ways: [rule, rule, way], ..RULE }
}

const fn unrounded(place: u32) -> Program {
    Program { unrounded: Some(place as usize), ..RULE }
}

/// The mean of readings of the whole mm beside a level.
fn of_readings(float: f32) -> Tenths {
    Ok((cut_to_whole(float)? + up_to_whole(float)?).div_ceil(2))
}

const OF_LEVEL: &[(&str, &[Program])] = &[
    ("parting-level-in-whole-mm", &[level(to_whole)]),
    ("parting-level-in-whole-mm-goes-up", &[level(to_whole)]),
    ("parting-level-cut-to-mm", &[level(cut_to_whole)]),
    ("parting-level-up-to-the-next-mm", &[level(up_to_whole)]),
    ("parting-level-as-two-readings-beside-it", &[level(of_readings)]),
    ("parting-tenths-of-the-level-cut", &[level(cut)]),
    ("parting-tenths-of-the-level-rounded-up", &[level(rounded_up)]),
    ("parting-half-of-the-level-to-even", &[level(half_to_even)]),
    ("parting-half-of-the-level-down", &[level(half_down)]),
    ("parting-level-by-its-shortest-text", &[level(shortest_text)]),
    ("parting-level-not-rounded", &[unrounded(LEVEL)]),
    ("parting-level-in-tenths-already", &[level(not_times_ten)]),
    ("parting-level-in-cm", &[level(in_hundredths)]),
    ("parting-level-shown-in-mm", &[Program { level_unit: 10, ..RULE }]),
    ("parting-product-in-single-floating-point", &[level(product_rounded)]),
    ("parting-water-level-in-tenths", &[Program { water_unit: 1, water_off: 1, ..RULE }]),
    ("parting-water-level-not-taken-off", &[Program { water_off: 0, ..RULE }]),
    ("parting-level-measured-from-the-water", &[Program { level_above_water: true, ..RULE }]),
    ("parting-capacities-rounded-once", &[Program { rounded_once: true, ..RULE }]),
];

/// A density at a temperature, brought to 15 °C.
fn brought_to_15(density: i128, temperature: i128) -> i128 {
    let [density, temperature] = [density, temperature].map(|of| (of / TENTH) as u32);
    let Density15(density) = laboratory::density_at_15(density, temperature).expect("a field");
    i128::from(density) * TENTH
}

const AS_AT_20: Program =
    Program { density: |density, _| brought_to_15(density, 200 * TENTH), ..RULE };
const GIVEN_AT_20: Program = Program { at_20: |_, density| density / TENTH, ..RULE };

const OF_OTHERS: &[(&str, &[Program])] = &[
    ("parting-temperature-and-density-exchanged", &[Program { places: [0, 2, 1], ..RULE }]),
    ("parting-tenths-of-the-temperature-cut", &[temperature(cut)]),
    ("parting-temperature-in-whole-degrees", &[temperature(to_whole)]),
    ("parting-temperature-not-rounded", &[unrounded(TEMPERATURE)]),
    ("parting-half-of-the-temperature-to-even", &[temperature(half_to_even)]),
    ("parting-tenths-of-the-density-cut", &[density(cut)]),
    ("parting-density-in-whole-kilograms", &[density(to_whole)]),
    ("parting-density-not-rounded", &[unrounded(DENSITY)]),
    ("parting-half-of-the-density-to-even", &[density(half_to_even)]),
    ("parting-density-by-its-shortest-text", &[density(shortest_text)]),
    ("parting-density-as-at-20", &[AS_AT_20]),
    ("parting-density-as-at-the-oil-s-temperature", &[Program { density: brought_to_15, ..RULE }]),
    ("parting-density-at-20-compared-as-given", &[GIVEN_AT_20]),
    ("parting-density-at-20-compared-as-given-of-grade-2", &[GIVEN_AT_20]),
    ("parting-stick-ignored", &[Program { expansions: [100; 2], ..RULE }]),
    ("parting-stick-taken-for-aluminium", &[Program { expansions: [121; 2], ..RULE }]),
    ("parting-no-expansion-of-the-wall", &[Program { expansions: [0; 2], ..RULE }]),
    ("parting-stick-not-tested", &[Program { lowest_stick: 0, highest_stick: u32::MAX, ..RULE }]),
    ("parting-stick-3-for-the-probe", &[Program { highest_stick: 3, ..RULE }]),
];

const BY_THE_FLOAT: Program = Program { compared: |float, _| exact(float), ..RULE };
const BY_THE_FLOAT_CUT: Program =
    Program { compared: |float, _| exact(float) / TENTH * TENTH, ..RULE };
const BY_WHOLE: Program = Program { compared: |float, _| exact(float.round()), ..RULE };
const BY_TEXT: Program =
    Program { compared: |float, _| i128::from(shortest_text(float).unwrap_or(0)) * TENTH, ..RULE };
const FROM_1_MM: Program = Program { lowest_level: 10 * TENTH, ..RULE };

const OF_BOUNDS: &[(&str, &[Program])] = &[
    ("parting-last-level-compared-with-the-float", &[BY_THE_FLOAT]),
    ("parting-last-level-compared-with-the-float-cut", &[BY_THE_FLOAT_CUT]),
    ("parting-last-level-compared-with-whole-mm", &[BY_WHOLE]),
    ("parting-last-level-not-times-ten", &[Program { row_unit: 1, ..RULE }]),
    ("parting-level-0-by-the-float", &[BY_THE_FLOAT]),
    ("parting-level-0-by-whole-mm", &[BY_WHOLE]),
    ("parting-levels-below-1-mm-refused", &[FROM_1_MM]),
    ("parting-levels-below-1-mm-refused-at-a-tenth", &[FROM_1_MM]),
    ("parting-water-level-compared-with-the-float", &[BY_THE_FLOAT]),
    ("parting-water-level-compared-with-whole-mm", &[BY_WHOLE]),
    ("parting-water-level-not-times-ten", &[Program { water_unit: 1, ..RULE }]),
    ("parting-temperature-compared-as-a-float", &[BY_THE_FLOAT]),
    ("parting-temperature-compared-as-a-float-above", &[BY_THE_FLOAT]),
    ("parting-temperature-compared-in-whole-degrees", &[BY_WHOLE]),
    ("parting-temperature-without-a-grade", &[Program { coolest: [200; 4], ..RULE }]),
    ("parting-density-compared-as-a-float", &[BY_THE_FLOAT]),
    ("parting-density-compared-as-a-float-above", &[BY_THE_FLOAT]),
    ("parting-density-compared-in-whole-kilograms", &[BY_WHOLE]),
    ("parting-density-at-20-of-the-float", &[Program { at_20: |float, _| at_20(float), ..RULE }]),
    ("parting-density-compared-by-its-shortest-text", &[BY_TEXT]),
    ("parting-bounds-of-the-second-table", &[Program { bounded_by: |_, count| count - 1, ..RULE }]),
    ("parting-bounds-of-the-first-table", &[Program { bounded_by: |_, _| 0, ..RULE }]),
];

const fn of(steps: &'static [u32]) -> Program {
    Program { steps, ..RULE }
}

const AFTER_7: Program = of(&[7, LEVEL, TEMPERATURE, DENSITY, 10, 12, 13, 16, 17, 18, 19, 20, 21]);
const AFTER_10: Program = of(&[7, 10, LEVEL, TEMPERATURE, DENSITY, 12, 13, 16, 17, 18, 19, 20, 21]);
const AFTER_12: Program = of(&[7, 10, 12, LEVEL, TEMPERATURE, DENSITY, 13, 16, 17, 18, 19, 20, 21]);
/// Each float is read where it is tested.
const WHERE_TESTED: Program =
    of(&[LEVEL, 7, 10, 12, 13, 16, 17, TEMPERATURE, 18, DENSITY, 19, 20, 21]);

/// The rule with another refusal directly after 13.
const WITH_14: Program =
    of(&[LEVEL, TEMPERATURE, DENSITY, 7, 10, 12, 13, 14, 16, 17, 18, 19, 20, 21]);
const WITH_15: Program =
    of(&[LEVEL, TEMPERATURE, DENSITY, 7, 10, 12, 13, 15, 16, 17, 18, 19, 20, 21]);
const WITH_23: Program =
    of(&[LEVEL, TEMPERATURE, DENSITY, 7, 10, 12, 13, 23, 16, 17, 18, 19, 20, 21]);

const ANY_31_FIRST: Program =
    of(&[ANY_31, LEVEL, TEMPERATURE, DENSITY, 7, 10, 12, 13, 16, 17, 18, 19, 20, 21]);

/// 0 where 31 is given, and a large number for 32.
fn as_a_number(float: f32) -> Tenths {
    rule(float).or_else(|refusal| Ok(if refusal == 31 { 0 } else { 1_000_000_000 }))
}

const AS_NUMBERS: Program = Program { ways: [as_a_number; 3], ..RULE };

const OF_TESTS: &[(&str, &[Program])] = &[
    ("parting-14-tested", &[WITH_14]),
    ("parting-15-tested", &[WITH_15]),
    ("parting-23-tested", &[WITH_23]),
    ("parting-31-after-12", &[AFTER_12]),
    ("parting-31-after-10", &[AFTER_10]),
    ("parting-31-after-7", &[AFTER_7]),
    ("parting-32-after-7", &[AFTER_7]),
    ("parting-31-of-the-density-after-16", &[WHERE_TESTED]),
    ("parting-32-of-the-density-after-16", &[WHERE_TESTED]),
    ("parting-31-of-the-temperature-after-17", &[WHERE_TESTED]),
    ("parting-31-where-the-temperature-is-tested", &[WHERE_TESTED]),
    ("parting-all-31-before-32", &[ANY_31_FIRST]),
    ("parting-16-for-31", &[AS_NUMBERS]),
    ("parting-16-for-32", &[AS_NUMBERS]),
    ("parting-18-for-31", &[AS_NUMBERS]),
    ("parting-18-for-32", &[AS_NUMBERS]),
    ("parting-19-for-31", &[AS_NUMBERS]),
    ("parting-19-for-32", &[AS_NUMBERS]),
    ("parting-32-for-16", &[level(limit_of_3600)]),
    ("parting-31-for-minus-zero", &[temperature(minus_zero_refused)]),
    ("parting-32-from-3600-mm-on", &[level(limit_of_3600)]),
    ("parting-negative-level-as-0", &[level(negative_as_0)]),
];

fn programs() -> Vec<(&'static str, &'static [Program])> {
    [OF_LEVEL, OF_OTHERS, OF_BOUNDS, OF_TESTS].concat()
}

#[test]
fn every_wrong_program_shows_in_its_vector() {
    turns::shows(&programs(), RULE, Program::answer);
}

#[test]
fn by_the_rule_the_answers_are_the_same() {
    for vector in all::<Vector>() {
        assert_eq!(RULE.answer(&vector), seen(&vector), "{}", vector.name);
    }
}

#[test]
fn every_parting_vector_has_a_wrong_program() {
    turns::has_all::<Vector, _>(&programs(), "parting-");
}
