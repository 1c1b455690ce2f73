//! Ways to take a probe's number, set or car that are not the rule's: each must show at the input beside
//! it. Ways in double floating point that cannot show are named too.

use reference::car::{Car, Figures};
use reference::laboratory;
use reference::operations::{self, HandedIn};
use reference::permitted::Errors;
use reference::probe::{ProbeCar, Reading, Set};
use reference::refusal::Refusal;
use reference::table::Row;
use reference::thermal::Density15;
use reference::train::{Place, Train};

/// The tenths, or the number of the refusal.
type Tenths = Result<u32, u32>;

fn rule(number: f32) -> Tenths {
    Reading::Level(number).tenths().map_err(Refusal::number)
}

fn limited(tenths: u64) -> Tenths {
    if tenths > 99_999_999 {
        Err(32)
    } else {
        Ok(tenths as u32)
    }
}

fn double(number: f32) -> f64 {
    f64::from(number)
}

/// The tenths of a decimal number, which its second digit behind the point rounds.
fn of_text(text: &str) -> u64 {
    let (units, fraction) = text.split_once('.').unwrap_or((text, ""));
    let digits: Vec<u32> = fraction.chars().filter_map(|digit| digit.to_digit(10)).collect();
    let digit = |place: usize| u64::from(digits.get(place).copied().unwrap_or(0));
    10 * units.parse::<u64>().unwrap() + digit(0) + u64::from(digit(1) >= 5)
}

/// A way from a sound number to its tenths.
type Way = fn(f32) -> u64;

/// A way with a number, its tenths by the rule and those by the way.
type Conversion = (&'static str, Way, f32, u32, u32);

const CONVERSIONS: &[Conversion] = &[
    ("single product, rounded", |n| (10.0 * n).round() as u64, 0.35, 3, 4),
    ("single product, rounded", |n| (10.0 * n).round() as u64, 60.05, 600, 601),
    ("single product, rounded", |n| (10.0 * n).round() as u64, 950.05, 9_500, 9_501),
    ("single product, rounded", |n| (10.0 * n).round() as u64, 1_500.35, 15_003, 15_004),
    ("single product and a half", |n| (10.0 * n + 0.5) as u64, 0.049_999_997, 0, 1),
    ("single product and a half, rounded once", |n| n.mul_add(10.0, 0.5) as u64, 0.35, 3, 4),
    ("single quotient by 0.1", |n| (n / 0.1).round() as u64, 0.35, 3, 4),
    ("0.05 added in single", |n| ((n + 0.05) * 10.0) as u64, 100.049_995, 1_000, 1_001),
    (
        "single product of the fraction alone",
        |n| 10 * n as u64 + (10.0 * n.fract()).round() as u64,
        0.45,
        4,
        5,
    ),
    ("double quotient by 0.1 of 0.05 more", |n| ((double(n) + 0.05) / 0.1) as u64, 0.25, 3, 2),
    ("hundredths first", |n| ((100.0 * double(n)).round() as u64 + 5) / 10, 0.046, 0, 1),
    ("whole units first", |n| 10 * n.round() as u64, 1_500.4, 15_004, 15_000),
    ("parts of 65,536", |n| ((65_536.0 * double(n)) as u64 * 10 + 32_768) >> 16, 39.95, 400, 399),
    ("cut off", |n| (10.0 * double(n)) as u64, 0.75, 8, 7),
    ("rounded up", |n| (10.0 * double(n)).ceil() as u64, 0.01, 0, 1),
    ("a half to even", |n| (10.0 * double(n)).round_ties_even() as u64, 0.25, 3, 2),
    ("a half down", |n| (10.0 * double(n) - 0.5).ceil() as u64, 0.75, 8, 7),
    ("shortest text", |n| of_text(&n.to_string()), 0.35, 3, 4),
    ("shortest text", |n| of_text(&n.to_string()), 990.05, 9_900, 9_901),
    ("text of two digits", |n| of_text(&format!("{n:.2}")), 0.046, 0, 1),
    ("text of one digit", |n| of_text(&format!("{n:.1}")), 0.25, 3, 2),
];

#[test]
fn conversions_that_are_not_the_rule_s() {
    for (name, way, number, right, wrong) in CONVERSIONS {
        assert_eq!(rule(*number), Ok(*right), "{name} at {number}");
        assert_eq!(way(*number), u64::from(*wrong), "{name} at {number}");
        assert_ne!(right, wrong);
    }
}

/// Ways that give the rule's tenths for every number that has any. Ten times a number of 24 bits has 28
/// at most, and a half more no lower bit, so that 53 bits hold both; a quotient by the double 0.1 and a
/// sum with 0.05 come back to the half by their own rounding.
const DOUBLES: [(&str, Way); 5] = [
    ("product, rounded", |n| (10.0 * double(n)).round() as u64),
    ("product and a half", |n| (10.0 * double(n) + 0.5) as u64),
    ("quotient by 0.1", |n| (double(n) / 0.1).round() as u64),
    ("product of 0.05 more", |n| (10.0 * (double(n) + 0.05)) as u64),
    ("thousandths cut first", |n| ((1_000.0 * double(n)) as u64 + 50) / 100),
];

/// Every 29th number from 2⁻⁷ to the last that has tenths, and halves with their neighbours. All numbers
/// from 2⁻³¹ on were compared once.
#[test]
fn double_floating_point_does_not_show() {
    let (first, last) = (2_f32.powi(-7).to_bits(), 9_999_999.0_f32.to_bits());
    let halves = (1..1 << 22).step_by(2).map(|quarters| (quarters as f32 / 4.0).to_bits());
    let about = halves.flat_map(|half| [half - 1, half, half + 1]);
    for number in (first..=last).step_by(29).chain(about).map(f32::from_bits) {
        let right = rule(number);
        for (name, way) in DOUBLES {
            assert_eq!(limited(way(number)), right, "{name} at {number}");
        }
    }
}

/// The exact decimal digits: no float has more than 149 behind the point.
#[test]
fn the_text_of_all_digits_does_not_show() {
    for exponent in 0..151 {
        for fraction in (0..1 << 23).step_by(77_773).chain([1, (1 << 23) - 1]) {
            let number = f32::from_bits((exponent << 23) + fraction);
            assert_eq!(limited(of_text(&format!("{number:.149}"))), rule(number), "{number:e}");
        }
    }
    for quarters in (1..1 << 24).step_by(4_094) {
        let number = quarters as f32 / 4.0;
        assert_eq!(limited(of_text(&format!("{number:.149}"))), rule(number), "{number}");
    }
}

fn in_double(number: f32) -> u64 {
    (10.0 * double(number)).round() as u64
}

/// A way with a number that 31 or 32 decides, the answer by the rule and that by the way.
type Refused = (&'static str, fn(f32) -> Tenths, f32, Tenths, Tenths);

const SMALLEST_BELOW_0: f32 = f32::from_bits((1 << 31) + 1);

fn unless(refused: bool, number: f32) -> Tenths {
    if refused {
        Err(31)
    } else {
        limited(in_double(number))
    }
}

/// Negative where ten times the number, rounded, is below zero.
fn below_0_after_rounding(number: f32) -> Tenths {
    let tenths = (10.0 * double(number) + 0.5).floor();
    unless(tenths < 0.0 || !number.is_finite(), number)
}

const REFUSED: &[Refused] = &[
    (
        "minus zero refused",
        |n| unless(n.is_sign_negative() || !n.is_finite(), n),
        -0.0,
        Ok(0),
        Err(31),
    ),
    ("below zero after rounding", below_0_after_rounding, -0.04, Err(31), Ok(0)),
    ("below zero after rounding", below_0_after_rounding, SMALLEST_BELOW_0, Err(31), Ok(0)),
    (
        "below zero from the smallest number with a leading one on",
        |n| unless(n <= -f32::MIN_POSITIVE || !n.is_finite(), n),
        SMALLEST_BELOW_0,
        Err(31),
        Ok(0),
    ),
    ("negative numbers as 0", |n| unless(!n.is_finite(), n), -1.0, Err(31), Ok(0)),
    ("size alone", |n| unless(!n.is_finite(), n.abs()), -1_500.0, Err(31), Ok(15_000)),
    ("not a number as 0", |n| unless(n < 0.0 || n.is_infinite(), n), f32::NAN, Err(31), Ok(0)),
    ("not a number as 0", |n| unless(n < 0.0 || n.is_infinite(), n), -f32::NAN, Err(31), Ok(0)),
    (
        "not a number by 32",
        |n| if n.is_nan() { Err(32) } else { rule(n) },
        f32::NAN,
        Err(31),
        Err(32),
    ),
    ("infinity by 32", |n| unless(n < 0.0 || n.is_nan(), n), f32::INFINITY, Err(31), Err(32)),
    (
        "infinity of either sign by 32",
        |n| if n.is_infinite() { Err(32) } else { rule(n) },
        f32::NEG_INFINITY,
        Err(31),
        Err(32),
    ),
    (
        "the largest exponent by 31",
        |n| if n >= 2_f32.powi(127) { Err(31) } else { rule(n) },
        f32::MAX,
        Err(32),
        Err(31),
    ),
    (
        "limit of 100,000,000",
        |n| if in_double(n) > 100_000_000 { Err(32) } else { Ok(in_double(n) as u32) },
        10_000_000.0,
        Err(32),
        Ok(100_000_000),
    ),
    (
        "limit for the number itself",
        |n| if n > 99_999_999.0 { Err(32) } else { Ok(in_double(n) as u32) },
        10_000_000.0,
        Err(32),
        Ok(100_000_000),
    ),
    (
        "limit of seven digits",
        |n| if in_double(n) > 9_999_999 { Err(32) } else { rule(n) },
        1_000_000.0,
        Ok(10_000_000),
        Err(32),
    ),
    (
        "limit one lower in the floats",
        |n| if n >= 9_999_999.0 { Err(32) } else { rule(n) },
        9_999_999.0,
        Ok(99_999_990),
        Err(32),
    ),
    (
        "held at the limit",
        |n| Ok(in_double(n).min(99_999_999) as u32),
        1e7,
        Err(32),
        Ok(99_999_999),
    ),
    (
        "limit of tenths cut to 32 bits",
        |n| limited(u64::from(in_double(n) as u32)),
        429_496_736.0,
        Err(32),
        Ok(64),
    ),
];

#[test]
fn refusals_of_a_number_that_are_not_the_rule_s() {
    for (name, way, number, right, wrong) in REFUSED {
        assert_eq!(rule(*number), *right, "{name} at {number:e}");
        assert_eq!(way(*number), *wrong, "{name} at {number:e}");
        assert_ne!(right, wrong);
    }
}

/// No number lies between 9,999,999 and 10,000,000, so that it is the same where tenths are compared
/// before they are rounded.
#[test]
fn a_limit_before_rounding_does_not_show() {
    for bits in 9_999_000.0_f32.to_bits()..=16_777_217.0_f32.to_bits() {
        let number = f32::from_bits(bits);
        assert_eq!(rule(number).is_err(), 10.0 * double(number) > 99_999_999.0, "{number}");
    }
}

/// Level, temperature and density in tenths, or the number of the refusal.
type InTenths = Result<[u32; 3], u32>;

fn rule_for_set([level, temperature, density]: [f32; 3]) -> InTenths {
    let tenths = Set { level, temperature, density }.tenths().map_err(Refusal::number)?;
    let Density15(density) = tenths.density;
    Ok([tenths.level, tenths.temperature, density])
}

/// The readings tested in this order.
fn in_order(set: [f32; 3], order: [usize; 3]) -> InTenths {
    let mut tenths = [0; 3];
    for place in order {
        tenths[place] = rule(set[place])?;
    }
    Ok(tenths)
}

/// One refusal tested of all three readings before the other.
fn first(set: [f32; 3], refusal: u32) -> InTenths {
    let is_given = |number: &f32| rule(*number) == Err(refusal);
    if set.iter().any(is_given) {
        return Err(refusal);
    }
    rule_for_set(set)
}

/// All readings but one tested.
fn untested(set: [f32; 3], place: usize) -> InTenths {
    let mut others = set;
    others[place] = 0.0;
    let mut tenths = rule_for_set(others)?;
    tenths[place] = in_double(set[place]) as u32;
    Ok(tenths)
}

/// A set with one reading in whole units.
fn whole(mut set: [f32; 3], place: usize) -> InTenths {
    set[place] = set[place].round();
    rule_for_set(set)
}

type OfSet = (&'static str, fn([f32; 3]) -> InTenths, [f32; 3], InTenths, InTenths);

const PAPER: InTenths = Ok([15_000, 600, 9_500]);

const SETS: &[OfSet] = &[
    ("temperature first", |s| in_order(s, [1, 0, 2]), [1e8, -1.0, 950.0], Err(32), Err(31)),
    ("density first", |s| in_order(s, [2, 0, 1]), [-1.0, 60.0, 1e8], Err(31), Err(32)),
    ("density second", |s| in_order(s, [0, 2, 1]), [1_500.0, 1e8, -1.0], Err(32), Err(31)),
    ("all by 31 first", |s| first(s, 31), [1e8, 60.0, f32::NAN], Err(32), Err(31)),
    ("all by 32 first", |s| first(s, 32), [-1.0, 1e8, 950.0], Err(31), Err(32)),
    ("level untested", |s| untested(s, 0), [-1.0, 60.0, 950.0], Err(31), Ok([0, 600, 9_500])),
    (
        "temperature untested",
        |s| untested(s, 1),
        [1_500.0, f32::NAN, 950.0],
        Err(31),
        Ok([15_000, 0, 9_500]),
    ),
    (
        "density untested",
        |s| untested(s, 2),
        [1_500.0, 60.0, 1e8],
        Err(32),
        Ok([15_000, 600, 1_000_000_000]),
    ),
    ("level in mm", |s| whole(s, 0), [1_500.1, 60.0, 950.0], Ok([15_001, 600, 9_500]), PAPER),
    ("temperature in °C", |s| whole(s, 1), [1_500.0, 60.4, 950.0], Ok([15_000, 604, 9_500]), PAPER),
    ("density in kg/m³", |s| whole(s, 2), [1_500.0, 60.0, 950.4], Ok([15_000, 600, 9_504]), PAPER),
    (
        "temperature and density exchanged",
        |[level, temperature, density]| rule_for_set([level, density, temperature]),
        [1_500.0, 60.0, 950.0],
        PAPER,
        Ok([15_000, 9_500, 600]),
    ),
];

#[test]
fn sets_that_are_not_taken_by_the_rule() {
    for (name, way, set, right, wrong) in SETS {
        assert_eq!(rule_for_set(*set), *right, "{name}");
        assert_eq!(way(*set), *wrong, "{name}");
        assert_ne!(right, wrong);
    }
}

/// A car with the tables and the train that are handed in.
#[derive(Clone)]
struct Asked {
    car: ProbeCar,
    tables: Vec<HandedIn>,
    train: Train,
}

/// The paper's table and first car, by probe, and an empty train.
fn asked() -> Asked {
    let rows = [(0, 0), (1_000, 20_000), (2_000, 50_000), (3_000, 70_000)];
    let rows = rows.map(|(level, capacity)| Row { level, capacity }).to_vec();
    let set = Set { level: 1_500.0, temperature: 60.0, density: 950.0 };
    Asked {
        car: ProbeCar::new([50_000_001, 1, 3, 1, 0, 50, 20], set),
        tables: vec![HandedIn { car_type: 1, announced: 4, rows }],
        train: Train::default(),
    }
}

/// The figures or the number of the refusal, and the train handed back.
type Entered = (Result<Figures, u32>, Train);

fn rule_for_car(asked: &Asked) -> Entered {
    let mut train = asked.train.clone();
    let answer = operations::enter_probe(&mut train, &asked.tables, &asked.car);
    (answer.map_err(Refusal::number), train)
}

/// The rule, but with some of the other refusals before 31 and 32.
fn after(asked: &Asked, before: &[u32]) -> Entered {
    let mut sound = asked.clone();
    sound.car.set = Set { level: 1_500.0, temperature: 60.0, density: 950.0 };
    match rule_for_car(&sound).0 {
        Err(refusal) if before.contains(&refusal) => (Err(refusal), asked.train.clone()),
        _ => rule_for_car(asked),
    }
}

/// The rule, but a number that was turned away by this refusal is held.
fn holding(asked: &Asked, refusal: u32) -> Entered {
    let (answer, mut train) = rule_for_car(asked);
    if answer == Err(refusal) {
        train.places[train.held] = Place { number: asked.car.number, ..Place::default() };
        train.held += 1;
    }
    (answer, train)
}

/// The car dipped, with so many readings of these.
fn dipped(asked: &Asked, given: u32, readings: [u32; 4]) -> Entered {
    let ProbeCar { number, car_type, grade, stick, water_level, water, impurities, set } =
        asked.car;
    let [temperature, density] = [set.temperature, set.density].map(|of| rule(of).unwrap());
    let car = Car {
        number,
        car_type,
        grade,
        stick,
        given,
        readings,
        water_level,
        temperature,
        density,
        water,
        impurities,
    };
    let mut train = asked.train.clone();
    let answer = operations::enter(&mut train, &asked.tables, &car);
    (answer.map_err(Refusal::number), train)
}

/// The car dipped to whole mm.
fn in_mm(asked: &Asked, level: f32) -> Entered {
    dipped(asked, 2, [level as u32, level as u32, 0, 0])
}

/// The density taken for one at the oil temperature and brought to 15 °C once more.
fn brought_to_15_twice(asked: &Asked) -> Entered {
    let mut again = asked.clone();
    let set = &mut again.car.set;
    let [density, temperature] = [set.density, set.temperature].map(|of| rule(of).unwrap());
    let Density15(density) = laboratory::density_at_15(density, temperature).unwrap();
    set.density = density as f32 / 10.0;
    rule_for_car(&again)
}

fn with_stick(asked: &Asked, stick: u32) -> Entered {
    rule_for_car(&Asked { car: ProbeCar { stick, ..asked.car }, ..asked.clone() })
}

/// A way with a change of [`asked`], and what is shown by the rule and by the way: the gross mass in kg or
/// the refusal.
type OfCar = (&'static str, fn(&Asked) -> Entered, fn(&mut Asked), Tenths, Tenths);

const CARS: &[OfCar] = &[
    (
        "7 before 31",
        |asked| after(asked, &[7]),
        |asked| (asked.tables[0].car_type, asked.car.set.level) = (0, -1.0),
        Err(31),
        Err(7),
    ),
    (
        "8 before 32",
        |asked| after(asked, &[8]),
        |asked| (asked.tables[0].rows[3].level, asked.car.set.density) = (2_000, 1e8),
        Err(32),
        Err(8),
    ),
    (
        "9 before 31",
        |asked| after(asked, &[9]),
        |asked| (asked.train.held, asked.car.set.temperature) = (61, f32::INFINITY),
        Err(31),
        Err(9),
    ),
    (
        "10 before 31",
        |asked| after(asked, &[10]),
        |asked| (asked.car.number, asked.car.set.level) = (0, f32::NAN),
        Err(31),
        Err(10),
    ),
    (
        "10 to 13 before 32",
        |asked| after(asked, &[10, 11, 12, 13]),
        |asked| (asked.car.stick, asked.car.set.level) = (3, 1e7),
        Err(32),
        Err(13),
    ),
    (
        "steel always",
        |asked| with_stick(asked, 1),
        |asked| asked.car.stick = 2,
        Ok(32_242),
        Ok(32_229),
    ),
    (
        "stick untested",
        |asked| with_stick(asked, 1),
        |asked| asked.car.stick = 3,
        Err(13),
        Ok(32_229),
    ),
    ("14 without readings", |asked| dipped(asked, 0, [0; 4]), |_| {}, Ok(32_229), Err(14)),
    (
        "15 for readings around the level",
        |asked| dipped(asked, 2, [1_499, 1_501, 0, 0]),
        |_| {},
        Ok(32_229),
        Err(15),
    ),
    (
        "level cut to mm",
        |asked| in_mm(asked, asked.car.set.level),
        |asked| asked.car.set.level = 1_500.9,
        Ok(32_254),
        Ok(32_229),
    ),
    (
        "level to the nearest mm",
        |asked| in_mm(asked, asked.car.set.level.round()),
        |asked| asked.car.set.level = 1_500.4,
        Ok(32_240),
        Ok(32_229),
    ),
    (
        "16 by the level in mm",
        |asked| in_mm(asked, asked.car.set.level.round()),
        |asked| asked.car.set.level = 3_000.05,
        Err(16),
        Ok(64_458),
    ),
    (
        "16 for a level below 1 mm",
        |asked| in_mm(asked, asked.car.set.level),
        |asked| asked.car.set.level = 0.9,
        Ok(17),
        Err(16),
    ),
    (
        "17 by the level in mm",
        |asked| in_mm(asked, asked.car.set.level),
        |asked| (asked.car.set.level, asked.car.water_level) = (1_500.05, 1_500),
        Ok(3),
        Err(17),
    ),
    ("density brought to 15 °C twice", brought_to_15_twice, |_| {}, Ok(32_229), Ok(33_316)),
];

#[test]
fn cars_that_are_not_entered_by_the_rule() {
    for (name, way, change, right, wrong) in CARS {
        let mut asked = asked();
        change(&mut asked);
        let shown = |(answer, _): Entered| answer.map(|figures| figures.gross);
        assert_eq!(shown(rule_for_car(&asked)), *right, "{name}");
        assert_eq!(shown(way(&asked)), *wrong, "{name}");
        assert_ne!(right, wrong);
    }
}

/// The number of a car that 31 or 32 turned away may be used again.
#[test]
fn a_number_that_is_held_shows() {
    for (refusal, level) in [(31, -1.0), (32, 1e7)] {
        let mut asked = asked();
        asked.car.set.level = level;
        let (answer, train) = rule_for_car(&asked);
        assert_eq!((answer, &train), (Err(refusal), &asked.train));
        let (answer, held) = holding(&asked, refusal);
        assert_eq!((answer, held.held), (Err(refusal), 1));
        asked.car.set.level = 1_500.0;
        let again = |train| rule_for_car(&Asked { train, ..asked.clone() }).0;
        assert_eq!(again(train).map(|figures| figures.gross), Ok(32_229));
        assert_eq!(again(held), Err(11));
    }
}

/// 24 before 31, and before the car's refusals.
#[test]
fn errors_tested_before_the_set_show() {
    let errors = Errors { oil_temperature: 21, ..Errors::default() };
    let ask = |level, number| {
        let mut asked = asked();
        (asked.car.set.level, asked.car.number) = (level, number);
        operations::permitted_error_probe(&asked.tables, &asked.car, &errors).unwrap_err().number()
    };
    assert_eq!([ask(f32::NAN, 0), ask(1e8, 0), ask(1_500.0, 0), ask(1_500.0, 1)], [31, 32, 10, 24]);
}
