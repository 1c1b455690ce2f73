//! The longer wrong ways to take a probe's numbers and cars, which the edits name.

use crate::hooks;
use crate::turned::car::Figures;
use crate::turned::laboratory;
use crate::turned::mass;
use crate::turned::probe::{ProbeCar, Reading, Set, SetTenths};
use crate::turned::refusal::Refusal;
use crate::turned::table::{Table, Tables};
use crate::turned::thermal::{self, Density15, Stick};
use crate::turned::train::{Place, Train, CARS};

/// What a reading is: a number of [`hooks::READING`].
pub fn kind(reading: &Reading) -> u32 {
    match reading {
        Reading::Level(_) => hooks::LEVEL,
        Reading::Temperature(_) => hooks::TEMPERATURE,
        Reading::Density(_) => hooks::DENSITY,
    }
}

/// The tenths of the number with these bits, got in another way: refusal 32.
pub fn by(bits: u32, way: fn(f32) -> f64) -> Result<u32, Refusal> {
    limited(way(f32::from_bits(bits)))
}

/// Tenths that were got in another way: refusal 32.
pub fn limited(tenths: f64) -> Result<u32, Refusal> {
    if tenths > 99_999_999.0 {
        Err(Refusal::ProbeTenths)
    } else {
        Ok(tenths as u32)
    }
}

/// The tenths of the number with these bits: refusal 32.
pub fn by_rule(bits: u32) -> Result<u32, Refusal> {
    limited(product(bits).round())
}

/// The tenths by the rule, but 32 by another test of the number and its tenths.
pub fn limit(bits: u32, passes: fn(f32, f64) -> bool) -> Result<u32, Refusal> {
    let tenths = product(bits).round();
    if passes(f32::from_bits(bits), tenths) {
        Ok(tenths as u32)
    } else {
        Err(Refusal::ProbeTenths)
    }
}

/// Ten times the number, without loss.
pub fn product(bits: u32) -> f64 {
    10.0 * f64::from(f32::from_bits(bits))
}

/// The tenths of a number in decimal, by its second digit behind the point.
pub fn of_text(text: &str) -> f64 {
    let (units, digits) = text.split_once('.').unwrap_or((text, ""));
    let digit = |place: usize| digits.as_bytes().get(place).map_or(0, |byte| byte - b'0');
    let units: f64 = units.parse().unwrap_or(0.0);
    10.0 * units + f64::from(digit(0)) + f64::from(u8::from(digit(1) >= 5))
}

/// The tenths of a number in so many digits.
pub fn of_digits(number: f32, digits: usize) -> f64 {
    let rounded = format!("{number:.*e}", digits - 1).parse::<f64>().unwrap_or(0.0);
    of_text(&rounded.to_string())
}

/// Tenths of parts of 65,536.
pub fn of_parts(parts: f64) -> f64 {
    (10.0 * parts / 65_536.0 + 0.5).floor()
}

/// The refusals of a set's numbers, in the order in which they are tested.
fn refusals(set: &Set) -> Vec<Refusal> {
    let level = Reading::Level(set.level).tenths();
    let temperature = Reading::Temperature(set.temperature).tenths();
    let density = Reading::Density(set.density).tenths();
    [level, temperature, density].into_iter().filter_map(Result::err).collect()
}

/// One refusal of any of a set's numbers before the other.
pub fn first_any(set: &Set, refusal: Refusal) -> Result<(), Refusal> {
    if refusals(set).contains(&refusal) {
        Err(refusal)
    } else {
        Ok(())
    }
}

/// The last refusal of a set's numbers.
pub fn last_fault(set: &Set) -> Result<(), Refusal> {
    refusals(set).last().copied().map_or(Ok(()), Err)
}

/// A density that is brought to 15 °C once more, from a temperature in 0.1 °C; as it is where it cannot be.
pub fn brought_again(density: u32, temperature: u32) -> Density15 {
    laboratory::density_at_15(density, temperature).unwrap_or(Density15(density))
}

/// A density brought to 20 °C, where it is in range.
pub fn at_20(density: u32) -> Density15 {
    match density {
        9_000..=9_900 => Density15(thermal::density_at_20(Density15(density)).0),
        _ => Density15(density),
    }
}

/// A set's numbers with two exchanged.
pub fn exchanged(set: SetTenths) -> SetTenths {
    SetTenths { temperature: set.density.0, density: Density15(set.temperature), ..set }
}

/// The car with sound numbers in place of those that 31 or 32 turns away: a level above the water, 60 °C and
/// 950 kg/m³.
fn with_sound_set(car: &ProbeCar) -> ProbeCar {
    let Set { level, temperature, density } = car.set;
    let sound = |reading: Reading, number: f32, instead: f32| match reading.tenths() {
        Ok(_) => number,
        Err(_) => instead,
    };
    let above_water = car.water_level.saturating_add(1) as f32;
    let set = Set {
        level: sound(Reading::Level(level), level, above_water),
        temperature: sound(Reading::Temperature(temperature), temperature, 60.0),
        density: sound(Reading::Density(density), density, 950.0),
    };
    ProbeCar { set, ..*car }
}

/// What a car is answered, alone or in a train.
pub type Answer<'a> = &'a dyn Fn(&ProbeCar) -> Result<Figures, Refusal>;

/// The refusal that a car would have with sound numbers of the probe, if it is from 9 to some number, before
/// its 31 and 32.
pub fn others_first(car: &ProbeCar, upto: u32, answer: Answer) -> Result<(), Refusal> {
    match answer(&with_sound_set(car)) {
        Err(refusal) if (9..=upto).contains(&refusal.number()) => Err(refusal),
        _ => Ok(()),
    }
}

/// 31 and 32 of the temperature after 17, of the density after 18.
pub fn where_used(car: &ProbeCar, answer: Answer) -> Result<(), Refusal> {
    Reading::Level(car.set.level).tenths()?;
    others_first(car, 17, answer)?;
    Reading::Temperature(car.set.temperature).tenths()?;
    others_first(car, 18, answer)
}

/// What a car is answered that is worked out alone.
pub fn alone(tables: &Tables) -> impl Fn(&ProbeCar) -> Result<Figures, Refusal> + '_ {
    |car| car.measured()?.work_out(tables)
}

/// What a car is answered that is entered in a train.
pub fn entered<'a>(
    train: &Train,
    tables: &'a Tables,
) -> impl Fn(&ProbeCar) -> Result<Figures, Refusal> + 'a {
    let train = train.clone();
    move |car| train.clone().enter_measured(&car.measured()?, tables)
}

/// Holds the number of a car that 31 or 32 turned away.
pub fn hold(train: &mut Train, number: u32) {
    if train.held < CARS {
        train.places[train.held] = Place { number, ..Place::default() };
        train.held += 1;
    }
}

/// Holds it where some refusal turned the car away.
pub fn hold_if(
    train: &mut Train,
    car: &ProbeCar,
    tables: &Tables,
    turned_away: fn(Refusal) -> bool,
) -> Result<Figures, Refusal> {
    match car.measured() {
        Err(refusal) if turned_away(refusal) => {
            hold(train, car.number);
            Err(refusal)
        }
        measured => train.enter_measured(&measured?, tables),
    }
}

/// A number of the set at hand in tenths, unrounded, or what a car that was dipped has.
fn unrounded(place: usize, right: f64) -> f64 {
    if hooks::is_by_probe() {
        10.0 * hooks::floats()[place]
    } else {
        right
    }
}

/// The level as it was handed over, in 0.1 mm.
pub fn level(level: u64) -> f64 {
    unrounded(0, level as f64)
}

/// The temperature as it was handed over, in 0.1 °C.
pub fn temperature(temperature: u32) -> f64 {
    unrounded(1, temperature.into())
}

/// The density as it was handed over, in 0.1 kg/m³.
pub fn density(density: u32) -> f64 {
    unrounded(2, density.into())
}

/// What lies between the whole numbers around a number, by what belongs to those.
fn between(number: f64, [low, high]: [u32; 2], of: impl Fn(u32) -> f64) -> f64 {
    let below = (number.floor() as u32).clamp(low, high);
    let above = (below + 1).min(high);
    of(below) + (number - f64::from(below)) * (of(above) - of(below))
}

/// V0 from the level as it was handed over.
pub fn volume(table: Table, level_in_tenths: u64, water_level: u32) -> u64 {
    let highest = 10 * table.last_level();
    let capacity = |level: u32| {
        let (dividend, divisor) = table.fraction(level.into());
        dividend as f64 / divisor as f64
    };
    let capacity = between(level(level_in_tenths), [0, highest], capacity).round() as u64;
    capacity.saturating_sub(table.capacity(10 * u64::from(water_level)))
}

/// V15 from the temperature as it was handed over.
pub fn volume_at_15(volume: u64, stick: Stick, tenths: u32, density: u32) -> u64 {
    let at = |tenths: u32| {
        let measured = thermal::volume_at_temperature(volume, stick, tenths);
        mass::volume_at_15(measured, Density15(density), tenths) as f64
    };
    between(temperature(tenths), [200, 900], at).round() as u64
}

/// Gross from the density as it was handed over.
pub fn gross(volume_at_15: u64, tenths: u32) -> u64 {
    (volume_at_15 as f64 * density(tenths) / 1e6).round() as u64
}
