//! One car: its fields, the refusals 10, 12 to 21 and 23, and its six figures.
//!
//! What is tested and worked out behind the readings stands once, in `Measured`, for a dipped car
//! and for a probe's.

use std::ops::RangeInclusive;

use crate::level::{in_tenths, Taken};
use crate::mass;
use crate::refusal::{ensure, Refusal};
use crate::table::Tables;
use crate::thermal::{self, Density15, Density20, Stick};

/// Fields of a car's line.
pub const FIELDS: usize = 14;

/// Grades of fuel oil, numbered from 1: Ф5, Ф12, 40 and 100.
pub const GRADES: usize = 4;

const NUMBERS: RangeInclusive<u32> = 1..=99_999_999;
const DENSITIES: RangeInclusive<u32> = 9_000..=9_900;

/// What a grade of fuel oil is held to.
struct Grade {
    /// Oil temperatures, in 0.1 °C.
    temperatures: RangeInclusive<u32>,
    /// Highest water and impurities, in 0.01 %.
    water: u32,
    impurities: u32,
    /// Highest density at 20 °C.
    density: Option<Density20>,
}

/// The limits of each grade.
const LIMITS: [Grade; GRADES] = [
    Grade { temperatures: 200..=900, water: 30, impurities: 10, density: Some(Density20(9_550)) },
    Grade { temperatures: 200..=900, water: 30, impurities: 12, density: Some(Density20(9_600)) },
    Grade { temperatures: 400..=900, water: 100, impurities: 50, density: None },
    Grade { temperatures: 400..=900, water: 100, impurities: 100, density: None },
];

/// A car as the sheet gives it.
#[derive(Clone, Copy, Debug, Default, PartialEq, Eq)]
pub struct Car {
    pub number: u32,
    pub car_type: u32,
    pub grade: u32,
    pub stick: u32,
    /// How many readings are given.
    pub given: u32,
    /// Readings of the level, in mm.
    pub readings: [u32; 4],
    /// Water level, in mm.
    pub water_level: u32,
    /// Oil temperature, in 0.1 °C.
    pub temperature: u32,
    /// Density at 15 °C, in 0.1 kg/m³.
    pub density: u32,
    /// Water and impurities, in 0.01 %.
    pub water: u32,
    pub impurities: u32,
}

impl From<[u32; FIELDS]> for Car {
    fn from(fields: [u32; FIELDS]) -> Self {
        let [number, car_type, grade, stick, given, rest @ ..] = fields;
        let [a, b, c, d, water_level, temperature, density, water, impurities] = rest;
        Self {
            number,
            car_type,
            grade,
            stick,
            given,
            readings: [a, b, c, d],
            water_level,
            temperature,
            density,
            water,
            impurities,
        }
    }
}

impl From<Car> for [u32; FIELDS] {
    fn from(car: Car) -> Self {
        let [a, b, c, d] = car.readings;
        [
            car.number,
            car.car_type,
            car.grade,
            car.stick,
            car.given,
            a,
            b,
            c,
            d,
            car.water_level,
            car.temperature,
            car.density,
            car.water,
            car.impurities,
        ]
    }
}

/// The six figures of an accepted car.
#[derive(Clone, Copy, Debug, PartialEq, Eq)]
pub struct Figures {
    pub number: u32,
    /// Mean level, in 0.1 mm.
    pub level: u32,
    /// V0 and V15, in 0.01 dm³.
    pub volume: u32,
    pub volume_at_15: u32,
    /// Masses, in kg.
    pub gross: u32,
    pub net: u32,
}

/// A car as it is worked out, be it dipped or a probe's.
#[derive(Clone, Copy, Debug)]
pub(crate) struct Measured {
    pub(crate) number: u32,
    pub(crate) car_type: u32,
    pub(crate) grade: u32,
    pub(crate) stick: u32,
    pub(crate) level: Taken,
    /// Water level, in mm.
    pub(crate) water_level: u32,
    /// Oil temperature, in 0.1 °C.
    pub(crate) temperature: u32,
    /// Density at 15 °C, in 0.1 kg/m³.
    pub(crate) density: u32,
    /// Water and impurities, in 0.01 %.
    pub(crate) water: u32,
    pub(crate) impurities: u32,
}

impl From<&Car> for Measured {
    fn from(car: &Car) -> Self {
        Self {
            number: car.number,
            car_type: car.car_type,
            grade: car.grade,
            stick: car.stick,
            level: Taken::Dipped { given: car.given, readings: car.readings },
            water_level: car.water_level,
            temperature: car.temperature,
            density: car.density,
            water: car.water,
            impurities: car.impurities,
        }
    }
}

impl Car {
    /// The car worked out alone: refusals 10, 12 to 21 and 23, then its figures.
    pub fn work_out(&self, tables: &Tables) -> Result<Figures, Refusal> {
        Measured::from(self).work_out(tables)
    }

    /// Refusal 10.
    pub fn check_number(&self) -> Result<(), Refusal> {
        Measured::from(self).check_number()
    }
}

impl Measured {
    /// The car worked out alone: refusals 10, 12, 13, those of its level, and 16 to 21, then its
    /// figures.
    pub(crate) fn work_out(&self, tables: &Tables) -> Result<Figures, Refusal> {
        self.check_number()?;
        self.figures(tables)
    }

    /// Refusal 10.
    pub(crate) fn check_number(&self) -> Result<(), Refusal> {
        ensure(NUMBERS.contains(&self.number), Refusal::CarNumber)
    }

    /// Refusals 12, 13, those of its level, and 16 to 21, then the figures.
    pub(crate) fn figures(&self, tables: &Tables) -> Result<Figures, Refusal> {
        let table = tables.find(self.car_type).ok_or(Refusal::Type)?;
        let grade = self.grade().ok_or(Refusal::GradeOrStick)?;
        let stick = Stick::numbered(self.stick).ok_or(Refusal::GradeOrStick)?;
        let level = self.level.mean()?;
        ensure(level <= in_tenths(table.last_level()), Refusal::Level)?;
        ensure(in_tenths(self.water_level) < level, Refusal::WaterLevel)?;
        ensure(grade.temperatures.contains(&self.temperature), Refusal::Temperature)?;
        ensure(DENSITIES.contains(&self.density), Refusal::Density15)?;
        ensure(
            self.water <= grade.water && self.impurities <= grade.impurities,
            Refusal::WaterOrImpurities,
        )?;
        let density = Density15(self.density);
        if let Some(highest) = grade.density {
            ensure(thermal::density_at_20(density) <= highest, Refusal::Density20)?;
        }

        let volume = table.capacity(level) - table.capacity(in_tenths(self.water_level));
        let measured = thermal::volume_at_temperature(volume, stick, self.temperature);
        let volume_at_15 = mass::volume_at_15(measured, density, self.temperature);
        let gross = mass::gross(volume_at_15, density);
        let net = mass::net(gross, self.water, self.impurities);
        Ok(Figures {
            number: self.number,
            level: level as u32,
            volume: volume as u32,
            volume_at_15: volume_at_15 as u32,
            gross: gross as u32,
            net: net as u32,
        })
    }

    fn grade(&self) -> Option<&'static Grade> {
        let place = self.grade.checked_sub(1)?;
        LIMITS.get(place as usize)
    }
}
