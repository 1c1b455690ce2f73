//! One of two sheets to be merged, before it is written: its tables and its history, and how it is filled
//! so that it holds so many cars in the end.

use super::super::cars;
use super::super::draft::Draft;
use super::super::history::History;
use super::super::random::Random;
use super::super::tables::Table;
use crate::car::Car;
use crate::sheet::{CAR_LINES, STRIKE_LINES};
use crate::train::CARS;

/// C lines and K lines that are left for what is put in later.
const SPARE: usize = 4;

/// Where the train was full in between, so many are held at least, so that strikes suffice.
const FILLED: usize = 15;

pub struct Half {
    pub tables: Vec<Table>,
    pub history: History,
}

impl Half {
    /// A sheet that holds so many cars in the end, of all kinds. Some are struck before, and at times the
    /// train was full in between.
    pub fn draw(random: &mut Random, tables: Vec<Table>, held: usize) -> Self {
        let (cars, strikes) = match random.below(8) {
            0 | 1 => (0, 0),
            2..=5 => (random.below(12), random.below(6)),
            6 | 7 if held >= FILLED => (CARS + 10 + random.below(12), random.below(10)),
            _ => (random.below(40), random.below(15)),
        };
        let history = History::draw(random, &tables, cars, strikes);
        let mut half = Self { tables, history };
        while half.history.held.len() > held && half.history.strikes() + SPARE < STRIKE_LINES {
            half.history.strike_any(random);
        }
        while half.history.held.len() < held && half.history.cars() + SPARE < CAR_LINES {
            half.history.add_car(random, &half.tables);
        }
        if held == CARS {
            (0..random.below(SPARE)).for_each(|_| half.history.add_car(random, &half.tables));
        }
        half
    }

    /// A sound car with a number of its own, which is not entered yet.
    pub fn fresh_car(&self, random: &mut Random) -> Car {
        let mut car = cars::draw(random, &self.tables);
        while self.history.names(car.number) {
            car.number = random.between(1, 99_999_999);
        }
        car
    }

    /// Enters a car so that it is held, in the place of another where sixty are.
    pub fn hold(&mut self, random: &mut Random, car: Car) {
        if self.history.held.contains(&car.number) {
            self.history.strike(car.number);
        } else if self.history.held.len() == CARS {
            self.history.strike_any(random);
        }
        self.history.enter(car);
    }

    pub fn has(&self, car_type: u32) -> bool {
        self.tables.iter().any(|table| table.car_type == car_type)
    }

    /// The types of another sheet that this one does not have.
    pub fn lacking(&self, other: &Self) -> Vec<u32> {
        let types = other.tables.iter().map(|table| table.car_type);
        types.filter(|&car_type| !self.has(car_type)).collect()
    }

    /// Numbers that are on the sheet and that it does not hold in the end.
    pub fn vanished(&self) -> Vec<u32> {
        let History { struck, turned_away, held, .. } = &self.history;
        let numbers = struck.iter().chain(turned_away).copied();
        numbers.filter(|number| *number > 0 && !held.contains(number)).collect()
    }

    pub fn draft(self) -> Draft {
        Draft { tables: self.tables, events: self.history.events, end: None }
    }
}
