//! Drawing the lines of cars and strikes: what is held, what was struck and what was turned away are
//! kept in mind, so that strikes and further cars meet them.

use super::cars;
use super::random::Random;
use super::tables::Table;
use crate::car::Car;
use crate::sheet::Event;
use crate::train::CARS;

/// Lines drawn so far, and the car numbers on them.
#[derive(Default)]
pub struct History {
    pub events: Vec<Event>,
    /// The numbers of all C lines.
    entered: Vec<u32>,
    /// The numbers that the train holds, of accepted cars and of refused ones.
    pub held: Vec<u32>,
    /// The numbers that were struck, also those that were entered again.
    pub struck: Vec<u32>,
    /// The numbers of cars that met a train of sixty.
    pub turned_away: Vec<u32>,
}

impl History {
    /// So many cars of all kinds and so many strikes, mixed. At times, where there are enough cars, the
    /// first ones fill the train before a strike comes.
    pub fn draw(random: &mut Random, tables: &[Table], cars: usize, strikes: usize) -> Self {
        let mut history = Self::default();
        let mut fills = cars > CARS && random.one_in(2);
        let (mut cars, mut strikes) = (cars, strikes);
        while cars + strikes > 0 {
            fills &= history.held.len() < CARS && cars > 0;
            if !fills && random.below(cars + strikes) < strikes {
                history.add_strike(random);
                strikes -= 1;
            } else if cars > 0 {
                history.add_car(random, tables);
                cars -= 1;
            }
        }
        history
    }

    /// A car of any kind, which often takes the number of a struck one.
    pub fn add_car(&mut self, random: &mut Random, tables: &[Table]) {
        let mut car = cars::draw(random, tables);
        if !self.struck.is_empty() && random.one_in(3) {
            car.number = random.pick(&self.struck);
        }
        if random.one_in(3) {
            cars::spoil(random, &mut car, tables, &self.entered);
        }
        self.enter(car);
    }

    /// A car line.
    pub fn enter(&mut self, car: Car) {
        self.entered.push(car.number);
        if self.held.len() == CARS {
            self.turned_away.push(car.number);
        } else if car.check_number().is_ok() && !self.held.contains(&car.number) {
            self.held.push(car.number);
        }
        self.events.push(Event::Enter(car));
    }

    /// A strike, mostly of a car that is held.
    fn add_strike(&mut self, random: &mut Random) {
        let of = |random: &mut Random, numbers: &[u32]| match numbers {
            [] => cars::draw_number(random),
            _ => random.pick(numbers),
        };
        let number = match random.below(12) {
            0..=5 => of(random, &self.held),
            6 => self.held.last().copied().unwrap_or_default(),
            7 | 8 => of(random, &self.struck),
            9 => of(random, &self.turned_away),
            10 => cars::draw_number(random),
            _ => 0,
        };
        self.strike(number);
    }

    /// A strike of one of the cars held; its number.
    pub fn strike_any(&mut self, random: &mut Random) -> u32 {
        let number = random.pick(&self.held);
        self.strike(number);
        number
    }

    pub fn strike(&mut self, number: u32) {
        if let Some(place) = self.held.iter().position(|&held| held == number) {
            self.held.remove(place);
            self.struck.push(number);
        }
        self.events.push(Event::Strike(number));
    }

    /// Gives a number's lines another number, which stands on none.
    pub fn renumber(&mut self, old: u32, new: u32) {
        for event in &mut self.events {
            match event {
                Event::Enter(car) if car.number == old => car.number = new,
                Event::Strike(number) if *number == old => *number = new,
                _ => {}
            }
        }
        let lists = [&mut self.entered, &mut self.held, &mut self.struck, &mut self.turned_away];
        for number in lists.into_iter().flatten().filter(|number| **number == old) {
            *number = new;
        }
    }

    /// Whether a line has the number.
    pub fn names(&self, number: u32) -> bool {
        self.events.iter().any(|event| match event {
            Event::Enter(car) => car.number == number,
            Event::Strike(struck) => *struck == number,
        })
    }

    /// How many C lines there are.
    pub fn cars(&self) -> usize {
        self.entered.len()
    }

    /// How many K lines there are.
    pub fn strikes(&self) -> usize {
        self.events.len() - self.entered.len()
    }
}
