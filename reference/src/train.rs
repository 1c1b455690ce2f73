//! The running train: the cars that it holds, and the count and total masses of the accepted ones,
//! of all grades and of each.

use crate::car::{Car, Figures, Measured, GRADES};
use crate::probe::ProbeCar;
use crate::refusal::{ensure, Refusal};
use crate::table::Tables;

/// Cars that a train holds at once, at most.
pub const CARS: usize = 60;

/// No train's total passes this many kg.
const LARGEST_TOTAL: u64 = 12_000_000;

/// Accepted cars and their total masses.
#[derive(Clone, Copy, Debug, Default, PartialEq, Eq)]
pub struct Totals {
    pub accepted: u32,
    /// Total masses, in kg.
    pub gross: u64,
    pub net: u64,
}

impl Totals {
    fn add(&mut self, car: &Place) {
        self.accepted += 1;
        self.gross += u64::from(car.gross);
        self.net += u64::from(car.net);
    }

    fn subtract(&mut self, car: &Place) {
        self.accepted -= 1;
        self.gross -= u64::from(car.gross);
        self.net -= u64::from(car.net);
    }
}

/// A held car; grade 0 is a car that was refused, whose masses are not looked at.
#[derive(Clone, Copy, Debug, Default, PartialEq, Eq)]
pub struct Place {
    pub number: u32,
    pub grade: u32,
    /// Masses, in kg.
    pub gross: u32,
    pub net: u32,
}

impl Place {
    fn is_accepted(&self) -> bool {
        self.grade > 0
    }
}

/// A train, of which nothing is taken for granted where a caller hands it in. `Train::default()` is
/// the empty one.
#[derive(Clone, Debug, PartialEq, Eq)]
pub struct Train {
    /// Totals of all accepted cars.
    pub all: Totals,
    /// Totals of the accepted cars of each grade, from 1 to 4.
    pub grades: [Totals; GRADES],
    /// How many cars it holds, accepted and refused.
    pub held: usize,
    /// The cars that it holds, in the first `held` places, in the order in which they were entered.
    pub places: [Place; CARS],
}

impl Default for Train {
    fn default() -> Self {
        let none = Totals::default();
        Self { all: none, grades: [none; GRADES], held: 0, places: [Place::default(); CARS] }
    }
}

impl Train {
    /// Works out a car and enters it: its number if it can be told from those held, its grade and
    /// masses if it is accepted. Refusals 9 to 21 and 23.
    pub fn enter(&mut self, car: &Car, tables: &Tables) -> Result<Figures, Refusal> {
        self.enter_measured(&Measured::from(car), tables)
    }

    /// Works out a probe's car and enters it in the same way: refusals 31 and 32, which leave the train
    /// as it is, then 9 to 13 and 16 to 21.
    pub fn enter_probe(&mut self, car: &ProbeCar, tables: &Tables) -> Result<Figures, Refusal> {
        self.enter_measured(&car.measured()?, tables)
    }

    /// Enters a car, be it dipped or a probe's.
    pub(crate) fn enter_measured(
        &mut self,
        car: &Measured,
        tables: &Tables,
    ) -> Result<Figures, Refusal> {
        ensure(self.is_sound(), Refusal::Count)?;
        self.enter_sound(car, tables)
    }

    /// Takes the car with a number out of the train: refusals 9 and 30.
    pub fn strike(&mut self, number: u32) -> Result<(), Refusal> {
        ensure(self.is_sound(), Refusal::Count)?;
        self.strike_sound(number)
    }

    /// Enters a car where the train is known to be sound. Of refusal 9, sixty numbers are still tested.
    pub(crate) fn enter_sound(
        &mut self,
        car: &Measured,
        tables: &Tables,
    ) -> Result<Figures, Refusal> {
        ensure(self.held < CARS, Refusal::Count)?;
        car.check_number()?;
        ensure(self.place_of(car.number).is_none(), Refusal::CarTwice)?;

        let worked_out = car.figures(tables);
        let mut place = Place { number: car.number, ..Place::default() };
        if let Ok(Figures { gross, net, .. }) = worked_out {
            place = Place { grade: car.grade, gross, net, ..place };
            self.all.add(&place);
            self.grades[place.grade as usize - 1].add(&place);
        }
        self.places[self.held] = place;
        self.held += 1;
        worked_out
    }

    /// Strikes a number where the train is known to be sound. The places behind it move up by one, all
    /// sixty of them, and the last becomes empty.
    pub(crate) fn strike_sound(&mut self, number: u32) -> Result<(), Refusal> {
        let gap = self.place_of(number).ok_or(Refusal::NotHeld)?;
        let struck = self.places[gap];
        if struck.is_accepted() {
            self.all.subtract(&struck);
            self.grades[struck.grade as usize - 1].subtract(&struck);
        }
        self.places.copy_within(gap + 1.., gap);
        self.places[CARS - 1] = Place::default();
        self.held -= 1;
        Ok(())
    }

    /// The place of a number among those held, of a train that holds sixty at most.
    fn place_of(&self, number: u32) -> Option<usize> {
        self.places[..self.held].iter().position(|place| place.number == number)
    }

    /// Whether the train is within its limits and is what its held cars make. If not, it answers cars
    /// and strikes with 9.
    fn is_sound(&self) -> bool {
        let Some(held) = self.places.get(..self.held) else { return false };
        self.is_within_limits() && !has_a_number_twice(held) && self.is_made_by(held)
    }

    fn is_within_limits(&self) -> bool {
        self.all.accepted as usize <= CARS && self.all.gross.max(self.all.net) <= LARGEST_TOTAL
    }

    /// Whether count and totals, of all and of each grade, are those of the accepted cars among these,
    /// sixty at most, and those of all are the sums of the grades'. A car of a grade above 4 counts in
    /// all and in no grade, so that no totals fit it.
    fn is_made_by(&self, held: &[Place]) -> bool {
        let (mut all, mut grades) = (Totals::default(), [Totals::default(); GRADES]);
        for car in held.iter().filter(|car| car.is_accepted()) {
            all.add(car);
            if let Some(grade) = grades.get_mut(car.grade as usize - 1) {
                grade.add(car);
            }
        }
        self.all == all && self.grades == grades && self.adds_up()
    }

    /// Whether the totals of all are the sums of the grades', which 128 bits hold whatever is
    /// handed in.
    fn adds_up(&self) -> bool {
        let is_sum = |part: fn(&Totals) -> u128| {
            let sum: u128 = self.grades.iter().map(part).sum();
            sum == part(&self.all)
        };
        is_sum(|totals| totals.accepted.into())
            && is_sum(|totals| totals.gross.into())
            && is_sum(|totals| totals.net.into())
    }
}

fn has_a_number_twice(held: &[Place]) -> bool {
    let stands_before =
        |place: usize| held[..place].iter().any(|earlier| earlier.number == held[place].number);
    (0..held.len()).any(stands_before)
}
