//! Trains that nothing is wrong with: what their held cars make, up to all limits.

use reference::train::{Place, Totals, Train, CARS};

/// The largest total of a train, in kg.
pub const MOST_KG: u32 = 12_000_000;

/// The number in the first place of a train of [`trains`] that holds a car.
pub const HELD: u32 = 7;

/// Grades that cars hold in turn, refused ones (0) among them.
const GRADES_IN_TURN: [u32; 9] = [4, 0, 1, 3, 2, 0, 0, 1, 4];

/// The train that some cars make, up to sixty; the other places are the empty train's.
pub fn made(cars: &[Place]) -> Train {
    let mut train = Train { held: cars.len(), ..Train::default() };
    train.places[..cars.len()].copy_from_slice(cars);
    remake(&mut train);
    train
}

/// Gives a train the totals that its held cars make.
pub fn remake(train: &mut Train) {
    let empty = Train::default();
    (train.all, train.grades) = (empty.all, empty.grades);
    for car in train.places.iter().take(train.held).filter(|car| car.grade > 0) {
        add(&mut train.all, car);
        if let Some(totals) = train.grades.get_mut(car.grade as usize - 1) {
            add(totals, car);
        }
    }
}

fn add(totals: &mut Totals, car: &Place) {
    totals.accepted += 1;
    totals.gross += u64::from(car.gross);
    totals.net += u64::from(car.net);
}

/// So many cars, refused ones and such of all grades among them, each with a number and masses of its own.
pub fn cars(count: usize) -> Vec<Place> {
    let car = |place: u32| {
        let grade = GRADES_IN_TURN[place as usize % GRADES_IN_TURN.len()];
        let (gross, net) =
            if grade == 0 { (0, 0) } else { (40_000 + 701 * place, 39_000 + 683 * place) };
        Place { number: number(place), grade, gross, net }
    };
    (0..count as u32).map(car).collect()
}

fn number(place: u32) -> u32 {
    HELD + 1_600_001 * place
}

/// So many cars of one grade, alike but for their numbers.
pub fn alike(count: u32, grade: u32, gross: u32, net: u32) -> Vec<Place> {
    (0..count).map(|place| Place { number: number(place), grade, gross, net }).collect()
}

/// The same train with a held number, a grade and masses in the places behind its cars, and masses
/// beside its refused ones: none of it counts.
fn with_more_behind(train: &Train) -> Train {
    let mut other = train.clone();
    for (place, behind) in other.places.iter_mut().enumerate().skip(train.held) {
        let grade = [1, 0, 5, u32::MAX][place % 4];
        *behind = Place { number: HELD + place as u32 % 2, grade, gross: 1, net: u32::MAX };
    }
    for refused in other.places.iter_mut().take(train.held).filter(|car| car.grade == 0) {
        (refused.gross, refused.net) = (u32::MAX, 5);
    }
    other
}

/// Numbers that no car can bear, which a train handed in may hold, an accepted car's and a refused one's.
fn with_odd_numbers() -> Vec<Place> {
    let mut cars = cars(9);
    for (car, number) in cars[1..].iter_mut().zip([0, 100_000_000, 4_000_000_000, u32::MAX]) {
        car.number = number;
    }
    cars
}

/// Sound trains: empty, of one car, of some, of fifty-nine and of sixty, of refused cars alone, without
/// mass, with totals of exactly 12,000,000 kg; each also with more in the places that do not count.
pub fn trains() -> Vec<Train> {
    let each = MOST_KG / CARS as u32;
    let mut trains: Vec<Train> = [
        Vec::new(),
        alike(1, 3, 32_229, 32_003),
        alike(1, 0, 0, 0),
        cars(9),
        with_odd_numbers(),
        alike(3, 1, 0, 0),
        alike(1, 4, MOST_KG, MOST_KG),
        cars(59),
        cars(CARS),
        alike(60, 0, 0, 0),
        alike(60, 2, each, each),
    ]
    .iter()
    .map(|cars| made(cars))
    .collect();
    let others = trains.iter().map(with_more_behind).filter(|other| !trains.contains(other));
    trains.extend(others.collect::<Vec<_>>());
    trains
}
