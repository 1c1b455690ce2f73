//! Wrong ways to enter a probe's car in a train that is handed in: each must show in the answer of the
//! vector that is named after it, or in the train that is handed back. The figures are the package's.

mod turns;

use reference::car::Figures;
use reference::conformance::vectors::{all, probe_train::Vector};
use reference::operations;
use reference::probe::{ProbeCar, Set};
use reference::refusal::Refusal;
use reference::train::{Place, Totals, Train};

/// What a caller sees: the figures or the refusal, and the train.
type Seen = (Result<Figures, u32>, Train);

type Way = fn(&Vector) -> Seen;

fn rule(vector: &Vector) -> Seen {
    let (answer, train) = vector.work_out();
    (answer.map_err(Refusal::number), train)
}

/// The rule for another car.
fn with_car(vector: &Vector, car: ProbeCar) -> Seen {
    rule(&Vector { car, ..vector.clone() })
}

/// The place that a car takes.
fn free(vector: &Vector) -> usize {
    vector.train.held
}

/// The rule, but the train is changed further where the car gets this refusal.
fn at(vector: &Vector, refusal: u32, change: fn(&mut Train, &Vector)) -> Seen {
    let (answer, mut train) = rule(vector);
    if answer == Err(refusal) {
        change(&mut train, vector);
    }
    (answer, train)
}

fn hold_number(train: &mut Train, vector: &Vector) {
    train.places[train.held] = Place { number: vector.car.number, ..Place::default() };
    train.held += 1;
}

/// A refusal given as 16, with the number held.
fn as_16(vector: &Vector, refusal: u32) -> Seen {
    let (answer, train) = at(vector, refusal, hold_number);
    (if answer == Err(refusal) { Err(16) } else { answer }, train)
}

/// The rule with these refusals before 31 and 32; a level that has neither is looked at.
fn after(vector: &Vector, before: &[u32]) -> Seen {
    let mut sound = Set { level: 1_500.0, temperature: 60.0, density: 950.0 };
    if (0.0..1e7).contains(&vector.car.set.level) {
        sound.level = vector.car.set.level;
    }
    let (answer, train) = with_car(vector, ProbeCar { set: sound, ..vector.car });
    match answer {
        Err(refusal) if before.contains(&refusal) => (Err(refusal), train),
        _ => rule(vector),
    }
}

const OF_FLOATS: &[(&str, &[Way])] = &[
    ("parting-number-held-at-31", &[|vector| at(vector, 31, hold_number)]),
    ("parting-number-held-at-32", &[|vector| at(vector, 32, hold_number)]),
    ("parting-car-counted-at-31", &[|vector| at(vector, 31, |train, _| train.all.accepted += 1)]),
    (
        "parting-free-place-cleared-at-31",
        &[|vector| at(vector, 31, |train, _| train.places[train.held] = Place::default())],
    ),
    ("parting-31-after-9", &[|vector| after(vector, &[9])]),
    ("parting-31-after-9-of-an-unsound-train", &[|vector| after(vector, &[9])]),
    ("parting-32-after-9", &[|vector| after(vector, &[9])]),
    ("parting-31-after-10", &[|vector| after(vector, &[9, 10])]),
    ("parting-31-after-11", &[|vector| after(vector, &[9, 10, 11])]),
    ("parting-31-after-12", &[|vector| after(vector, &[9, 10, 11, 12])]),
    ("parting-31-of-the-temperature-after-16", &[|vector| after(vector, &[16])]),
    ("parting-31-as-16-which-is-held", &[|vector| as_16(vector, 31)]),
    ("parting-32-as-16-which-is-held", &[|vector| as_16(vector, 32)]),
];

/// The rule, but the train with an entered car is changed further: a refused one, or an accepted one.
fn refused(vector: &Vector, change: fn(&mut Train, &Vector)) -> Seen {
    let (answer, mut train) = rule(vector);
    if answer.is_err() && train.held > free(vector) {
        change(&mut train, vector);
    }
    (answer, train)
}

fn accepted(vector: &Vector, change: fn(&mut Train, &Vector)) -> Seen {
    let (answer, mut train) = rule(vector);
    if answer.is_ok() {
        change(&mut train, vector);
    }
    (answer, train)
}

fn in_grade_1(train: &mut Train, vector: &Vector) {
    let place = &mut train.places[free(vector)];
    place.grade = 1;
    train.grades = vector.train.grades;
    add(&mut train.grades[0], place.gross, place.net);
}

fn add(totals: &mut Totals, gross: u32, net: u32) {
    totals.accepted += 1;
    totals.gross += u64::from(gross);
    totals.net += u64::from(net);
}

fn behind_filled_places(train: &mut Train, vector: &Vector) {
    let places = &vector.train.places;
    let empty = places.iter().position(|place| *place == Place::default()).expect("a free place");
    let car = train.places[free(vector)];
    train.places = *places;
    train.places[empty] = car;
}

/// 11 by other numbers: those of the places that are searched.
fn searched(vector: &Vector, is_searched: fn(usize, &Place, usize) -> bool) -> Seen {
    let Vector { train, car, .. } = vector;
    let mut places = train.places.iter().enumerate();
    let is_held = |(at, place): (usize, &Place)| {
        place.number == car.number && is_searched(at, place, train.held)
    };
    if places.any(is_held) {
        return (Err(11), train.clone());
    }
    let (answer, mut train) = with_car(vector, ProbeCar { number: 99_999_999, ..*car });
    let answer = answer.map(|figures| Figures { number: car.number, ..figures });
    train.places[free(vector)].number = car.number;
    (answer, train)
}

/// The car is entered whatever the train is; on sixty it has no place.
fn untested(vector: &Vector) -> Seen {
    let Vector { tables, car, .. } = vector;
    let figures = operations::work_out_probe(tables, car).expect("an accepted car");
    let mut train = vector.train.clone();
    let Figures { number, gross, net, .. } = figures;
    if let Some(place) = train.places.get_mut(train.held) {
        *place = Place { number, grade: car.grade, gross, net };
        train.held += 1;
    }
    add(&mut train.all, gross, net);
    add(&mut train.grades[car.grade as usize - 1], gross, net);
    (Ok(figures), train)
}

fn barred_by_59(vector: &Vector) -> Seen {
    if free(vector) >= 59 {
        return (Err(9), vector.train.clone());
    }
    rule(vector)
}

fn in_whole_mm(vector: &Vector) -> Seen {
    let set = Set { level: vector.car.set.level.round(), ..vector.car.set };
    with_car(vector, ProbeCar { set, ..vector.car })
}

const OF_ENTRY: &[(&str, &[Way])] = &[
    (
        "parting-refused-number-not-held",
        &[|vector| refused(vector, |train, vector| *train = vector.train.clone())],
    ),
    (
        "parting-refused-car-s-grade-held",
        &[|vector| {
            refused(vector, |train, vector| train.places[free(vector)].grade = vector.car.grade)
        }],
    ),
    (
        "parting-refused-car-s-place-not-cleared",
        &[|vector| {
            refused(vector, |train, vector| {
                let number = vector.car.number;
                let at = free(vector);
                train.places[at] = Place { number, ..vector.train.places[at] };
            })
        }],
    ),
    (
        "parting-car-without-its-masses",
        &[|vector| {
            accepted(vector, |train, vector| {
                let place = &mut train.places[free(vector)];
                (place.gross, place.net) = (0, 0);
            })
        }],
    ),
    (
        "parting-car-in-the-totals-of-all-alone",
        &[|vector| accepted(vector, |train, vector| train.grades = vector.train.grades)],
    ),
    (
        "parting-car-in-the-totals-of-its-grade-alone",
        &[|vector| accepted(vector, |train, vector| train.all = vector.train.all)],
    ),
    ("parting-car-of-grade-1", &[|vector| accepted(vector, in_grade_1)]),
    (
        "parting-car-in-the-first-place",
        &[|vector| accepted(vector, |train, vector| train.places[..=free(vector)].rotate_right(1))],
    ),
    (
        "parting-car-behind-the-free-places-that-are-filled",
        &[|vector| accepted(vector, behind_filled_places)],
    ),
    ("parting-number-searched-in-free-places", &[|vector| searched(vector, |_, _, _| true)]),
    (
        "parting-refused-numbers-not-searched",
        &[|vector| searched(vector, |at, place, held| at < held && place.grade > 0)],
    ),
    ("parting-numbers-not-searched", &[|vector| searched(vector, |_, _, _| false)]),
    ("parting-train-not-tested", &[untested]),
    ("parting-car-barred-by-59", &[barred_by_59]),
    ("parting-car-entered-on-sixty", &[untested]),
    ("parting-level-in-whole-mm", &[in_whole_mm]),
    ("parting-stick-ignored", &[|vector| with_car(vector, ProbeCar { stick: 1, ..vector.car })]),
];

fn ways() -> Vec<(&'static str, &'static [Way])> {
    [OF_FLOATS, OF_ENTRY].concat()
}

#[test]
fn every_wrong_way_shows_in_its_vector() {
    turns::shows(&ways(), rule as Way, |way, vector| way(vector));
}

/// Entering and searching written down here are right where nothing goes wrong.
#[test]
fn ways_are_right_elsewhere() {
    let vectors = all::<Vector>();
    let vector = vectors.iter().find(|vector| vector.name == "car-number-1").expect("a car");
    let right = rule(vector);
    assert_eq!(untested(vector), right);
    assert_eq!(searched(vector, |at, _, held| at < held), right);
    assert_eq!(after(vector, &[9, 10, 11, 12, 16]), right);
}

#[test]
fn every_parting_vector_has_a_wrong_way() {
    turns::has_all::<Vector, _>(&ways(), "parting-");
}
