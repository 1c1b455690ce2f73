//! One call with a train, compared: a car entered, a probe's car entered, a number struck. Each hands back the
//! train for the next.

use outside::floats::Told;
use outside::train::{state_of, train_of};
use outside::{BAD_LENGTH, FIELDS, FIGURES, PROBE_FIELDS, TRAIN};
use reference::car::{Car, Figures};
use reference::operations::{self, HandedIn};
use reference::probe::{ProbeCar, Set};
use reference::refusal::Refusal;
use reference::train::Train;

use crate::cars::handed;
use crate::probe::{floats_of, Draft};
use crate::tables::Given;
use crate::tally::{self, Lent, Tally, LENT};

pub fn compare_enter(
    tally: &mut Tally,
    state: &[u32],
    given: &Given,
    car: &[u32],
    length: usize,
) -> Vec<u32> {
    let (mut train, mut figures) = (Lent::new(state), Lent::new(&vec![LENT; length]));
    let number = outside::train_enter(train.slice(), given.lent(), car, figures.slice());
    let next = train.slice().to_vec();
    let expected = expected(state, given, length, || {
        let car = Car::from(<[u32; FIELDS]>::try_from(car).ok()?);
        Some(move |train: &mut Train, tables: &[HandedIn]| operations::enter(train, tables, &car))
    });
    tally.compare((car, state, given), (number, (train, figures)), expected);
    next
}

pub fn compare_enter_probe(
    tally: &mut Tally,
    state: &[u32],
    given: &Given,
    (car, set): (&[u32], Set),
    length: usize,
) -> Vec<u32> {
    let (mut train, mut figures) = (Lent::new(state), Lent::new(&vec![LENT; length]));
    let number = outside::train_enter_probe(train.slice(), given.lent(), car, set, figures.slice());
    let next = train.slice().to_vec();
    let expected = expected(state, given, length, || {
        let car = ProbeCar::new(<[u32; PROBE_FIELDS]>::try_from(car).ok()?, set);
        Some(move |train: &mut Train, tables: &[HandedIn]| {
            operations::enter_probe(train, tables, &car)
        })
    });
    let input = (car, Told(&floats_of(set)), state, given);
    tally.compare(input, (number, (train, figures)), expected);
    next
}

/// The same with all lengths that are asked for.
pub fn compare_draft(tally: &mut Tally, state: &[u32], given: &Given, draft: Draft) -> Vec<u32> {
    compare_enter_probe(tally, state, given, (&draft.fields(), draft.set()), FIGURES)
}

/// What entering a car hands back and leaves in the train and in lent figures; the car is none where its slice
/// has not the length that is asked for.
fn expected<E>(
    state: &[u32],
    given: &Given,
    length: usize,
    car: impl FnOnce() -> Option<E>,
) -> (u32, (Lent, Lent))
where
    E: FnOnce(&mut Train, &[HandedIn]) -> Result<Figures, Refusal>,
{
    let lent = Lent::new(&vec![LENT; length]);
    let fits = given.fits() && length == FIGURES;
    match (<&[u32; TRAIN]>::try_from(state), car()) {
        (Ok(state), Some(enter)) if fits => {
            let mut train = train_of(state);
            let (number, figures) = handed(enter(&mut train, &given.handed_in()), lent);
            (number, (Lent::new(&state_of(&train)), figures))
        }
        _ => (BAD_LENGTH, (Lent::new(state), lent)),
    }
}

pub fn compare_strike(tally: &mut Tally, state: &[u32], struck: u32) -> Vec<u32> {
    let mut train = Lent::new(state);
    let number = outside::train_strike(train.slice(), struck);
    let next = train.slice().to_vec();
    let expected = match <&[u32; TRAIN]>::try_from(state) {
        Ok(state) => {
            let mut train = train_of(state);
            let answer = operations::strike(&mut train, struck);
            tally::handed(answer.map(|()| Lent::new(&state_of(&train))), Lent::new(state))
        }
        Err(_) => (BAD_LENGTH, Lent::new(state)),
    };
    tally.compare((struck, state), (number, train), expected);
    next
}
