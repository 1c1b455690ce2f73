//! A train of the reference in its slice, as the library takes it.

use reference::car::GRADES;
use reference::train::{Place, Totals, Train, CARS};

use crate::{
    TRAIN, TRAIN_ACCEPTED, TRAIN_GRADES, TRAIN_GROSS, TRAIN_GROSSES, TRAIN_GROSS_HIGH, TRAIN_HELD,
    TRAIN_NET, TRAIN_NETS, TRAIN_NET_HIGH, TRAIN_NUMBERS,
};

/// Places of the totals of all cars, or of a grade.
const TOTALS: usize = 5;

/// The train that lies in a slice.
pub fn train_of(state: &[u32; TRAIN]) -> Train {
    Train {
        all: totals_of(state),
        grades: std::array::from_fn(|grade| totals_of(&state[TOTALS * (1 + grade)..])),
        held: state[TRAIN_HELD] as usize,
        places: std::array::from_fn(|place| Place {
            number: state[TRAIN_NUMBERS + place],
            grade: state[TRAIN_GRADES + place],
            gross: state[TRAIN_GROSSES + place],
            net: state[TRAIN_NETS + place],
        }),
    }
}

/// A train as it lies in its slice.
pub fn state_of(train: &Train) -> [u32; TRAIN] {
    let mut state = [0; TRAIN];
    put_totals(&mut state, &train.all);
    for grade in 0..GRADES {
        put_totals(&mut state[TOTALS * (1 + grade)..], &train.grades[grade]);
    }
    state[TRAIN_HELD] = train.held as u32;
    for place in 0..CARS {
        let Place { number, grade, gross, net } = train.places[place];
        state[TRAIN_NUMBERS + place] = number;
        state[TRAIN_GRADES + place] = grade;
        state[TRAIN_GROSSES + place] = gross;
        state[TRAIN_NETS + place] = net;
    }
    state
}

/// Totals of which each mass lies by its low and its high 32 bits.
fn totals_of(places: &[u32]) -> Totals {
    let joined = |low: usize, high: usize| u64::from(places[low]) | u64::from(places[high]) << 32;
    Totals {
        accepted: places[TRAIN_ACCEPTED],
        gross: joined(TRAIN_GROSS, TRAIN_GROSS_HIGH),
        net: joined(TRAIN_NET, TRAIN_NET_HIGH),
    }
}

fn put_totals(places: &mut [u32], totals: &Totals) {
    let Totals { accepted, gross, net } = *totals;
    places[TRAIN_ACCEPTED] = accepted;
    (places[TRAIN_GROSS], places[TRAIN_GROSS_HIGH]) = (gross as u32, (gross >> 32) as u32);
    (places[TRAIN_NET], places[TRAIN_NET_HIGH]) = (net as u32, (net >> 32) as u32);
}
