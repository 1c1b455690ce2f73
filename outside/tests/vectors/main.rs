//! The library's permitted error, laboratory's density, tape allowance, stick against the tape, trains handed
//! in with a strike or a car, expansion of oil, the portable probe, and buffers for a merged sheet: every line
//! of the files of vectors.

mod merge;
mod probe;

use outside::slices::Slices;
use outside::train::state_of;
use outside::{ERRORS, FIELDS, FIGURES, PERMITTED, STICK, TRAIN};
use reference::conformance::vectors::{
    all, expansion, laboratory, permitted, read, stick, tape, train,
};
use reference::sheet::Event;
use reference::stick::StickCheck;
use reference::train::Train;

const PERMITTED_ERROR: &str = include_str!("../../../conformance/permitted-error.vectors");
const LABORATORY_DENSITY: &str = include_str!("../../../conformance/laboratory-density.vectors");
const TAPE_ALLOWANCE: &str = include_str!("../../../conformance/tape-allowance.vectors");
const STICK_AGAINST_TAPE: &str = include_str!("../../../conformance/stick-against-tape.vectors");
const TRAIN_STRIKE: &str = include_str!("../../../conformance/train-strike.vectors");
const EXPANSION: &str = include_str!("../../../conformance/expansion.vectors");

/// What a place holds before it is lent: no figure.
const LENT: u32 = 0xa5a5_a5a5;

/// Puts the numbers of a line's answer into lent places.
fn fill(places: &mut [u32], answer: &str) {
    for (place, word) in places.iter_mut().zip(answer.split(' ')) {
        *place = word.parse().expect("a figure");
    }
}

/// The number handed back and what the lent places hold, with one more behind them.
fn permitted_error(vector: &permitted::Vector) -> (u32, [u32; PERMITTED + 1]) {
    let tables = Slices::new(&vector.tables);
    let (car, errors) = (<[u32; FIELDS]>::from(vector.car), <[u32; ERRORS]>::from(vector.errors));
    let mut figures = [LENT; PERMITTED + 1];
    let number = outside::permitted_error(tables.lent(), &car, &errors, &mut figures[..PERMITTED]);
    (number, figures)
}

/// The same from a line's answer: a refusal, or terms, figures and limit between bars.
fn expected_error(answer: &str) -> (u32, [u32; PERMITTED + 1]) {
    let mut figures = [LENT; PERMITTED + 1];
    let Some((_, seen)) = answer.split_once(" | ") else {
        return (answer.parse().expect("a refusal"), figures);
    };
    fill(&mut figures, &seen.replace(" | ", " ").replace("yes", "1").replace("no", "0"));
    (0, figures)
}

/// The number handed back and what the lent place holds.
fn density_at_15(vector: &laboratory::Vector) -> (u32, u32) {
    let mut density = LENT;
    let number = outside::density_at_15(vector.reported, vector.temperature, &mut density);
    (number, density)
}

/// The same from a line's answer: what stands on the way, then a density at 15 °C or a refusal.
fn expected_density(answer: &str) -> (u32, u32) {
    let (_, seen) = answer.split_once(" | ").expect("an answer");
    match seen.parse().expect("a number") {
        density @ 9_000.. => (0, density),
        refusal => (refusal, LENT),
    }
}

/// The number handed back and what the lent place holds.
fn tape_allowance(vector: &tape::Vector) -> (u32, u32) {
    let mut allowance = LENT;
    let number = outside::tape_allowance(vector.level, &mut allowance);
    (number, allowance)
}

/// The same from a line's answer: metres and an allowance, or a dash and a refusal.
fn expected_allowance(answer: &str) -> (u32, u32) {
    let (metres, seen) = answer.split_once(" | ").expect("an answer");
    let seen = seen.parse().expect("a number");
    if metres == "-" {
        (seen, LENT)
    } else {
        (0, seen)
    }
}

/// The number handed back and what the lent place holds.
fn expansion_of(vector: &expansion::Vector) -> (u32, u32) {
    let mut expansion = LENT;
    let number = outside::expansion_of(vector.density, &mut expansion);
    (number, expansion)
}

/// The same from a line's answer: a quotient with its remainder and B, or a dash and a refusal.
fn expected_expansion(answer: &str) -> (u32, u32) {
    let (quotient, seen) = answer.split_once(" | ").expect("an answer");
    let seen = seen.parse().expect("a number");
    if quotient == "-" {
        (seen, LENT)
    } else {
        (0, seen)
    }
}

/// The number handed back, the lent places, and one that stands behind them.
fn stick_against_tape(vector: &stick::Vector) -> (u32, [u32; STICK + 1]) {
    let stick::Vector { stick, count, readings, .. } = vector;
    let mut places = [LENT; STICK + 1];
    let number = outside::stick_against_tape(*stick, *count, readings, &mut places[..STICK]);
    (number, places)
}

/// The same from a line's answer: what stands on the way and a check, or a dash and a refusal.
fn expected_check(answer: &str) -> (u32, [u32; STICK + 1]) {
    let (on_the_way, seen) = answer.split_once(" | ").expect("an answer");
    if on_the_way == "-" {
        return (seen.parse().expect("a refusal"), [LENT; STICK + 1]);
    }
    let [difference, passes, allowance] =
        seen.split(' ').collect::<Vec<&str>>().try_into().expect("three words");
    let [sign, size, passes, allowance] = outside::stick::figures(StickCheck {
        difference: difference.parse().expect("a difference"),
        passes: match passes {
            "yes" => true,
            "no" => false,
            word => panic!("{word} is neither yes nor no"),
        },
        allowance: allowance.parse().expect("an allowance"),
    });
    (0, [sign, size, passes, allowance, LENT])
}

/// The number handed back, the lent figures with one place behind them, and the train.
type Entered = (u32, [u32; FIGURES + 1], [u32; TRAIN]);

fn train_strike(vector: &train::Vector) -> Entered {
    let (mut figures, mut state) = ([LENT; FIGURES + 1], state_of(&vector.train));
    let number = match vector.asked {
        Event::Strike(number) => outside::train_strike(&mut state, number),
        Event::Enter(car) => {
            let (tables, car) = (Slices::new(&[train::table()]), <[u32; FIELDS]>::from(car));
            outside::train_enter(&mut state, tables.lent(), &car, &mut figures[..FIGURES])
        }
    };
    (number, figures, state)
}

/// The same from a line's answer: K, or A and figures, or a refusal; then the train, which as a question
/// with any strike is read as such, or that which was handed in.
fn expected_train(handed_in: &Train, answer: &str) -> Entered {
    let (answer, next) = answer.split_once(" | ").expect("an answer and a train");
    let mut figures = [LENT; FIGURES + 1];
    let number = match answer.strip_prefix("A ") {
        Some(seen) => {
            fill(&mut figures, seen);
            0
        }
        None if answer == "K" => 0,
        None => answer.parse().expect("a refusal"),
    };
    let state = match next {
        "unchanged" => state_of(handed_in),
        _ => state_of(&read::<train::Vector>(&format!("next | {next} | K 0 | -"))[0].0.train),
    };
    (number, figures, state)
}

#[test]
fn every_line_of_the_permitted_error() {
    let vectors = read::<permitted::Vector>(PERMITTED_ERROR);
    assert_eq!(vectors.len(), all::<permitted::Vector>().len());
    for (vector, answer) in vectors {
        assert_eq!(permitted_error(&vector), expected_error(answer), "{}", vector.name);
    }
}

#[test]
fn every_line_of_the_laboratory_s_density() {
    let vectors = read::<laboratory::Vector>(LABORATORY_DENSITY);
    assert_eq!(vectors.len(), all::<laboratory::Vector>().len());
    for (vector, answer) in vectors {
        assert_eq!(density_at_15(&vector), expected_density(answer), "{}", vector.name);
    }
}

#[test]
fn every_line_of_the_tape_allowance() {
    let vectors = read::<tape::Vector>(TAPE_ALLOWANCE);
    assert_eq!(vectors.len(), all::<tape::Vector>().len());
    for (vector, answer) in vectors {
        assert_eq!(tape_allowance(&vector), expected_allowance(answer), "{}", vector.name);
    }
}

#[test]
fn every_line_of_the_expansion() {
    let vectors = read::<expansion::Vector>(EXPANSION);
    assert_eq!(vectors.len(), all::<expansion::Vector>().len());
    for (vector, answer) in vectors {
        assert_eq!(expansion_of(&vector), expected_expansion(answer), "{}", vector.name);
    }
}

#[test]
fn every_line_of_the_stick_against_the_tape() {
    let vectors = read::<stick::Vector>(STICK_AGAINST_TAPE);
    assert_eq!(vectors.len(), all::<stick::Vector>().len());
    for (vector, answer) in vectors {
        assert_eq!(stick_against_tape(&vector), expected_check(answer), "{}", vector.name);
    }
}

#[test]
fn every_line_of_the_strikes_and_cars_of_a_train() {
    let vectors = read::<train::Vector>(TRAIN_STRIKE);
    assert_eq!(vectors.len(), all::<train::Vector>().len());
    for (vector, answer) in vectors {
        assert_eq!(train_strike(&vector), expected_train(&vector.train, answer), "{}", vector.name);
    }
}
