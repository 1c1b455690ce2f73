//! The files of vectors: every answer is the one written down for it, and the vectors try every
//! refusal and every bound.

use std::collections::HashSet;
use std::fmt::Debug;

use reference::conformance::vectors::{
    all, expansion, expected, file, laboratory, merge, permitted, probe, probe_car, probe_error,
    probe_train, read, stick, tape, train, Written,
};
use reference::probe::Reading;
use reference::sheet::Event;

/// What holds of every file: the answers, the names, and that it is read as it was written.
fn hold<V: Written + Debug + PartialEq>(least: usize) {
    let vectors = all::<V>();
    for vector in &vectors {
        let answer = vector.answer();
        assert_eq!(Some(answer.as_str()), expected::<V>(vector.name()), "{}", vector.name());
    }
    let names: HashSet<&str> = vectors.iter().map(V::name).collect();
    assert_eq!(names.len(), vectors.len());
    assert_eq!(V::ANSWERS.lines().count(), vectors.len());
    assert!(vectors.len() >= least);
    let file = file::<V>();
    let written: Vec<String> = vectors.iter().map(V::answer).collect();
    let written: Vec<(V, &str)> =
        vectors.into_iter().zip(written.iter().map(String::as_str)).collect();
    assert_eq!(read::<V>(&file), written);
}

/// The refusal that a name tells, or none.
fn named_refusal(name: &str) -> Option<u32> {
    let named = name.strip_prefix("refusal-").or(name.strip_prefix("order-"));
    named.map(|rest| rest[..2].parse().unwrap())
}

#[test]
fn files() {
    hold::<permitted::Vector>(200);
    hold::<laboratory::Vector>(200);
    hold::<tape::Vector>(120);
    hold::<stick::Vector>(500);
    hold::<train::Vector>(400);
    hold::<probe::Vector>(1_400);
    hold::<probe_car::Vector>(450);
    hold::<probe_train::Vector>(300);
    hold::<probe_error::Vector>(150);
    hold::<expansion::Vector>(950);
    hold::<merge::Vector>(400);
}

#[test]
fn names_tell_the_outcome_of_a_report() {
    for vector in all::<laboratory::Vector>() {
        let number = vector.work_out().err().map(|refusal| refusal.number());
        assert_eq!(number, named_refusal(&vector.name), "{}", vector.name);
    }
}

#[test]
fn names_tell_the_outcome_of_a_level() {
    for vector in all::<tape::Vector>() {
        let name = &vector.name;
        let number = vector.work_out().err().map(|refusal| refusal.number());
        assert!(name.starts_with("parting-") || number == named_refusal(name), "{name}");
        let metre = name.strip_prefix("metre-").map_or("", |rest| &rest[..1]);
        assert!(vector.answer().starts_with(metre), "{name}");
    }
}

#[test]
fn both_ends_of_every_metre_are_tried() {
    let vectors = all::<tape::Vector>();
    for level in [9, 10, 10_000, 10_001, 20_000, 20_001, 30_000, 30_001, 36_000, 36_001] {
        assert!(vectors.iter().any(|vector| vector.level == level), "{level}");
    }
}

#[test]
fn names_tell_the_outcome_of_a_density() {
    for vector in all::<expansion::Vector>() {
        let name = &vector.name;
        let number = vector.work_out().err().map(|refusal| refusal.number());
        assert!(name.starts_with("parting-") || number == named_refusal(name), "{name}");
        let field = name.strip_prefix("density-").or(name.strip_prefix("card-"));
        assert!(field.is_none_or(|field| field == vector.density.to_string()), "{name}");
    }
}

#[test]
fn every_density_field_is_tried_and_both_sides_of_the_list() {
    let vectors = all::<expansion::Vector>();
    for density in 8_999..=9_901 {
        assert!(vectors.iter().any(|vector| vector.density == density), "{density}");
    }
}

#[test]
fn names_tell_the_outcome_of_a_check() {
    for vector in all::<stick::Vector>() {
        let name = &vector.name;
        let check = vector.work_out();
        let number = check.err().map(|refusal| refusal.number());
        assert!(name.starts_with("parting-") || number == named_refusal(name), "{name}");
        let Ok(check) = check else { continue };
        assert!(!name.starts_with("at-2-mm-") || check.passes, "{name}");
        assert!(!name.starts_with("past-2-mm-") || !check.passes, "{name}");
        assert!(!name.contains("-above-with-") || check.difference > 0, "{name}");
        assert!(!name.contains("-below-with-") || check.difference < 0, "{name}");
        assert!(!name.starts_with("none-") || check.difference == 0, "{name}");
    }
}

#[test]
fn names_tell_the_outcome_of_a_train() {
    for vector in all::<train::Vector>() {
        let name = &vector.name;
        let (answer, handed_back) = vector.work_out();
        let number = answer.err().map(|refusal| refusal.number());
        assert!(name.starts_with("parting-") || number == named_refusal(name), "{name}");
        let stays = matches!(number, Some(9 | 10 | 11 | 30));
        assert_eq!(handed_back == vector.train, stays, "{name}");
        assert!(!name.starts_with("strike-") || matches!(vector.asked, Event::Strike(_)), "{name}");
        assert!(!name.starts_with("car-") || matches!(vector.asked, Event::Enter(_)), "{name}");
    }
}

#[test]
fn names_tell_the_outcome_of_a_car() {
    for vector in all::<permitted::Vector>() {
        let number = vector.work_out().err().map(|refusal| refusal.number());
        assert_eq!(number, named_refusal(&vector.name), "{}", vector.name);
        let within = vector.work_out().is_ok_and(|permitted| permitted.within);
        let named = |start: &str| vector.name.starts_with(start);
        assert!(!named("within-") || within, "{}", vector.name);
        assert!(!named("over-") || !within, "{}", vector.name);
    }
}

#[test]
fn every_refusal_of_a_car_stands_before_24_and_before_25() {
    let vectors = all::<permitted::Vector>();
    for second in [24, 25] {
        for first in [7, 8, 10].into_iter().chain(12..=21).chain([23]) {
            let name = format!("order-{first:02}-before-{second}-");
            assert!(vectors.iter().any(|vector| vector.name.starts_with(&name)), "{name}");
        }
    }
}

/// The floats of a reading or of a set.
fn floats(asked: probe::Asked) -> Vec<f32> {
    use Reading::{Density, Level, Temperature};
    match asked {
        probe::Asked::One(Level(float) | Temperature(float) | Density(float)) => vec![float],
        probe::Asked::Three(set) => vec![set.level, set.temperature, set.density],
    }
}

#[test]
fn names_tell_the_outcome_of_a_probe_s_floats() {
    for vector in all::<probe::Vector>() {
        let name = &vector.name;
        let number = vector.work_out().err().map(|refusal| refusal.number());
        assert!(name.starts_with("parting-") || number == named_refusal(name), "{name}");
        let float = f64::from(floats(vector.asked)[0]);
        let told = |start: &str| name.strip_prefix(start).and_then(|rest| rest.parse::<f64>().ok());
        assert!(
            told("half-").is_none_or(|half| half == float && half * 20.0 % 2.0 == 1.0),
            "{name}"
        );
        let below = told("short-of-half-").or(told("short-of-"));
        assert!(below.is_none_or(|half| float < half), "{name}");
        let above = told("past-half-").or(told("past-"));
        assert!(above.is_none_or(|half| float > half), "{name}");
    }
}

#[test]
fn every_exponent_is_tried_with_either_sign() {
    let vectors = all::<probe::Vector>();
    let tried: HashSet<u32> =
        vectors.iter().flat_map(|vector| floats(vector.asked)).map(f32::to_bits).collect();
    for exponent in 0..=255_u32 {
        let of = |sign: u32, last: u32| tried.contains(&((sign << 31) | (exponent << 23) | last));
        let significands = [u32::from(exponent == 0), 0x7f_ffff, 0x2a_5a5b];
        assert!(of(0, 0), "{exponent}");
        assert!(exponent > 152 || significands.iter().all(|last| of(0, *last)), "{exponent}");
        assert!(significands.iter().any(|last| of(1, *last)), "{exponent}");
    }
}

#[test]
fn every_two_faults_of_a_set_are_tried() {
    let vectors = all::<probe::Vector>();
    let outcomes = ["good", "31", "32"];
    for level in outcomes {
        for temperature in outcomes {
            for density in outcomes {
                let told = format!("-set-{level}-{temperature}-{density}-");
                let count = vectors.iter().filter(|vector| vector.name.contains(&told)).count();
                assert_eq!(count, if told == "-set-good-good-good-" { 0 } else { 3 }, "{told}");
            }
        }
    }
}

#[test]
fn names_tell_the_outcome_of_a_probe_s_car() {
    for vector in all::<probe_car::Vector>() {
        let name = &vector.name;
        let number = vector.work_out().err().map(|refusal| refusal.number());
        assert!(name.starts_with("parting-") || number == named_refusal(name), "{name}");
    }
}

#[test]
fn names_tell_the_outcome_of_a_probe_s_car_in_a_train() {
    for vector in all::<probe_train::Vector>() {
        let name = &vector.name;
        let (answer, handed_back) = vector.work_out();
        let number = answer.err().map(|refusal| refusal.number());
        let is_told = !["parting-", "list-", "one-number-"].iter().any(|of| name.starts_with(of));
        assert!(!is_told || number == named_refusal(name), "{name}");
        let stays = matches!(number, Some(7..=11 | 31 | 32));
        assert_eq!(handed_back == vector.train, stays, "{name}");
    }
}

#[test]
fn names_tell_the_outcome_of_a_probe_s_permitted_error() {
    for vector in all::<probe_error::Vector>() {
        let name = &vector.name;
        let answer = vector.work_out();
        let number = answer.err().map(|refusal| refusal.number());
        assert!(name.starts_with("parting-") || number == named_refusal(name), "{name}");
        let within = answer.is_ok_and(|permitted| permitted.within);
        assert!(!name.starts_with("within-") || within, "{name}");
        assert!(!name.starts_with("over-") || !within, "{name}");
    }
}

/// Every refusal in the order in which it is tested, and files that have it before the next.
#[test]
fn a_probe_s_refusals_stand_in_their_order() {
    let names = |first: u32, second: u32| format!("order-{first:02}-before-{second:02}");
    let has = |names: &[String], start: &str| names.iter().any(|name| name.starts_with(start));
    let of_car: Vec<String> = all::<probe_car::Vector>().into_iter().map(|of| of.name).collect();
    let of_train: Vec<String> =
        all::<probe_train::Vector>().into_iter().map(|of| of.name).collect();
    let of_error: Vec<String> =
        all::<probe_error::Vector>().into_iter().map(|of| of.name).collect();
    for first in [31, 32] {
        for second in [7, 8, 10, 12, 13, 16, 17, 18, 19, 20, 21] {
            assert!(has(&of_car, &names(first, second)), "{first} before {second}");
        }
        for second in 7..=13 {
            assert!(has(&of_train, &names(first, second)), "{first} before {second}");
        }
        for second in [7, 8, 10, 12, 24, 25] {
            assert!(has(&of_error, &names(first, second)), "{first} before {second}");
        }
    }
    let car = [7, 8, 10, 12, 13, 16, 17, 18, 19, 20, 21];
    for pair in car[1..].windows(2) {
        assert!(has(&of_car, &names(pair[0], pair[1])), "{pair:?}");
    }
    for pair in [7, 8, 9, 10, 11, 12].windows(2).filter(|pair| pair[0] != 7) {
        assert!(has(&of_train, &names(pair[0], pair[1])), "{pair:?}");
    }
    for second in [24, 25] {
        for first in car {
            assert!(has(&of_error, &names(first, second)), "{first} before {second}");
        }
    }
    let neighbours =
        [(7, 10), (8, 10), (10, 12), (12, 13), (13, 16), (18, 19), (19, 20), (20, 21), (24, 25)];
    for (first, second) in neighbours {
        assert!(has(&of_error, &names(first, second)), "{first} before {second}");
    }
}
