//! Car numbers that the train holds, whichever its line is and whatever became of its car (11).

use super::rack::{cars_on, totals, CAR, NONE_ACCEPTED, TABLE};
use super::Case;
use crate::car::Car;

const FIGURES: &str = "15000 3500000 3392515 32229 32003";
const GROSS: u32 = 32_229;
const NET: u32 = 32_003;

/// So many cars with numbers of their own, then each of some of them again.
fn again(name: &'static str, own: u32, repeated: &[u32]) -> Case {
    let number = |place: u32| 90_000_000 - 131_072 * place;
    let firsts = (1..=own).map(|place| Car { number: number(place), ..CAR });
    let seconds = repeated.iter().map(|&place| Car { number: number(place), ..CAR });
    let cars: Vec<Car> = firsts.chain(seconds).collect();
    let mut listing: String =
        (1..=own).map(|place| format!("A {} {FIGURES}\n", number(place))).collect();
    repeated.iter().for_each(|&place| listing.push_str(&format!("X {} 11\n", number(place))));
    listing.push_str(&totals(own, own * GROSS, own * NET));
    Case::new(name, cars_on(TABLE, &cars), &listing)
}

pub fn cases() -> Vec<Case> {
    let down = |high: u32, low: u32| -> Vec<u32> { (low..=high).rev().collect() };
    vec![
        again("refusal-11-numbers-1-to-30-again", 30, &down(30, 1)),
        again("refusal-11-numbers-31-to-45-again", 45, &down(45, 31)),
        again("refusal-11-numbers-46-to-52-again", 53, &down(52, 46)),
        again("refusal-11-numbers-53-to-56-again", 56, &down(56, 53)),
        again("refusal-11-numbers-57-and-58-again", 58, &down(58, 57)),
        again("refusal-11-number-59-again", 59, &[59]),
        again("refusal-11-numbers-1-and-31-again", 58, &[1, 31]),
        refused_before(),
        alike(),
        sixty_times("refusal-10-sixty-times-0", 0, 10),
        sixty_times("refusal-11-sixty-times-the-same", 77, 11),
    ]
}

/// Sixty cars with one number; the first is accepted unless the number is 0.
fn sixty_times(name: &'static str, number: u32, refusal: u32) -> Case {
    let accepted = u32::from(number > 0);
    let mut listing: String = (0..accepted).map(|_| format!("A {number} {FIGURES}\n")).collect();
    (accepted..60).for_each(|_| listing.push_str(&format!("X {number} {refusal}\n")));
    listing.push_str(&totals(accepted, accepted * GROSS, accepted * NET));
    Case::new(name, cars_on(TABLE, &[Car { number, ..CAR }; 60]), &listing)
}

/// Cars refused by 12 to 21, each with its refusal for a number.
pub fn refused() -> Vec<Car> {
    let sound = Car { grade: 1, water: 0, impurities: 0, density: 9400, ..CAR };
    let refused = [
        Car { car_type: 2, ..sound },
        Car { stick: 3, ..sound },
        Car { given: 3, ..sound },
        Car { readings: [1500, 1502, 0, 0], ..sound },
        Car { readings: [3001, 3001, 0, 0], ..sound },
        Car { water_level: 1500, ..sound },
        Car { temperature: 901, ..sound },
        Car { density: 8999, ..sound },
        Car { water: 31, ..sound },
        Car { density: 9585, ..sound },
    ];
    refused.iter().zip(12..).map(|(car, number)| Car { number, ..*car }).collect()
}

/// The number of a car refused by each of 12 to 21 counts.
fn refused_before() -> Case {
    let seconds = (12..=21).map(|number| Car { number, ..CAR });
    let listing: String = (12..=21)
        .map(|number| format!("X {number} {number}\n"))
        .chain((12..=21).map(|number| format!("X {number} 11\n")))
        .collect();
    let cars: Vec<Car> = refused().into_iter().chain(seconds).collect();
    Case::new(
        "refusal-11-numbers-of-cars-refused-by-12-to-21",
        cars_on(TABLE, &cars),
        &format!("{listing}{NONE_ACCEPTED}"),
    )
}

/// Numbers that differ, but not in their last or first digits, their low bits, their digits' sum
/// or in single floating point.
fn alike() -> Case {
    let numbers = [
        50_000_001, 50_000_002, 40_000_001, 50_065_537, 66_777_217, 50_000_010, 5_000_001, 5, 50,
        99_999_999, 99_999_998, 1, 16_777_217, 33_554_433,
    ];
    let cars: Vec<Car> = numbers.iter().map(|&number| Car { number, ..CAR }).collect();
    let listing: String = numbers.iter().map(|number| format!("A {number} {FIGURES}\n")).collect();
    let count = numbers.len() as u32;
    Case::new(
        "accepted-numbers-that-are-nearly-alike",
        cars_on(TABLE, &cars),
        &format!("{listing}{}", totals(count, count * GROSS, count * NET)),
    )
}
