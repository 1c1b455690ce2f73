//! Strikes that are answered.

use super::{
    but, held, made, many, of_nearly, six, sixty_accepted, with_free, Group, Vector, NEARLY, SIX,
};
use crate::train::Place;

/// The largest number of 32 bits.
const OF_32_BITS: u32 = u32::MAX;

pub fn groups() -> Vec<Group<Vector>> {
    vec![
        Group { about: "A car is struck: each of six, refused ones too", vectors: of_six() },
        Group { about: "A car is struck where sixty are held", vectors: of_sixty() },
        Group {
            about: "A car is struck: numbers that no car can be entered with",
            vectors: numbers(),
        },
        Group {
            about: "A car is struck: numbers held together that are nearly alike",
            vectors: nearly_alike(),
        },
        Group { about: "A car is struck: totals at the limit, and none", vectors: masses() },
        Group {
            about: "A car is struck: masses beside grade 0 are not looked at",
            vectors: beside_grade_0(),
        },
        Group {
            about: "A car is struck: free places are not looked at, and move up",
            vectors: free_places(),
        },
    ]
}

fn of_six() -> Vec<Vector> {
    let each = SIX.iter().zip(["first", "second", "third", "fourth", "fifth", "last"]);
    let each = each.map(|(car, which)| {
        let name = format!("strike-{which}-of-six-grade-{}", car.grade);
        Vector::strike(name, &six(), car.number)
    });
    let refused = [13, 7, 8].map(|number| held(number, 0, 0, 0));
    each.chain([
        Vector::strike("strike-only-car", &made(&SIX[3..4]), 14),
        Vector::strike("strike-only-car-refused", &made(&SIX[2..3]), 13),
        Vector::strike("strike-first-of-two", &made(&SIX[..2]), 11),
        Vector::strike("strike-second-of-two", &made(&SIX[..2]), 12),
        Vector::strike("strike-middle-of-three-refused", &made(&refused), 7),
    ])
    .collect()
}

fn of_sixty() -> Vec<Vector> {
    let mut vectors: Vec<Vector> = [1, 2, 30, 31, 55, 59, 60]
        .map(|place| {
            Vector::strike(format!("strike-place-{place}-of-sixty"), &many(60), 100 + place)
        })
        .to_vec();
    vectors.push(Vector::strike("strike-last-of-59", &many(59), 159));
    vectors.push(Vector::strike("strike-first-of-59", &many(59), 101));
    vectors.extend([("first", 101), ("thirtieth", 130), ("last", 160)].map(|(which, number)| {
        Vector::strike(format!("strike-{which}-of-sixty-accepted"), &sixty_accepted(), number)
    }));
    vectors
}

/// 0, and numbers above 99,999,999.
fn numbers() -> Vec<Vector> {
    let odd = |number: u32, refused: bool| {
        let grade = if refused { 0 } else { 2 };
        let mass = if refused { 0 } else { 700 };
        let cars = [SIX[0], held(number, grade, mass, mass), SIX[3]];
        let kind = if refused { "refused-" } else { "" };
        Vector::strike(format!("strike-{kind}number-{number}"), &made(&cars), number)
    };
    [0, 1, 99_999_999, 100_000_000, 4_000_000_000, OF_32_BITS]
        .into_iter()
        .flat_map(|number| [odd(number, false), odd(number, true)])
        .chain([Vector::strike(
            "strike-beside-number-0-and-a-number-of-nine-digits",
            &made(&[held(0, 1, 10, 9), held(12, 2, 500, 400), held(100_000_000, 0, 0, 0)]),
            12,
        )])
        .collect()
}

/// The later one is struck.
fn nearly_alike() -> Vec<Vector> {
    let later = NEARLY.map(|(part, first, second)| {
        let name = format!("strike-later-of-two-numbers-alike-in-{part}");
        Vector::strike(name, &of_nearly(first, second), second)
    });
    later.to_vec()
}

fn masses() -> Vec<Vector> {
    let most = 12_000_000;
    let two = |first, second| made(&[held(1, 3, first, 5), held(2, 3, second, 5)]);
    vec![
        Vector::strike("strike-gross-total-12000000", &two(most - 1, 1), 1),
        Vector::strike("strike-net-total-12000000", &made(&[held(1, 4, 0, most)]), 1),
        Vector::strike("strike-both-totals-12000000", &made(&[held(1, 1, most, most)]), 1),
        Vector::strike("strike-car-without-mass", &made(&[held(1, 2, 0, 0), SIX[3]]), 1),
        Vector::strike("strike-car-whose-net-is-above-its-gross", &made(&[held(1, 2, 3, 9)]), 1),
        Vector::strike("strike-car-of-gross-0", &made(&[held(1, 2, 0, 9), SIX[1]]), 1),
        Vector::strike("strike-two-cars-of-equal-mass", &two(700, 700), 2),
    ]
}

fn beside_grade_0() -> Vec<Vector> {
    let odd = Place { gross: 5_000, net: OF_32_BITS, ..SIX[2] };
    let train = but(six(), |train| train.places[2] = odd);
    vec![
        Vector::strike("strike-refused-car-with-masses", &train, 13),
        Vector::strike("strike-beside-a-refused-car-with-masses", &train, 12),
        Vector::strike("strike-behind-a-refused-car-with-masses", &train, 16),
        Vector::strike("strike-only-car-refused-with-masses", &made(&[odd]), 13),
    ]
}

/// Something in places behind the held ones.
fn free_places() -> Vec<Vector> {
    let rest = held(77, 3, 9, 8);
    let wild = held(OF_32_BITS, OF_32_BITS, OF_32_BITS, OF_32_BITS);
    let train = with_free(six(), &[(7, rest), (8, wild), (60, held(78, 9, 1, 2))]);
    let same = with_free(six(), &[(7, SIX[1]), (9, SIX[1]), (60, held(0, 0, 0, 6))]);
    let all: Vec<(usize, Place)> =
        (7..=60).map(|place| (place, held(500 + place as u32, 4, 3, 2))).collect();
    let every = with_free(six(), &all);
    vec![
        Vector::strike("strike-first-before-free-places", &train, 11),
        Vector::strike("strike-last-before-free-places", &train, 16),
        Vector::strike("strike-number-that-stands-in-free-places-too", &same, 12),
        Vector::strike("strike-before-a-free-place-with-a-held-number", &same, 14),
        Vector::strike("strike-third-before-54-free-places", &every, 13),
        Vector::strike("strike-last-before-54-free-places", &every, 16),
        Vector::strike(
            "strike-59-and-one-free-place",
            &with_free(many(59), &[(60, held(500, 1, 2, 3))]),
            130,
        ),
    ]
}
