//! Strikes of numbers that the train does not hold (30), which leave it as it was.

use super::{held, made, many, six, with_free, Group, Vector, SIX};
use crate::train::Train;

pub fn groups() -> Vec<Group<Vector>> {
    vec![
        Group { about: "30: numbers of any size that are not held", vectors: not_held() },
        Group {
            about: "30: numbers that are like those held, or stand elsewhere",
            vectors: alike(),
        },
    ]
}

fn refusal(name: &str, train: &Train, number: u32) -> Vector {
    Vector::strike(format!("refusal-30-{name}"), train, number)
}

fn not_held() -> Vec<Vector> {
    let sizes = [0, 1, 10, 17, 99_999_999, 100_000_000, 4_000_000_000, u32::MAX];
    sizes
        .map(|number| refusal(&format!("number-{number}"), &six(), number))
        .into_iter()
        .chain([
            refusal("empty-train", &Train::default(), 12),
            refusal("empty-train-number-0", &Train::default(), 0),
            refusal("empty-train-number-of-ten-digits", &Train::default(), 4_000_000_000),
            refusal("sixty-held", &many(60), 161),
            refusal("sixty-held-number-0", &many(60), 0),
            refusal("59-held", &many(59), 160),
            refusal("totals-12000000", &made(&[held(1, 1, 12_000_000, 12_000_000)]), 2),
        ])
        .collect()
}

fn alike() -> Vec<Vector> {
    let large = made(&[held(1 << 31, 1, 7, 6), held(5, 0, 0, 0)]);
    let mut vectors: Vec<Vector> = [8, 16, 24, 31]
        .map(|bits| refusal(&format!("held-in-{bits}-bits"), &six(), 12 + (1 << bits)))
        .to_vec();
    vectors.extend([
        refusal("held-without-its-highest-bit", &large, 0),
        refusal("negative-of-a-held-number", &six(), 12_u32.wrapping_neg()),
        refusal("held-in-its-last-eight-digits", &six(), 100_000_012),
        refusal("place-of-a-held-car", &six(), 2),
        refusal("count-of-held-cars", &six(), 6),
        refusal("grade-of-a-held-car", &six(), 3),
        refusal("gross-of-a-held-car", &six(), 20_000),
        refusal("net-of-a-held-car", &six(), 18_000),
        refusal("free-place-has-it", &with_free(six(), &[(7, held(77, 1, 5, 4))]), 77),
        refusal("last-place-has-it", &with_free(many(59), &[(60, held(160, 1, 5, 4))]), 160),
        refusal("free-places-have-it-on-an-empty-train", &but_empty(), 12),
        refusal("free-places-stay", &with_free(six(), &[(7, SIX[0]), (60, SIX[1])]), 99),
    ]);
    vectors
}

/// An empty train with cars in its free places.
fn but_empty() -> Train {
    let mut train = Train::default();
    train.places[..6].copy_from_slice(&SIX);
    train
}
