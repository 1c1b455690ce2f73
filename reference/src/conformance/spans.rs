//! Four readings whose first two do not agree: the three closest span 3 mm at most, or more (23).

use super::levels::{four, LARGEST};
use super::rack::{numbered, NONE_ACCEPTED};
use super::Case;
use crate::car::Car;

pub fn cases() -> Vec<Case> {
    [refused(), at_the_ends(), accepted(), in_every_order()].into_iter().flatten().collect()
}

/// Spans of 3, 4 and 5 mm and more, of either triple or of both.
fn refused() -> Vec<Case> {
    vec![
        numbered(
            "refusal-23-span-of-the-lower-triple",
            &[
                four(1500, 1503, 1501, 1600),
                four(1500, 1504, 1501, 1600),
                four(1505, 1500, 1501, 1600),
                four(1500, 1600, 1504, 1503),
                four(1600, 1500, 1502, 1504),
                four(1500, 1508, 1502, 1504),
                four(1504, 1500, 1500, 1505),
            ],
            "A 1 15013 3503900 3396295 32265 32039
             X 2 23
             X 3 23
             X 4 23
             X 5 23
             X 6 23
             X 7 23
             S 1 32265 32039
             G 1 0 0 0
             G 2 0 0 0
             G 3 1 32265 32039
             G 4 0 0 0",
        ),
        numbered(
            "refusal-23-span-of-the-upper-triple",
            &[
                four(1400, 1503, 1501, 1500),
                four(1400, 1504, 1501, 1500),
                four(1505, 1400, 1501, 1500),
                four(1504, 1500, 1400, 1503),
                four(1500, 1504, 1502, 0),
                four(1504, 1500, 1502, 1496),
                four(1500, 1504, 1504, 1499),
            ],
            "A 1 15013 3503900 3396295 32265 32039
             X 2 23
             X 3 23
             X 4 23
             X 5 23
             X 6 23
             X 7 23
             S 1 32265 32039
             G 1 0 0 0
             G 2 0 0 0
             G 3 1 32265 32039
             G 4 0 0 0",
        ),
        numbered(
            "refusal-23-tie-of-triples-that-span-4",
            &[
                four(1500, 1505, 1501, 1504),
                four(1505, 1501, 1504, 1500),
                four(1500, 1506, 1502, 1504),
                four(1500, 1504, 1500, 1504),
            ],
            "X 1 23
             X 2 23
             X 3 23
             X 4 23
             S 0 0 0
             G 1 0 0 0
             G 2 0 0 0
             G 3 0 0 0
             G 4 0 0 0",
        ),
        numbered(
            "refusal-23-two-pairs-of-readings",
            &[
                four(1500, 1510, 1500, 1510),
                four(1510, 1500, 1501, 1511),
                four(1000, 2000, 2000, 1000),
            ],
            "X 1 23
             X 2 23
             X 3 23
             S 0 0 0
             G 1 0 0 0
             G 2 0 0 0
             G 3 0 0 0
             G 4 0 0 0",
        ),
    ]
}

/// Zeros and the largest numbers among the readings.
fn at_the_ends() -> Vec<Case> {
    vec![
        numbered(
            "refusal-23-zeros-among-the-readings",
            &[
                four(0, 3, 2, 99),
                four(0, 4, 2, 99),
                four(0, 3, 0, 3),
                four(0, 4, 0, 4),
                four(0, 4, 0, 0),
                four(1500, 1504, 0, 0),
                four(1504, 0, 1502, 1500),
            ],
            "A 1 17 3400 3296 31 31
             X 2 23
             A 3 10 2000 1939 18 18
             X 4 23
             X 5 16
             X 6 23
             X 7 23
             S 2 49 49
             G 1 0 0 0
             G 2 0 0 0
             G 3 2 49 49
             G 4 0 0 0",
        ),
        numbered(
            "refusal-23-largest-readings",
            &[
                four(0, LARGEST, 0, LARGEST),
                four(LARGEST, 0, 3000, 1500),
                four(LARGEST, LARGEST - 4, LARGEST - 2, 0),
                four(LARGEST - 3, LARGEST, LARGEST - 1, 0),
            ],
            "X 1 23
             X 2 23
             X 3 23
             X 4 16
             S 0 0 0
             G 1 0 0 0
             G 2 0 0 0
             G 3 0 0 0
             G 4 0 0 0",
        ),
    ]
}

/// Spans of 3 mm, and cars that 23 does not touch.
fn accepted() -> Vec<Case> {
    vec![
        numbered(
            "accepted-span-3-of-the-lower-triple",
            &[
                four(1500, 1503, 1502, 1600),
                four(1503, 1500, 1500, 1506),
                four(1500, LARGEST, 1503, 1503),
                four(1500, 1505, 1501, 1503),
            ],
            "A 1 15017 3505100 3397458 32276 32050
             A 2 15010 3503000 3395423 32257 32031
             A 3 15020 3506000 3398331 32284 32058
             A 4 15013 3503900 3396295 32265 32039
             S 4 129082 128178
             G 1 0 0 0
             G 2 0 0 0
             G 3 4 129082 128178
             G 4 0 0 0",
        ),
        numbered(
            "accepted-span-3-of-the-upper-triple",
            &[
                four(1400, 1503, 1502, 1500),
                four(1503, 1500, 1496, 1503),
                four(0, 1503, 1500, 1500),
                four(1499, 1504, 1501, 1503),
            ],
            "A 1 15017 3505100 3397458 32276 32050
             A 2 15020 3506000 3398331 32284 32058
             A 3 15010 3503000 3395423 32257 32031
             A 4 15027 3508100 3400366 32303 32077
             S 4 129120 128216
             G 1 0 0 0
             G 2 0 0 0
             G 3 4 129120 128216
             G 4 0 0 0",
        ),
        numbered(
            "accepted-tie-of-triples-that-span-3",
            &[
                four(1500, 1504, 1501, 1503),
                four(1504, 1501, 1503, 1500),
                four(1500, 1503, 1500, 1503),
                four(1505, 1502, 1503, 1500),
            ],
            "A 1 15013 3503900 3396295 32265 32039
             A 2 15013 3503900 3396295 32265 32039
             A 3 15010 3503000 3395423 32257 32031
             A 4 15017 3505100 3397458 32276 32050
             S 4 129063 128159
             G 1 0 0 0
             G 2 0 0 0
             G 3 4 129063 128159
             G 4 0 0 0",
        ),
        numbered(
            "accepted-span-small-of-three-large-of-four",
            &[
                four(1500, 1504, 1501, 1502),
                four(1502, 0, 1501, 1500),
                four(1503, 1507, 1506, 1505),
                four(LARGEST, 1500, 1500, 1503),
            ],
            "A 1 15010 3503000 3395423 32257 32031
             A 2 15010 3503000 3395423 32257 32031
             A 3 15060 3518000 3409962 32395 32168
             A 4 15010 3503000 3395423 32257 32031
             S 4 129166 128261
             G 1 0 0 0
             G 2 0 0 0
             G 3 4 129166 128261
             G 4 0 0 0",
        ),
        numbered(
            "accepted-first-two-agree-others-wild",
            &[
                four(1500, 1501, 1510, 1520),
                four(1501, 1500, 0, LARGEST),
                four(1500, 1500, 1504, 1508),
                four(1500, 1501, 1505, 1505),
                four(1501, 1501, 1497, 1000),
            ],
            "A 1 15005 3501500 3393969 32243 32017
             A 2 15005 3501500 3393969 32243 32017
             A 3 15000 3500000 3392515 32229 32003
             A 4 15005 3501500 3393969 32243 32017
             A 5 15010 3503000 3395423 32257 32031
             S 5 161215 160085
             G 1 0 0 0
             G 2 0 0 0
             G 3 5 161215 160085
             G 4 0 0 0",
        ),
    ]
}

/// The same four readings in each of their 24 orders.
fn in_every_order() -> Vec<Case> {
    let refused: String = (1..=24).map(|number| format!("X {number} 23\n")).collect();
    vec![
        numbered(
            "refusal-23-in-every-order",
            &orders([1500, 1502, 1504, 1506]),
            &format!("{refused}{NONE_ACCEPTED}"),
        ),
        numbered(
            "accepted-span-3-in-every-order",
            &orders([1500, 1502, 1503, 1600]),
            "A 1 15017 3505100 3397458 32276 32050
             A 2 15017 3505100 3397458 32276 32050
             A 3 15017 3505100 3397458 32276 32050
             A 4 15017 3505100 3397458 32276 32050
             A 5 15017 3505100 3397458 32276 32050
             A 6 15017 3505100 3397458 32276 32050
             A 7 15017 3505100 3397458 32276 32050
             A 8 15017 3505100 3397458 32276 32050
             A 9 15025 3507500 3399784 32298 32072
             A 10 15025 3507500 3399784 32298 32072
             A 11 15017 3505100 3397458 32276 32050
             A 12 15017 3505100 3397458 32276 32050
             A 13 15017 3505100 3397458 32276 32050
             A 14 15017 3505100 3397458 32276 32050
             A 15 15025 3507500 3399784 32298 32072
             A 16 15025 3507500 3399784 32298 32072
             A 17 15017 3505100 3397458 32276 32050
             A 18 15017 3505100 3397458 32276 32050
             A 19 15017 3505100 3397458 32276 32050
             A 20 15017 3505100 3397458 32276 32050
             A 21 15017 3505100 3397458 32276 32050
             A 22 15017 3505100 3397458 32276 32050
             A 23 15017 3505100 3397458 32276 32050
             A 24 15017 3505100 3397458 32276 32050
             S 24 774712 769288
             G 1 0 0 0
             G 2 0 0 0
             G 3 24 774712 769288
             G 4 0 0 0",
        ),
    ]
}

/// A car for each order of four readings.
fn orders(readings: [u32; 4]) -> Vec<Car> {
    (0..256)
        .map(|code| [code / 64, code / 16 % 4, code / 4 % 4, code % 4])
        .filter(|places| (0..4).all(|place| places.contains(&place)))
        .map(|places| {
            let [first, second, third, fourth] = places.map(|place| readings[place]);
            four(first, second, third, fourth)
        })
        .collect()
}
