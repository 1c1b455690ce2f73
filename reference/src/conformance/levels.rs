//! Readings and mean levels: two or four, near and far, ties of triples (15 and 16). Tenths of a mm stand
//! in `tenths`.

use super::rack::{numbered, CAR};
use super::Case;
use crate::car::Car;

/// The largest number that a field holds.
pub const LARGEST: u32 = 99_999_999;

pub fn two(first: u32, second: u32) -> Car {
    Car { readings: [first, second, 0, 0], ..CAR }
}

pub fn four(first: u32, second: u32, third: u32, fourth: u32) -> Car {
    Car { given: 4, readings: [first, second, third, fourth], ..CAR }
}

pub fn cases() -> Vec<Case> {
    vec![
        numbered(
            "refusal-15-two-readings",
            &[two(1500, 1501), two(1501, 1500), two(1500, 1502), two(1502, 1500), two(0, LARGEST)],
            "A 1 15005 3501500 3393969 32243 32017
             A 2 15005 3501500 3393969 32243 32017
             X 3 15
             X 4 15
             X 5 15
             S 2 64486 64034
             G 1 0 0 0
             G 2 0 0 0
             G 3 2 64486 64034
             G 4 0 0 0",
        ),
        numbered(
            "accepted-two-or-four-readings-alike",
            &[two(1500, 1501), four(1500, 1501, 1500, 1501)],
            "A 1 15005 3501500 3393969 32243 32017
             A 2 15005 3501500 3393969 32243 32017
             S 2 64486 64034
             G 1 0 0 0
             G 2 0 0 0
             G 3 2 64486 64034
             G 4 0 0 0",
        ),
        numbered(
            "accepted-first-two-agree-others-ignored",
            &[
                four(1500, 1501, 0, 0),
                four(1500, 1500, 1600, 1600),
                four(1500, 1501, LARGEST, LARGEST),
                four(1501, 1500, 1500, 1500),
            ],
            "A 1 15005 3501500 3393969 32243 32017
             A 2 15000 3500000 3392515 32229 32003
             A 3 15005 3501500 3393969 32243 32017
             A 4 15005 3501500 3393969 32243 32017
             S 4 128958 128054
             G 1 0 0 0
             G 2 0 0 0
             G 3 4 128958 128054
             G 4 0 0 0",
        ),
        numbered(
            "accepted-first-two-differ-by-2",
            &[
                four(1500, 1502, 1502, 1502),
                four(1502, 1500, 1500, 1500),
                four(1500, 1502, 1501, 1501),
            ],
            "A 1 15020 3506000 3398331 32284 32058
             A 2 15000 3500000 3392515 32229 32003
             A 3 15007 3502100 3394550 32248 32022
             S 3 96761 96083
             G 1 0 0 0
             G 2 0 0 0
             G 3 3 96761 96083
             G 4 0 0 0",
        ),
        numbered(
            "accepted-far-reading-left-out",
            &[
                four(1500, LARGEST, 1501, 1502),
                four(LARGEST, 1500, 1501, 1502),
                four(1500, 1502, LARGEST, 1501),
                four(1500, 1502, 1501, LARGEST),
                four(0, 1500, 1501, 1502),
                four(1500, 1502, 1501, 0),
            ],
            "A 1 15010 3503000 3395423 32257 32031
             A 2 15010 3503000 3395423 32257 32031
             A 3 15010 3503000 3395423 32257 32031
             A 4 15010 3503000 3395423 32257 32031
             A 5 15010 3503000 3395423 32257 32031
             A 6 15010 3503000 3395423 32257 32031
             S 6 193542 192186
             G 1 0 0 0
             G 2 0 0 0
             G 3 6 193542 192186
             G 4 0 0 0",
        ),
        numbered(
            "accepted-ties-of-triples",
            &[
                four(1500, 1503, 1501, 1502),
                four(1503, 1500, 1502, 1501),
                four(1500, 1504, 1501, 1503),
                four(1500, 1502, 1500, 1502),
                four(1502, 1500, 1502, 1500),
            ],
            "A 1 15010 3503000 3395423 32257 32031
             A 2 15010 3503000 3395423 32257 32031
             A 3 15013 3503900 3396295 32265 32039
             A 4 15007 3502100 3394550 32248 32022
             A 5 15007 3502100 3394550 32248 32022
             S 5 161275 160145
             G 1 0 0 0
             G 2 0 0 0
             G 3 5 161275 160145
             G 4 0 0 0",
        ),
        numbered(
            "accepted-upper-triple-closer-by-1",
            &[
                four(1500, 1504, 1502, 1503),
                four(1499, 1503, 1501, 1502),
                four(1500, 1504, 1502, 1501),
            ],
            "A 1 15030 3509000 3401238 32312 32086
             A 2 15020 3506000 3398331 32284 32058
             A 3 15010 3503000 3395423 32257 32031
             S 3 96853 96175
             G 1 0 0 0
             G 2 0 0 0
             G 3 3 96853 96175
             G 4 0 0 0",
        ),
        numbered(
            "refusal-16-mean-level-0",
            &[two(0, 0), four(0, 0, 1500, 1500), four(0, 2, 0, 0)],
            "X 1 16
             X 2 16
             X 3 16
             S 0 0 0
             G 1 0 0 0
             G 2 0 0 0
             G 3 0 0 0
             G 4 0 0 0",
        ),
        numbered(
            "refusal-16-above-last-level",
            &[
                two(2999, 3000),
                two(3000, 3000),
                two(3000, 3001),
                two(3001, 3001),
                four(3000, 3002, 2999, 3000),
                four(2998, 3001, 3000, 3001),
                four(3000, 3003, 3001, 3001),
            ],
            "A 1 29995 6999000 6784060 64449 63998
             A 2 30000 7000000 6785030 64458 64007
             X 3 16
             X 4 16
             A 5 29997 6999400 6784448 64452 64001
             X 6 16
             X 7 16
             S 3 193359 192006
             G 1 0 0 0
             G 2 0 0 0
             G 3 3 193359 192006
             G 4 0 0 0",
        ),
        numbered(
            "refusal-16-largest-readings",
            &[
                two(LARGEST, LARGEST),
                two(LARGEST - 1, LARGEST),
                four(LARGEST, LARGEST - 2, LARGEST, LARGEST),
                four(LARGEST, LARGEST, 1500, 1500),
                four(LARGEST, LARGEST - 3, 0, LARGEST),
            ],
            "X 1 16
             X 2 16
             X 3 16
             X 4 16
             X 5 16
             S 0 0 0
             G 1 0 0 0
             G 2 0 0 0
             G 3 0 0 0
             G 4 0 0 0",
        ),
    ]
}
