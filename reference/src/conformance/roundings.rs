//! Every rounding: a half going up, and numbers on both sides of a half.

use super::rack::{cars_on, numbered, CAR};
use super::Case;
use crate::car::Car;

fn at(level: u32) -> Car {
    Car { readings: [level, level, 0, 0], ..CAR }
}

fn over(level: u32, water_level: u32) -> Car {
    Car { water_level, ..at(level) }
}

fn four(readings: [u32; 4]) -> Car {
    Car { given: 4, readings, ..CAR }
}

pub fn cases() -> Vec<Case> {
    [levels(), capacities(), masses()].into_iter().flatten().collect()
}

fn levels() -> Vec<Case> {
    vec![numbered(
        "rounding-mean-of-three",
        &[
            four([1500, 1502, 1500, 1501]),
            four([1500, 1503, 1501, 1501]),
            four([1500, 1503, 1501, 1502]),
        ],
        "A 1 15003 3500900 3393387 32237 32011
         A 2 15007 3502100 3394550 32248 32022
         A 3 15010 3503000 3395423 32257 32031
         S 3 96742 96064
         G 1 0 0 0
         G 2 0 0 0
         G 3 3 96742 96064
         G 4 0 0 0",
    )]
}

fn capacities() -> Vec<Case> {
    // 0.5 units of 0.01 dm³ to the mm, and 2/3 of a unit.
    let halves = "T 1 2\nR 0 0\nR 200 1";
    let thirds = "T 1 2\nR 0 0\nR 150 1";
    let flat = "T 1 2\nR 0 0\nR 3600 1";
    let numbers = |cars: &[Car]| -> Vec<Car> {
        cars.iter().zip(1..).map(|(car, number)| Car { number, ..*car }).collect()
    };
    vec![
        Case::new(
            "rounding-capacity-half-goes-up",
            cars_on(halves, &numbers(&[at(1), at(2), at(3), at(5), at(200)])),
            "A 1 10 1 1 0 0
             A 2 20 1 1 0 0
             A 3 30 2 2 0 0
             A 4 50 3 3 0 0
             A 5 2000 100 97 1 1
             S 5 1 1
             G 1 0 0 0
             G 2 0 0 0
             G 3 5 1 1
             G 4 0 0 0",
        ),
        Case::new(
            "rounding-capacity-of-water-half-goes-up",
            cars_on(halves, &numbers(&[over(2, 1), over(3, 1), over(4, 1), over(4, 3)])),
            "A 1 20 0 0 0 0
             A 2 30 1 1 0 0
             A 3 40 1 1 0 0
             A 4 40 0 0 0 0
             S 4 0 0
             G 1 0 0 0
             G 2 0 0 0
             G 3 4 0 0
             G 4 0 0 0",
        ),
        Case::new(
            "rounding-capacity-to-nearest",
            cars_on(thirds, &numbers(&[at(1), at(2), at(3), at(4), at(5), over(5, 4), over(6, 5)])),
            "A 1 10 1 1 0 0
             A 2 20 1 1 0 0
             A 3 30 2 2 0 0
             A 4 40 3 3 0 0
             A 5 50 3 3 0 0
             A 6 50 0 0 0 0
             A 7 60 1 1 0 0
             S 7 0 0
             G 1 0 0 0
             G 2 0 0 0
             G 3 7 0 0
             G 4 0 0 0",
        ),
        Case::new(
            "accepted-no-oil-on-a-flat-table",
            cars_on(flat, &numbers(&[at(1), at(17), at(18), over(19, 18), over(54, 53)])),
            "A 1 10 0 0 0 0
             A 2 170 0 0 0 0
             A 3 180 1 1 0 0
             A 4 190 0 0 0 0
             A 5 540 1 1 0 0
             S 5 0 0
             G 1 0 0 0
             G 2 0 0 0
             G 3 5 0 0
             G 4 0 0 0",
        ),
        numbered(
            "accepted-levels-on-and-beside-rows",
            &[at(999), at(1000), at(1001), over(1001, 1000), over(2001, 999)],
            "A 1 9990 1998000 1936641 18398 18269
             A 2 10000 2000000 1938580 18417 18288
             A 3 10010 2003000 1941488 18444 18315
             A 4 10010 3000 2908 28 28
             A 5 20010 3004000 2911747 27662 27468
             S 5 82949 82368
             G 1 0 0 0
             G 2 0 0 0
             G 3 5 82949 82368
             G 4 0 0 0",
        ),
    ]
}

fn masses() -> Vec<Case> {
    let large = "T 1 2\nR 0 0\nR 3600 200000";
    let clean = |stick, level, temperature, density| Car {
        stick,
        temperature,
        density,
        water: 0,
        impurities: 0,
        ..at(level)
    };
    vec![
        numbered(
            "rounding-volume-at-temperature",
            &[
                Car { temperature: 523, ..CAR },
                Car { temperature: 523, stick: 2, ..CAR },
                clean(2, 2800, 900, 9600),
                clean(2, 1500, 900, 9855),
                clean(1, 1501, 523, 9500),
            ],
            "A 1 15000 3500000 3410931 32404 32177
             A 2 15000 3500000 3412086 32415 32188
             A 3 28000 6600000 6270356 60195 60195
             A 4 15000 3500000 3331538 32832 32832
             A 5 15010 3503000 3413853 32432 32432
             S 5 190278 189824
             G 1 0 0 0
             G 2 0 0 0
             G 3 5 190278 189824
             G 4 0 0 0",
        ),
        Case::new(
            "rounding-coefficient-half-at-density-9600",
            cars_on(large, &[Car { number: 1, ..clean(1, 3380, 567, 9600) }]),
            "A 1 33800 18777778 18251170 175211 175211
             S 1 175211 175211
             G 1 0 0 0
             G 2 0 0 0
             G 3 1 175211 175211
             G 4 0 0 0",
        ),
        Case::new(
            "rounding-exponent-and-terms",
            cars_on(
                large,
                &[
                    Car { number: 1, ..clean(2, 3493, 826, 9714) },
                    Car { number: 2, ..clean(2, 3414, 893, 9107) },
                    Car { number: 3, ..clean(1, 3448, 608, 9839) },
                ],
            ),
            "A 1 34930 19405556 18547360 180169 180169
             A 2 34140 18966667 17955667 163522 163522
             A 3 34480 19155556 18585114 182859 182859
             S 3 526550 526550
             G 1 0 0 0
             G 2 0 0 0
             G 3 3 526550 526550
             G 4 0 0 0",
        ),
        numbered(
            "rounding-volume-at-15",
            &[clean(2, 2800, 900, 9600), clean(2, 1500, 900, 9855), CAR],
            "A 1 28000 6600000 6270356 60195 60195
             A 2 15000 3500000 3331538 32832 32832
             A 3 15000 3500000 3392515 32229 32003
             S 3 125256 125030
             G 1 0 0 0
             G 2 0 0 0
             G 3 3 125256 125030
             G 4 0 0 0",
        ),
        numbered(
            "rounding-gross-half-goes-up",
            &[clean(1, 1003, 600, 9000), clean(1, 68, 500, 9000), clean(1, 1687, 500, 9000)],
            "A 1 10030 2009000 1942500 17483 17483
             A 2 680 136000 132500 1193 1193
             A 3 16870 4061000 3956500 35609 35609
             S 3 54285 54285
             G 1 0 0 0
             G 2 0 0 0
             G 3 3 54285 54285
             G 4 0 0 0",
        ),
        numbered(
            "rounding-gross-to-nearest",
            &[clean(1, 1010, 600, 9600), clean(1, 1500, 600, 9500), clean(2, 2999, 830, 9600)],
            "A 1 10100 2030000 1968555 18898 18898
             A 2 15000 3500000 3392515 32229 32229
             A 3 29990 6998000 6681445 64142 64142
             S 3 115269 115269
             G 1 0 0 0
             G 2 0 0 0
             G 3 3 115269 115269
             G 4 0 0 0",
        ),
        numbered(
            "rounding-net-half-goes-up",
            &[
                Car { density: 9400, water: 100, impurities: 20, ..CAR },
                Car { density: 9125, water: 100, impurities: 50, ..CAR },
                Car { density: 9600, temperature: 500, water: 0, impurities: 20, ..at(200) },
            ],
            "A 1 15000 3500000 3390929 31875 31493
             A 2 15000 3500000 3386345 30900 30437
             A 3 2000 400000 390585 3750 3743
             S 3 66525 65673
             G 1 0 0 0
             G 2 0 0 0
             G 3 3 66525 65673
             G 4 0 0 0",
        ),
        numbered(
            "rounding-net-to-nearest",
            &[
                Car { density: 9600, ..at(1010) },
                Car { temperature: 900, impurities: 30, ..at(2999) },
                CAR,
            ],
            "A 1 10100 2030000 1968555 18898 18766
             A 2 29990 6998000 6638407 63065 62560
             A 3 15000 3500000 3392515 32229 32003
             S 3 114192 113329
             G 1 0 0 0
             G 2 0 0 0
             G 3 3 114192 113329
             G 4 0 0 0",
        ),
        numbered(
            "rounding-density-at-20",
            &[
                Car { grade: 1, density: 9584, water: 0, impurities: 0, ..CAR },
                Car { grade: 1, density: 9585, water: 0, impurities: 0, ..CAR },
                Car { grade: 2, density: 9634, water: 0, impurities: 0, ..CAR },
                Car { grade: 2, density: 9635, water: 0, impurities: 0, ..CAR },
            ],
            "A 1 15000 3500000 3393815 32526 32526
             X 2 21
             A 3 15000 3500000 3394576 32703 32703
             X 4 21
             S 2 65229 65229
             G 1 1 32526 32526
             G 2 1 32703 32703
             G 3 0 0 0
             G 4 0 0 0",
        ),
    ]
}
