//! Readings and water levels that are small where what is worked out of them is held in 32 bits: ten times
//! a number, the sum of ten times the readings, twice that sum.

use super::terms::of_four_tables;
use super::{above, at, between, of_four, rack, Group, Vector, NONE};
use crate::car::Car;
use crate::conformance::rack::CAR;

/// Ten times it is 15,004 in 32 bits.
const TENFOLD: u32 = 429_498_230;

/// Ten times it is 4 in 32 bits.
const WATER: u32 = 429_496_730;

pub fn groups() -> Vec<Group<Vector>> {
    vec![
        Group {
            about: "16: readings that are in the table where their mean is worked out in 32 bits",
            vectors: readings(),
        },
        Group {
            about:
                "17: water levels that are below the mean level where ten times them is in 32 bits",
            vectors: water_levels(),
        },
    ]
}

fn refusal(name: &str, car: Car) -> Vector {
    rack(&format!("refusal-{name}"), car, NONE)
}

fn in_each_table(name: &str, car: Car) -> impl Iterator<Item = Vector> {
    let name = format!("refusal-{name}");
    (0..4).map(move |place| of_four_tables(&name, place, car))
}

fn readings() -> Vec<Vector> {
    let low = TENFOLD;
    let mut vectors = vec![
        refusal("16-readings-times-10-in-32-bits", at(low)),
        refusal("16-first-two-of-four-times-10-in-32-bits", of_four([low, low, 1_500, 1_500])),
        // 15,004, 15,014 and 15,014 in 32 bits.
        refusal("16-three-of-four-times-10-in-32-bits", of_four([low, low + 2, low + 1, low + 1])),
        // Ten times the sum is 15,004 and 45,004 in 32 bits, half and a third of it 7,502 and 15,001.
        refusal("16-sum-of-two-in-32-bits", at(214_749_115)),
        refusal(
            "16-sum-of-three-in-32-bits",
            of_four([143_167_076, 143_167_078, 143_167_077, 143_167_077]),
        ),
        // Twice as much, with 2 and 3 added, is 60,026 and 90,027 in 32 bits: 15,006 and 15,004 tenths.
        refusal("16-twice-the-sum-of-two-in-32-bits", at(107_375_683)),
        refusal(
            "16-twice-the-sum-of-three-in-32-bits",
            of_four([71_584_289, 71_584_291, 71_584_288, 71_584_289]),
        ),
        refusal("16-largest-readings", between(u32::MAX, u32::MAX - 1)),
    ];
    vectors.extend(in_each_table("16-readings-times-10-in-32-bits", at(low)));
    vectors
}

fn water_levels() -> Vec<Vector> {
    let of_tenths = of_four([1_500, 1_502, 1_501, 1_501]);
    let mut vectors = vec![
        refusal("17-water-level-times-10-in-32-bits", Car { water_level: WATER, ..CAR }),
        refusal(
            "17-water-level-times-10-in-32-bits-with-a-mean-of-three",
            Car { water_level: WATER, ..of_tenths },
        ),
        refusal("17-largest-water-level", Car { water_level: u32::MAX, ..CAR }),
    ];
    vectors.extend(in_each_table("17-water-level-times-10-in-32-bits", above(1_500, WATER)));
    vectors
}
