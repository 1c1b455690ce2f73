//! Sheets that are answered otherwise by a program that takes a wrong way with tenths of a millimetre.

use super::levels::{four, two};
use super::rack::{on_rack, CAR};
use super::tenths::{over, with_listings, Named};
use super::Case;
use crate::car::Car;

pub fn cases() -> Vec<Case> {
    let sheets = [means(), bounds(), capacities()].into_iter().flatten();
    with_listings(sheets, include_str!("tenths_partings.txt"))
}

/// Of 15003, 15005 and 15007 tenths.
fn of_tenths() -> [Car; 3] {
    [four(1500, 1502, 1500, 1501), two(1500, 1501), four(1500, 1502, 1501, 1501)]
}

fn means() -> Vec<Named> {
    // Twice ten times the sum of the three closest, with 3 added, passes 2³² by so much that it looks like
    // a level in the table: 15,004, 4 and 29,994 tenths.
    let large = [
        four(71_584_289, 71_584_291, 71_584_288, 71_584_289),
        four(71_582_789, 71_582_791, 71_582_789, 71_582_788),
        four(71_585_789, 71_585_787, 71_585_788, 71_585_788),
    ];
    // Twice ten times the sum of both, with 2 added, passes 2³¹ by as much as 14,998 and 15,003 tenths.
    let half_as_large = [two(53_688_591, 53_688_591), two(53_688_592, 53_688_591)];
    let apart = [two(1500, 1501), four(1500, 1502, 1501, 1501), four(1500, 1503, 1501, 1502)];
    let low = [four(0, 2, 0, 1), two(0, 1), four(0, 2, 1, 1)];
    vec![
        ("parting-mean-level-rounded-to-mm", on_rack(&of_tenths())),
        ("parting-mean-level-cut-to-mm", on_rack(&of_tenths())),
        ("parting-mean-level-shown-in-mm", on_rack(&[CAR, two(1500, 1501), two(1, 1)])),
        ("parting-readings-times-ten-before-they-are-compared", on_rack(&apart)),
        ("parting-levels-below-1-mm-refused", on_rack(&low)),
        ("parting-mean-of-three-in-32-bits", on_rack(&large)),
        ("parting-mean-of-two-in-31-bits", on_rack(&half_as_large)),
    ]
}

fn bounds() -> Vec<Named> {
    let at_the_end = [two(3000, 3001), four(3000, 3002, 3000, 3001), two(3000, 3000)];
    let above_300 = [CAR, two(300, 300), two(300, 301), two(301, 301)];
    let on_water = of_tenths().map(|car| over(car, 1500));
    let wet = [over(CAR, 1500), over(CAR, 1501), over(CAR, 200), over(two(150, 150), 1500)];
    vec![
        ("parting-last-level-not-times-ten", on_rack(&above_300)),
        ("parting-last-level-compared-with-the-mean-cut-to-mm", on_rack(&at_the_end)),
        ("parting-last-level-compared-with-the-nearest-mm", on_rack(&at_the_end)),
        ("parting-water-level-not-times-ten", on_rack(&wet)),
        ("parting-water-level-compared-with-the-mean-cut-to-mm", on_rack(&on_water)),
        ("parting-water-level-compared-with-the-nearest-mm", on_rack(&on_water)),
        ("parting-water-level-compared-with-the-lowest-reading", on_rack(&on_water)),
    ]
}

fn capacities() -> Vec<Named> {
    let low = [two(100, 100), two(150, 150), two(299, 300)];
    vec![
        ("parting-capacity-at-the-mean-cut-to-mm", on_rack(&of_tenths())),
        ("parting-capacity-at-the-nearest-mm", on_rack(&of_tenths())),
        ("parting-capacity-at-the-next-mm", on_rack(&of_tenths())),
        ("parting-rows-not-times-ten", on_rack(&low)),
    ]
}
