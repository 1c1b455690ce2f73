//! Cars and tables of the standards, worked out by the rules of the sheet.

use super::rack::{cars_on, CAR};
use super::text::columns;
use super::Case;
use crate::car::Car;

/// A lying cylinder of 3,000 mm by 10,300 mm with flat ends, every 10 cm.
pub const CYLINDER: [u32; 31] = [
    0, 745, 2084, 3789, 5771, 7976, 10366, 12911, 15586, 18370, 21244, 24191, 27195, 30242, 33315,
    36403, 39491, 42565, 45611, 48615, 51562, 54436, 57220, 59895, 62440, 64830, 67036, 69017,
    70722, 72062, 72806,
];

pub fn cases() -> Vec<Case> {
    let rows: String = CYLINDER
        .iter()
        .enumerate()
        .map(|(row, capacity)| format!("R {} {capacity}\n", 100 * row))
        .collect();
    vec![
        Case::new(
            "source-cylinder-of-31-rows",
            columns(&format!(
                "T 3 31
                 {rows}
                 C 101 3 3 1 2 2806 2807 0 0 0 523 9572 60 20
                 C 102 3 4 2 4 2745 2749 2746 2747 35 685 9711 100 87
                 C 103 3 1 1 2 1500 1501 0 0 0 200 9100 30 10
                 C 104 3 2 2 2 3000 3000 0 0 2999 900 9000 0 12
                 E 4"
            )),
            "A 101 28065 7080910 6902578 66071 65542
             A 102 27460 6954055 6710977 65170 63951
             A 103 15005 3641844 3627989 33015 32883
             A 104 30000 744 703 6 6
             S 4 164262 162382
             G 1 1 33015 32883
             G 2 1 6 6
             G 3 1 66071 65542
             G 4 1 65170 63951",
        ),
        Case::new(
            "source-annex-car-of-type-85",
            columns(
                "T 85 4
                 R 0 0
                 R 100 435
                 R 2900 72959
                 R 2910 73080
                 C 1 85 4 1 2 2904 2904 0 0 100 523 9632 100 100
                 E 1",
            ),
            "A 1 29040 7257240 7076034 68156 66793
             S 1 68156 66793
             G 1 0 0 0
             G 2 0 0 0
             G 3 0 0 0
             G 4 1 68156 66793",
        ),
        Case::new(
            "source-interpolation-of-type-62",
            columns(
                "T 62 3
                 R 0 0
                 R 2800 70705
                 R 2810 70865
                 C 1 62 3 1 2 2806 2806 0 0 0 523 9572 60 20
                 E 1",
            ),
            "A 1 28060 7080100 6901788 66064 65535
             S 1 66064 65535
             G 1 0 0 0
             G 2 0 0 0
             G 3 1 66064 65535
             G 4 0 0 0",
        ),
        Case::new(
            "source-table-by-centimetres",
            cars_on(
                "T 1 4\nR 0 0\nR 10 18\nR 20 38\nR 30 68",
                &[
                    Car { number: 1, readings: [15, 15, 0, 0], ..CAR },
                    Car { number: 2, readings: [29, 30, 0, 0], water_level: 5, ..CAR },
                    Car { number: 3, readings: [31, 31, 0, 0], ..CAR },
                ],
            ),
            "A 1 150 2800 2714 26 26
             A 2 295 5750 5574 53 53
             X 3 16
             S 2 79 79
             G 1 0 0 0
             G 2 0 0 0
             G 3 2 79 79
             G 4 0 0 0",
        ),
    ]
}
