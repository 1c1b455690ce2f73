//! Mean levels in tenths of a millimetre: halves and thirds, the bounds of 16 and 17 by a tenth, levels
//! below 1 mm, and numbers of a caller that pass 32 bits.

use reference::car::{Car, Figures};
use reference::level;
use reference::listing;
use reference::operations::{self, HandedIn};
use reference::refusal::Refusal;
use reference::table::Row;

/// The paper's first car.
const CAR: Car = Car {
    number: 50_000_001,
    car_type: 1,
    grade: 3,
    stick: 1,
    given: 2,
    readings: [1_500, 1_500, 0, 0],
    water_level: 0,
    temperature: 600,
    density: 9_500,
    water: 50,
    impurities: 20,
};

/// The paper's table.
fn tables() -> Vec<HandedIn> {
    let rows = [(0, 0), (1_000, 20_000), (2_000, 50_000), (3_000, 70_000)];
    let rows = rows.map(|(level, capacity)| Row { level, capacity }).to_vec();
    vec![HandedIn { car_type: 1, announced: 4, rows }]
}

fn two(first: u32, second: u32) -> Car {
    Car { readings: [first, second, 0, 0], ..CAR }
}

fn four(readings: [u32; 4]) -> Car {
    Car { given: 4, readings, ..CAR }
}

/// Mean level in 0.1 mm and V0 in 0.01 dm³, or the number of the refusal.
fn ask(car: Car) -> Result<(u32, u32), u32> {
    let answer = operations::work_out(&tables(), &car);
    answer.map(|Figures { level, volume, .. }| (level, volume)).map_err(Refusal::number)
}

#[test]
fn the_paper_s_sheet_with_a_third_car_on_less_water() {
    let sheet = "\
T        1        4
R        0        0
R     1000    20000
R     2000    50000
R     3000    70000
C 50000001        1        3        1        2     1500     1500        0        0        0      600     9500       50       20
C 50000002        1        3        1        2     1500     1501        0        0     1501      600     9500       50       20
C 50000003        1        3        1        2     1500     1501        0        0     1500      600     9500       50       20
E        3
";
    // The third car has 15 dm³ of oil: 1,500 units, Vt 1,503, V15 1,453.93, 13.81 kg.
    let listing = "\
A 50000001    15000  3500000  3392515    32229    32003
X 50000002       17
A 50000003    15005     1500     1454       14       14
S        2    32243    32017
G        1        0        0        0
G        2        0        0        0
G        3        2    32243    32017
G        4        0        0        0
";
    assert_eq!(String::from_utf8(listing::of(sheet.as_bytes())).unwrap(), listing);
}

#[test]
fn halves_and_thirds() {
    // 30 dm³ to the mm between 1000 and 2000 mm.
    assert_eq!(ask(two(1_500, 1_501)), Ok((15_005, 3_501_500)));
    assert_eq!(ask(two(1_501, 1_500)), Ok((15_005, 3_501_500)));
    assert_eq!(ask(four([1_500, 1_501, 0, 9_999])), Ok((15_005, 3_501_500)));
    // 1500, 1500, 1501: 15003.33; 1500, 1501, 1501: 15006.67.
    assert_eq!(ask(four([1_500, 1_502, 1_501, 1_500])), Ok((15_003, 3_500_900)));
    assert_eq!(ask(four([1_500, 1_502, 1_501, 1_501])), Ok((15_007, 3_502_100)));
    assert_eq!(ask(four([1_500, 1_502, 1_501, 1_503])), Ok((15_010, 3_503_000)));
}

/// Ten times the mean, rounded once, is not ten times the mean that was rounded.
#[test]
fn the_mean_is_rounded_once() {
    for first in [1, 999, 1_500, 3_598] {
        let mean = |given, more: [u32; 4]| level::mean(given, more.map(|more| first + more));
        let tenths = |more: u64| Ok(10 * u64::from(first) + more);
        assert_eq!(mean(4, [0, 2, 0, 1]), tenths(3));
        assert_eq!(mean(4, [0, 2, 1, 1]), tenths(7));
        assert_eq!(mean(4, [0, 3, 0, 2]), tenths(7));
        // The upper three: 2.33 mm more.
        assert_eq!(mean(4, [0, 3, 1, 3]), tenths(23));
        assert_eq!(mean(4, [0, 1, 7, 8]), tenths(5));
    }
}

#[test]
fn refusal_16_by_a_tenth() {
    assert_eq!(ask(two(3_000, 3_000)), Ok((30_000, 7_000_000)));
    // 20 dm³ to the mm between 2000 and 3000 mm.
    assert_eq!(ask(two(2_999, 3_000)), Ok((29_995, 6_999_000)));
    assert_eq!(ask(four([3_000, 2_998, 2_999, 3_000])), Ok((29_997, 6_999_400)));
    assert_eq!(ask(two(3_000, 3_001)), Err(16));
    assert_eq!(level::mean(2, [3_000, 3_001, 0, 0]), Ok(30_005));
    // 3000, 3000 and 3001 are the three closest: 30003.33.
    assert_eq!(ask(four([3_000, 3_002, 3_000, 3_001])), Err(16));
    assert_eq!(level::mean(4, [3_000, 3_002, 3_000, 3_001]), Ok(30_003));
    assert_eq!(ask(two(0, 0)), Err(16));
    assert_eq!(operations::volume(&tables(), 1, 30_000, 0), Ok(7_000_000));
    assert_eq!(operations::volume(&tables(), 1, 30_001, 0), Err(Refusal::Level));
    assert_eq!(operations::volume(&tables(), 1, 1, 0), Ok(200));
    assert_eq!(operations::volume(&tables(), 1, 0, 0), Err(Refusal::Level));
}

#[test]
fn refusal_17_around_a_tenth() {
    for (car, level, water_level, volume) in [
        (two(1_500, 1_501), 15_005, 1_500, 1_500),
        (four([1_500, 1_502, 1_501, 1_500]), 15_003, 1_500, 900),
        (four([1_500, 1_502, 1_501, 1_501]), 15_007, 1_500, 2_100),
        (two(1_500, 1_500), 15_000, 1_499, 3_000),
        (two(0, 1), 5, 0, 1_000),
    ] {
        let of = |water_level| ask(Car { water_level, ..car });
        assert_eq!(of(water_level), Ok((level, volume)));
        assert_eq!(of(water_level + 1), Err(17));
        assert_eq!(of(u32::MAX), Err(17));
        let alone = |water_level| operations::volume(&tables(), 1, level.into(), water_level);
        assert_eq!(alone(water_level), Ok(volume.into()));
        assert_eq!(alone(water_level + 1), Err(Refusal::WaterLevel));
    }
}

/// 3, 5 and 7 tenths are what readings of 0 and 1 mm can come to; they have no tape allowance.
#[test]
fn levels_below_a_millimetre() {
    for (car, level, volume) in
        [(four([0, 2, 0, 1]), 3, 600), (two(0, 1), 5, 1_000), (four([0, 2, 1, 1]), 7, 1_400)]
    {
        assert_eq!(ask(car), Ok((level, volume)));
        assert_eq!(level::mean(car.given, car.readings), Ok(level.into()));
        assert_eq!(level::tape_allowance(level.into()), Err(Refusal::Level));
    }
}

#[test]
fn numbers_of_a_caller_that_pass_32_bits() {
    let largest = u32::MAX;
    assert_eq!(level::mean(2, [largest, largest - 1, 0, 0]), Ok(42_949_672_945));
    assert_eq!(level::mean(4, [largest, largest - 3, largest, largest - 1]), Ok(42_949_672_947));
    // Twice ten times their sum is a little more than 2³², with 3 added.
    assert_eq!(level::mean(4, [71_584_290, 71_584_288, 71_584_288, 71_584_288]), Ok(715_842_880));
    for car in [
        two(largest, largest),
        // Ten times it is 15,004 in 32 bits.
        two(429_498_230, 429_498_230),
        // Ten times their sum is 15,004 in 32 bits, and twice as much with 2 added is 60,026.
        two(214_749_115, 214_749_115),
        two(107_375_683, 107_375_683),
        four([71_584_290, 71_584_288, 71_584_288, 71_584_288]),
        four([99_999_999, 99_999_997, 99_999_999, 99_999_999]),
    ] {
        assert_eq!(ask(car), Err(16), "{:?}", car.readings);
    }
    // Ten times the water level is 4 in 32 bits.
    assert_eq!(ask(Car { water_level: 429_496_730, ..CAR }), Err(17));
    let volume = |level, water_level| operations::volume(&tables(), 1, level, water_level);
    assert_eq!(volume(15_000, 429_496_730), Err(Refusal::WaterLevel));
    for bits in [32, 33, 48, 63] {
        assert_eq!(volume((1 << bits) + 15_000, 0), Err(Refusal::Level));
    }
    assert_eq!(volume(u64::MAX, largest), Err(Refusal::Level));
}
