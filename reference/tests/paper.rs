//! The paper's own figures, and its sheet and listing byte for byte, with the totals by grade that
//! its change request (a) adds, and levels in tenths of a millimetre as (g) has them.

use reference::car::{Car, Figures};
use reference::level;
use reference::listing;
use reference::mass;
use reference::refusal::Refusal;
use reference::table::{Row, Tables};
use reference::thermal::{self, Density15, Density20, Stick};

const SHEET: &str = "\
T        1        4
R        0        0
R     1000    20000
R     2000    50000
R     3000    70000
C 50000001        1        3        1        2     1500     1500        0        0        0      600     9500       50       20
C 50000002        1        3        1        2     1500     1501        0        0     1501      600     9500       50       20
E        2
";

const LISTING: &str = "\
A 50000001    15000  3500000  3392515    32229    32003
X 50000002       17
S        1    32229    32003
G        1        0        0        0
G        2        0        0        0
G        3        1    32229    32003
G        4        0        0        0
";

const NO_CARS_LISTING: &str = "\
S        0        0        0
G        1        0        0        0
G        2        0        0        0
G        3        0        0        0
G        4        0        0        0
";

const CAR: Car = Car {
    number: 50_000_001,
    car_type: 1,
    grade: 3,
    stick: 1,
    given: 2,
    readings: [1500, 1500, 0, 0],
    water_level: 0,
    temperature: 600,
    density: 9500,
    water: 50,
    impurities: 20,
};

fn tables() -> Tables {
    let mut tables = Tables::new();
    tables.begin(1, 4).unwrap();
    for (level, capacity) in [(0, 0), (1000, 20_000), (2000, 50_000), (3000, 70_000)] {
        tables.add(Row { level, capacity }).unwrap();
    }
    tables
}

fn work_out(car: Car) -> Result<Figures, Refusal> {
    car.work_out(&tables())
}

fn refusal(car: Car) -> Option<u32> {
    work_out(car).err().map(Refusal::number)
}

#[test]
fn sheet_and_listing() {
    assert_eq!(listing::of(SHEET.as_bytes()), LISTING.as_bytes());
}

#[test]
fn figures_of_the_first_car() {
    let density = Density15(9500);
    let coefficient = thermal::coefficient(density);
    let exponent = thermal::exponent(coefficient, 450);
    assert_eq!(coefficient, 718_937);
    assert_eq!(exponent, 331_894_951);
    assert_eq!(thermal::exponential(exponent), 9_673_552_332);
    assert_eq!(thermal::contraction(density, 450), 9_673_552_332);
    let volume = thermal::volume_at_temperature(3_500_000, Stick::Steel, 600);
    assert_eq!(volume, 3_507_000);
    assert_eq!(mass::volume_at_15(volume, density, 600), 3_392_515);
    assert_eq!(mass::gross(3_392_515, density), 32_229);
    assert_eq!(mass::net(32_229, 50, 20), 32_003);
    assert_eq!(
        work_out(CAR),
        Ok(Figures {
            number: 50_000_001,
            level: 15_000,
            volume: 3_500_000,
            volume_at_15: 3_392_515,
            gross: 32_229,
            net: 32_003,
        })
    );
}

#[test]
fn density_at_20() {
    assert_eq!(thermal::density_at_20(Density15(9500)), Density20(9466));
}

#[test]
fn mean_levels() {
    // 1500, 1501 and 1502 are the three closest of both.
    assert_eq!(level::mean(4, [1500, 1504, 1501, 1502]), Ok(15_010));
    assert_eq!(level::mean(4, [1500, 1503, 1501, 1502]), Ok(15_010));
    assert_eq!(level::mean(2, [1500, 1502, 0, 0]).unwrap_err().number(), 15);
    assert_eq!(refusal(Car { readings: [1500, 1502, 0, 0], ..CAR }), Some(15));
}

#[test]
fn capacities() {
    let tables = tables();
    let table = tables.find(1).unwrap();
    assert_eq!(table.capacity(10), 2_000);
    let at = |level| Car { readings: [level, level, 0, 0], ..CAR };
    assert_eq!(work_out(at(3000)).unwrap().volume, 7_000_000);
    assert_eq!(refusal(at(3001)), Some(16));
}

#[test]
fn temperature_density_and_water() {
    assert_eq!(refusal(Car { temperature: 399, ..CAR }), Some(18));
    assert_eq!(refusal(Car { temperature: 400, ..CAR }), None);
    assert_eq!(refusal(Car { density: 8_999, ..CAR }), Some(19));
    assert_eq!(refusal(Car { density: 9_901, ..CAR }), Some(19));
    assert_eq!(refusal(Car { water: 101, ..CAR }), Some(20));
    assert_eq!(refusal(Car { water: 100, ..CAR }), None);
}

#[test]
fn tape_allowances() {
    assert_eq!(level::tape_allowance(10_000), Ok(30));
    assert_eq!(level::tape_allowance(10_001), Ok(45));
    assert_eq!(level::tape_allowance(10_010), Ok(45));
}

#[test]
fn density_limit_of_grade_1() {
    let car = |density| Car { grade: 1, density, water: 0, impurities: 0, ..CAR };
    assert_eq!(thermal::density_at_20(Density15(9_584)), Density20(9_550));
    assert_eq!(refusal(car(9_584)), None);
    assert_eq!(refusal(car(9_585)), Some(21));
}

#[test]
fn empty_sheet_and_no_cars() {
    assert_eq!(listing::of(b""), b"Z        1        3\n");
    let no_cars = "T        1        2\nR        0        0\nR        1        1\nE        0\n";
    assert_eq!(listing::of(no_cars.as_bytes()), NO_CARS_LISTING.as_bytes());
}
