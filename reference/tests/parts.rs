//! The parts by themselves: tables, levels, a car alone, the running train.

use reference::car::Car;
use reference::level;
use reference::refusal::Refusal;
use reference::table::{Row, Tables};
use reference::thermal::{self, Density15};
use reference::train::{Place, Totals, Train};

fn tables() -> Tables {
    let mut tables = Tables::new();
    tables.begin(1, 2).unwrap();
    tables.add(Row { level: 0, capacity: 0 }).unwrap();
    tables.add(Row { level: 3600, capacity: 200_000 }).unwrap();
    tables
}

const CAR: Car = Car {
    number: 1,
    car_type: 1,
    grade: 3,
    stick: 1,
    given: 2,
    readings: [3600, 3600, 0, 0],
    water_level: 0,
    temperature: 400,
    density: 9900,
    water: 0,
    impurities: 0,
};

/// The same car held though it was refused.
const REFUSED: Place = Place { number: 1, grade: 0, gross: 0, net: 0 };

#[test]
fn tape_allowance_at_every_bound() {
    let bounds = [10, 10_000, 10_001, 20_000, 20_001, 30_000, 30_001, 36_000];
    let allowances = bounds.map(|level| level::tape_allowance(level).unwrap());
    assert_eq!(allowances, [30, 30, 45, 45, 60, 60, 75, 75]);
    for level in [0, 9, 36_001, 99_999_999, u64::MAX] {
        assert_eq!(level::tape_allowance(level), Err(Refusal::Level));
    }
}

#[test]
fn mean_level_by_itself() {
    assert_eq!(level::mean(3, [1, 1, 1, 0]), Err(Refusal::ReadingCount));
    assert_eq!(level::mean(2, [1, 9, 1, 0]), Err(Refusal::ReadingCount));
    assert_eq!(level::mean(2, [1, 9, 0, 0]), Err(Refusal::ReadingsApart));
    assert_eq!(level::mean(2, [0, 0, 0, 0]), Err(Refusal::Level));
    assert_eq!(level::mean(2, [0, 1, 0, 0]), Ok(5));
    assert_eq!(level::mean(4, [99_999_999, 99_999_997, 99_999_999, 99_999_999]), Ok(999_999_990));
    assert_eq!(level::mean(4, [u32::MAX, 0, u32::MAX, u32::MAX]), Ok(42_949_672_950));
}

#[test]
fn the_order_of_four_readings_matters_only_through_the_first_two() {
    for d in 3..12 {
        for c in 0..=d {
            for b in 0..=c {
                let sorted = [100, 100 + b, 100 + c, 100 + d];
                let lower = (sorted[2] - sorted[0], sorted[0] + sorted[1] + sorted[2]);
                let upper = (sorted[3] - sorted[1], sorted[1] + sorted[2] + sorted[3]);
                let (span, sum) = if lower.0 <= upper.0 { lower } else { upper };
                let mean =
                    if span > 3 { Err(THREE_APART) } else { Ok(u64::from(20 * sum + 3) / 6) };
                let [p, q, r, s] = sorted;
                assert_eq!(level::mean(4, [p, s, q, r]), mean);
                assert_eq!(level::mean(4, [s, p, r, q]), mean);
            }
        }
    }
}

const THREE_APART: Refusal = Refusal::ThreeApart;

#[test]
fn three_of_four_readings_span_at_most_3_mm() {
    assert_eq!(THREE_APART.number(), 23);
    for (readings, mean) in [
        // The lower triple, by 3 and by 4.
        ([1500, 1503, 1501, 1600], Ok(15_013)),
        ([1500, 1504, 1501, 1600], Err(THREE_APART)),
        // The upper triple.
        ([1400, 1503, 1501, 1500], Ok(15_013)),
        ([1400, 1504, 1501, 1500], Err(THREE_APART)),
        // Both, equally close.
        ([1500, 1504, 1501, 1503], Ok(15_013)),
        ([1500, 1505, 1501, 1504], Err(THREE_APART)),
        // Two and two, and as far apart as can be.
        ([0, 3, 3, 0], Ok(10)),
        ([0, 4, 4, 0], Err(THREE_APART)),
        ([0, u32::MAX, 0, u32::MAX], Err(THREE_APART)),
        ([u32::MAX, u32::MAX - 3, u32::MAX, 0], Ok(42_949_672_940)),
    ] {
        assert_eq!(level::mean(4, readings), mean, "{readings:?}");
    }
}

#[test]
fn first_two_readings_that_agree_need_no_others() {
    for others in [[0, 0], [1510, 1520], [0, u32::MAX], [u32::MAX, 1495]] {
        let [third, fourth] = others;
        assert_eq!(level::mean(4, [1500, 1501, third, fourth]), Ok(15_005));
        assert_eq!(level::mean(4, [1500, 1500, third, fourth]), Ok(15_000));
    }
}

#[test]
fn refusal_23_stands_between_15_and_16() {
    let apart = Car { given: 4, readings: [3604, 3600, 3602, 9000], ..CAR };
    let tables = tables();
    let of = |car: Car| car.work_out(&tables).unwrap_err().number();
    assert_eq!(of(Car { number: 0, ..apart }), 10);
    assert_eq!(of(Car { car_type: 2, ..apart }), 12);
    assert_eq!(of(Car { grade: 5, ..apart }), 13);
    for given in [0, 1, 2, 3, 5] {
        assert_eq!(of(Car { given, ..apart }), 14);
        assert_eq!(level::mean(given, apart.readings), Err(Refusal::ReadingCount));
    }
    assert_eq!(of(Car { given: 2, readings: [3604, 3600, 0, 0], ..apart }), 15);
    let wrong = Car { water_level: 9000, temperature: 0, density: 0, water: 101, ..apart };
    for car in [apart, wrong, Car { readings: [1504, 1500, 1502, 9000], ..wrong }] {
        assert_eq!(of(car), 23);
    }
    assert_eq!(of(Car { readings: [3604, 3601, 3602, 9000], ..wrong }), 16);
    assert_eq!(of(Car { readings: [1504, 1501, 1502, 9000], ..wrong }), 17);
}

#[test]
fn a_car_refused_by_23_leaves_its_number_and_no_mass() {
    let tables = tables();
    let mut train = Train::default();
    let apart = Car { given: 4, readings: [1504, 1500, 1502, 0], ..CAR };
    assert_eq!(train.enter(&apart, &tables), Err(THREE_APART));
    assert_eq!(train.enter(&CAR, &tables), Err(Refusal::CarTwice));
    assert_eq!((train.held, train.places[0], train.all), (1, REFUSED, Totals::default()));
}

#[test]
fn capacity_meets_every_row() {
    let mut tables = Tables::new();
    tables.begin(9_999, 400).unwrap();
    for row in 0..400 {
        tables.add(Row { level: 9 * row, capacity: row * (row + 1) }).unwrap();
    }
    let table = tables.find(9_999).unwrap();
    assert_eq!(table.last_level(), 3_591);
    for row in 0..400_u64 {
        assert_eq!(table.capacity(90 * row), 100 * row * (row + 1));
    }
    // A ninth of the step of 2 dm³ from row 0 to row 1: 22.2 units to the mm.
    let first: Vec<u64> = (0..=9).map(|level| table.capacity(10 * level)).collect();
    assert_eq!(first, [0, 22, 44, 67, 89, 111, 133, 156, 178, 200]);
    // 2.22 units to a tenth of a mm.
    let tenths: Vec<u64> = (81..=90).map(|level| table.capacity(level)).collect();
    assert_eq!(tenths, [180, 182, 184, 187, 189, 191, 193, 196, 198, 200]);
    assert!(tables.find(9_998).is_none());
}

#[test]
fn tables_refuse_as_on_a_sheet() {
    let mut tables = tables();
    for (car_type, rows) in [(0, 2), (10_000, 2), (1, 2), (2, 0), (2, 1), (2, 401)] {
        assert_eq!(tables.begin(car_type, rows), Err(Refusal::TableHead));
    }
    for car_type in 2..=4 {
        tables.begin(car_type, 400).unwrap();
        assert_eq!(tables.add(Row { level: 0, capacity: 1 }), Err(Refusal::TableRow));
        assert_eq!(tables.add(Row { level: 0, capacity: 0 }), Ok(()));
        assert_eq!(tables.add(Row { level: 0, capacity: 1 }), Err(Refusal::TableRow));
        assert_eq!(tables.add(Row { level: 3601, capacity: 1 }), Err(Refusal::TableRow));
        assert_eq!(tables.add(Row { level: 1, capacity: 200_001 }), Err(Refusal::TableRow));
        assert_eq!(tables.add(Row { level: 3600, capacity: 200_000 }), Ok(()));
    }
    assert_eq!(tables.count(), 4);
    assert_eq!(tables.begin(5, 2), Err(Refusal::TableHead));
}

#[test]
fn coefficients_and_contractions() {
    let figures = [
        (9000, 771_027, 9_961_404_426),
        (9250, 744_118, 9_962_752_898),
        (9500, 718_937, 9_964_014_679),
        (9750, 695_327, 9_965_197_655),
        (9900, 681_857, 9_965_872_531),
    ];
    for (density, coefficient, contraction) in figures {
        assert_eq!(thermal::coefficient(Density15(density)), coefficient);
        assert_eq!(thermal::contraction(Density15(density), 50), contraction);
    }
    // 709,312.5 exactly.
    assert_eq!(thermal::coefficient(Density15(9600)), 709_313);
}

#[test]
fn the_heaviest_car_keeps_within_eight_digits() {
    let mut train = Train::default();
    for number in 1..=60 {
        let figures = train.enter(&Car { number, ..CAR }, &tables()).unwrap();
        assert_eq!((figures.volume, figures.gross), (20_000_000, 194_803));
    }
    let total = 60 * 194_803;
    assert_eq!(train.all, Totals { accepted: 60, gross: total, net: total });
}

#[test]
fn a_car_alone_knows_no_earlier_cars() {
    let tables = tables();
    assert_eq!(CAR.work_out(&tables), CAR.work_out(&tables));
    assert_eq!(Car { number: 0, ..CAR }.work_out(&tables), Err(Refusal::CarNumber));
    assert_eq!(Car { number: 100_000_000, ..CAR }.work_out(&tables), Err(Refusal::CarNumber));
    assert_eq!(CAR.work_out(&Tables::new()), Err(Refusal::Type));
}

#[test]
fn refused_cars_leave_their_number_and_no_mass() {
    let tables = tables();
    let mut train = Train::default();
    assert_eq!(train.enter(&Car { number: 0, ..CAR }, &tables), Err(Refusal::CarNumber));
    assert_eq!(train, Train::default());
    assert_eq!(train.enter(&Car { grade: 9, ..CAR }, &tables), Err(Refusal::GradeOrStick));
    assert_eq!(train.enter(&CAR, &tables), Err(Refusal::CarTwice));
    let mut expected = Train { held: 1, ..Train::default() };
    expected.places[0] = REFUSED;
    assert_eq!(train, expected);
}

#[test]
fn a_train_of_sixty_numbers_is_full() {
    let tables = tables();
    let mut train = Train::default();
    for number in 1..=60 {
        let refused = train.enter(&Car { number, stick: 3, ..CAR }, &tables);
        assert_eq!(refused, Err(Refusal::GradeOrStick));
    }
    let before = train.clone();
    for number in [0, 1, 61] {
        assert_eq!(train.enter(&Car { number, ..CAR }, &tables), Err(Refusal::Count));
    }
    assert_eq!(train, before);
}

/// A train of one car that its totals make, within the limits and past them.
#[test]
fn a_train_handed_in_past_its_limits_is_barred() {
    let tables = tables();
    let handed_in = |gross: u32, net: u32| {
        let all = Totals { accepted: 1, gross: gross.into(), net: net.into() };
        let mut train = Train { all, held: 1, ..Train::default() };
        train.grades[0] = train.all;
        train.places[0] = Place { number: 9, grade: 1, gross, net };
        train.enter(&CAR, &tables).err()
    };
    assert_eq!(handed_in(12_000_000, 12_000_000), None);
    assert_eq!(handed_in(12_000_001, 0), Some(Refusal::Count));
    assert_eq!(handed_in(0, 12_000_001), Some(Refusal::Count));
    assert_eq!(handed_in(u32::MAX, u32::MAX), Some(Refusal::Count));
}
