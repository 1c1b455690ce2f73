//! The permitted error: the paper's vectors, the rounding of its terms, the smallest n, and what is
//! within.

use reference::car::Car;
use reference::operations::{self, HandedIn};
use reference::permitted::{limit, Errors, PermittedError};
use reference::refusal::Refusal;
use reference::table::Row;

/// The paper's first car, and the errors of its vectors.
const CAR: [u32; 14] = [50_000_001, 1, 3, 1, 2, 1_500, 1_500, 0, 0, 0, 600, 9_500, 50, 20];
const ERRORS: [u32; 6] = [5_000, 1_600, 500, 5, 5, 30];

const RACK: &[(u32, u32)] = &[(0, 0), (1_000, 20_000), (2_000, 50_000), (3_000, 70_000)];
const FLAT: &[(u32, u32)] = &[(0, 0), (3_600, 1)];

fn at(level: u32, water_level: u32) -> [u32; 14] {
    let mut car = CAR;
    (car[5], car[6], car[9]) = (level, level, water_level);
    car
}

fn ask(rows: &[(u32, u32)], car: [u32; 14], errors: [u32; 6]) -> Result<PermittedError, Refusal> {
    let rows: Vec<Row> = rows.iter().map(|&(level, capacity)| Row { level, capacity }).collect();
    let table = HandedIn { car_type: car[1], announced: rows.len() as u32, rows };
    operations::permitted_error(&[table], &Car::from(car), &Errors::from(errors))
}

/// L, tRho, G, dens, dtmp, S, n, and whether it is within.
type Shown = ([u64; 7], bool);

fn shown(rows: &[(u32, u32)], car: [u32; 14], errors: [u32; 6]) -> Shown {
    let PermittedError { terms, limit, within, .. } = ask(rows, car, errors).unwrap();
    let numbers = [
        terms.level,
        terms.density_temperature,
        terms.factor,
        terms.density_by_factor,
        terms.density_temperature_by_factor,
        terms.squares,
        limit,
    ];
    (numbers, within)
}

/// n of one error alone, by its place, on the paper's car.
fn alone(place: usize, error: u32) -> u64 {
    let mut errors = [0; 6];
    errors[place] = error;
    ask(RACK, CAR, errors).unwrap().limit
}

#[test]
fn the_paper_s_vectors() {
    let annex = [1, 85, 4, 1, 2, 2_904, 2_904, 0, 0, 100, 523, 9_632, 100, 100];
    let annex_rows = &[(0, 0), (100, 435), (2_900, 72_959), (2_910, 73_080)];
    let small = [2_500, 500, 500, 2, 2, 20];
    let printed = [5_000, 1_586, 500, 5, 5, 30];
    assert_eq!(
        shown(RACK, CAR, ERRORS),
        ([2_571, 359, 1_063_338, 1_701, 382, 35_028_247, 6_511], false)
    );
    assert_eq!(
        shown(RACK, at(1_000, 0), ERRORS),
        ([3_000, 359, 1_063_338, 1_701, 382, 37_418_206, 6_729], false)
    );
    assert_eq!(
        shown(RACK, at(1_001, 0), ERRORS),
        ([4_493, 359, 1_063_338, 1_701, 382, 48_605_255, 7_669], false)
    );
    assert_eq!(
        shown(RACK, at(2_000, 0), small),
        ([1_200, 144, 1_063_338, 532, 153, 8_267_169, 3_163], true)
    );
    assert_eq!(
        shown(annex_rows, annex, printed),
        ([500, 353, 1_051_596, 1_668, 371, 28_544_474, 5_877], true)
    );
    assert_eq!(shown(RACK, CAR, [0; 6]), ([0, 0, 1_063_338, 0, 0, 0, 0], true));
}

/// Of readings that differ by 1 mm: the search for the rows compares tenths, the level step stays in mm.
#[test]
fn the_rows_around_a_level_in_tenths() {
    let level_term = |readings: [u32; 2]| {
        let mut car = CAR;
        car[5..7].copy_from_slice(&readings);
        let permitted = ask(RACK, car, ERRORS).unwrap();
        (permitted.figures.level, permitted.figures.volume, permitted.terms.level)
    };
    // 6 × 10¹² over 1,000 mm × V0, rows 0 and 1000: 3,001.5007 and 3,000.
    assert_eq!(level_term([999, 1_000]), (9_995, 1_999_000, 3_002));
    assert_eq!(level_term([1_000, 1_000]), (10_000, 2_000_000, 3_000));
    // 9 × 10¹² over 1,000 mm × V0, rows 1000 and 2000: 4,496.63 and 2,570.33.
    assert_eq!(level_term([1_000, 1_001]), (10_005, 2_001_500, 4_497));
    assert_eq!(level_term([1_501, 1_500]), (15_005, 3_501_500, 2_570));
}

#[test]
fn the_figures_are_those_of_the_car_alone() {
    let permitted = ask(RACK, CAR, ERRORS).unwrap();
    let figures = permitted.figures;
    assert_eq!((figures.number, figures.level, figures.volume), (50_000_001, 15_000, 3_500_000));
    assert_eq!((figures.volume_at_15, figures.gross, figures.net), (3_392_515, 32_229, 32_003));
}

#[test]
fn the_density_temperature_term_is_rounded_twice() {
    let terms = ask(RACK, CAR, [0, 0, 0, 1, 0, 0]).unwrap().terms;
    assert_eq!((terms.density_temperature, terms.density_temperature_by_factor), (72, 77));
}

#[test]
fn no_factor_lies_at_a_half() {
    for density in 9_000..=9_900 {
        let coefficient = operations::coefficient(density).unwrap();
        let at = |tenths: u64| 10_000_000_000 + 2 * coefficient * tenths;
        for temperature in 200..=900 {
            let rest = 1_000_000 * at(temperature) % at(150);
            assert_ne!(2 * rest, at(150), "{density} {temperature}");
        }
    }
}

#[test]
fn the_level_term_is_held_to_10000_after_rounding() {
    let level = |error| [0, 0, 0, 0, 0, error];
    assert_eq!(ask(RACK, at(1_000, 0), level(100)).unwrap().terms.level, 10_000);
    assert_eq!(ask(RACK, at(999, 0), level(100)), Err(Refusal::LevelTerm));
    let late = &[(0, 0), (1_000, 1_000), (2_000, 31_000)];
    let permitted = ask(late, at(1_989, 971), level(99)).unwrap();
    assert_eq!((permitted.figures.volume, permitted.terms.level), (2_969_900, 10_000));
    let steep = &[(0, 0), (1_000, 19_980), (2_000, 39_981)];
    assert_eq!(ask(steep, at(1_001, 0), level(100)), Err(Refusal::LevelTerm));
}

#[test]
fn without_volume_there_is_no_limit() {
    for error in [0, 1, 100] {
        let errors = [0, 0, 0, 0, 0, error];
        for level in 1..=17 {
            assert_eq!(ask(FLAT, at(level, 0), errors), Err(Refusal::LevelTerm), "{level}");
        }
        assert_eq!(ask(FLAT, at(19, 18), errors), Err(Refusal::LevelTerm));
    }
    assert_eq!(ask(FLAT, at(18, 0), [0; 6]).unwrap().figures.volume, 1);
}

#[test]
fn every_range_of_an_error() {
    for (place, highest) in [10_000, 10_000, 10_000, 20, 20, 100].into_iter().enumerate() {
        for (error, accepted) in [(highest, true), (highest + 1, false), (u32::MAX, false)] {
            let mut errors = [0; 6];
            errors[place] = error;
            let answer = ask(RACK, at(2_000, 0), errors);
            assert_eq!(answer.err(), (!accepted).then_some(Refusal::GivenError), "{place} {error}");
        }
    }
}

#[test]
fn the_first_refusal_in_the_listed_order() {
    let wrong = [10_001, 0, 0, 0, 0, 100];
    assert_eq!(ask(FLAT, at(17, 0), wrong), Err(Refusal::GivenError));
    let mut dense = at(17, 0);
    (dense[2], dense[11], dense[12], dense[13]) = (1, 9_585, 0, 0);
    assert_eq!(ask(FLAT, dense, wrong), Err(Refusal::Density20));
    let mut unnumbered = dense;
    unnumbered[0] = 0;
    assert_eq!(ask(FLAT, unnumbered, wrong), Err(Refusal::CarNumber));
    assert_eq!(ask(&[(0, 0), (0, 1)], unnumbered, wrong), Err(Refusal::TableRow));
    assert_eq!(ask(&[(0, 0)], unnumbered, wrong), Err(Refusal::TableHead));
}

#[test]
fn the_smallest_n() {
    let large = (0..4_300).map(|step| 100_000 * step);
    for squares in (0..200_000).chain(large).chain([34_917_355, 34_917_356, u64::from(u32::MAX)]) {
        let n = limit(squares);
        assert!(100 * n * n >= 121 * squares, "{squares}");
        assert!(n == 0 || 100 * (n - 1) * (n - 1) < 121 * squares, "{squares}");
    }
}

#[test]
fn n_at_exact_squares() {
    assert_eq!(alone(0, 10), 11);
    assert_eq!(alone(0, 50), 55);
    assert_eq!(alone(2, 10_000), 11_000);
    assert_eq!([alone(0, 1), alone(0, 9)], [2, 10]);
    for place in 0..6 {
        assert_eq!(alone(place, 0), 0);
        assert_ne!(alone(place, 20), 0);
    }
}

#[test]
fn within_for_the_gross_mass() {
    // 99,999 kg at 1,597 mm and 100,000 kg at 1,598 mm.
    let wide = &[(0, 0), (1_000, 108_000), (2_000, 109_000)];
    for (errors, n, light, heavy) in [
        ([4_497, 0, 658, 0, 1, 0], 5_000, true, true),
        ([4_463, 0, 642, 0, 8, 0], 5_001, true, false),
        ([5_000, 0, 0, 0, 0, 0], 5_500, true, false),
        ([5_811, 0, 855, 0, 9, 0], 6_500, true, false),
        ([5_706, 0, 1_094, 0, 15, 0], 6_501, false, false),
    ] {
        for (level, gross, within) in [(1_597, 99_999, light), (1_598, 100_000, heavy)] {
            let permitted = ask(wide, at(level, 0), errors).unwrap();
            assert_eq!((permitted.figures.gross, permitted.limit), (gross, n));
            assert_eq!(permitted.within, within, "{gross} kg, {n}");
        }
    }
}
