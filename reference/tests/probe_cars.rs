//! Cars whose level, temperature and density a probe took: alone, in a train and with their permitted
//! error, each refusal in its place, and beside dipped cars at the same level.

use reference::car::{Car, Figures};
use reference::level;
use reference::operations::{self, HandedIn};
use reference::permitted::{self, Errors};
use reference::probe::{ProbeCar, Set};
use reference::refusal::Refusal;
use reference::sheet::Sheet;
use reference::sheets;
use reference::table::Row;
use reference::train::{Place, Totals, Train};

const SET: Set = Set { level: 1_500.0, temperature: 60.0, density: 950.0 };

/// The paper's first car, by probe.
const CAR: ProbeCar = ProbeCar {
    number: 50_000_001,
    car_type: 1,
    grade: 3,
    stick: 1,
    water_level: 0,
    water: 50,
    impurities: 20,
    set: SET,
};

/// The same car dipped.
const DIPPED: [u32; 14] = [50_000_001, 1, 3, 1, 2, 1_500, 1_500, 0, 0, 0, 600, 9_500, 50, 20];

fn table(rows: &[(u32, u32)]) -> HandedIn {
    let rows: Vec<Row> = rows.iter().map(|&(level, capacity)| Row { level, capacity }).collect();
    HandedIn { car_type: 1, announced: rows.len() as u32, rows }
}

/// The paper's table.
fn tables() -> Vec<HandedIn> {
    vec![table(&[(0, 0), (1_000, 20_000), (2_000, 50_000), (3_000, 70_000)])]
}

fn at(level: f32) -> ProbeCar {
    ProbeCar { set: Set { level, ..SET }, ..CAR }
}

/// Level, V0, V15, gross and net, or the number of the refusal.
fn ask(car: ProbeCar) -> Result<[u32; 5], u32> {
    let answer = operations::work_out_probe(&tables(), &car);
    let checked = operations::check_tables(&tables()).unwrap();
    assert_eq!(answer, car.work_out(&checked));
    answer.map(shown).map_err(Refusal::number)
}

fn shown(figures: Figures) -> [u32; 5] {
    let Figures { number: _, level, volume, volume_at_15, gross, net } = figures;
    [level, volume, volume_at_15, gross, net]
}

fn refusal(car: ProbeCar) -> Option<u32> {
    ask(car).err()
}

#[test]
fn the_paper_s_car() {
    assert_eq!(ask(CAR), Ok([15_000, 3_500_000, 3_392_515, 32_229, 32_003]));
    assert_eq!(ProbeCar::new([50_000_001, 1, 3, 1, 0, 50, 20], SET), CAR);
    let figures = operations::work_out_probe(&tables(), &CAR);
    assert_eq!(figures, operations::work_out(&tables(), &Car::from(DIPPED)));
    assert_eq!(figures.unwrap().number, 50_000_001);
}

/// Levels that no mean of readings comes to; figures by a separate calculation.
#[test]
fn levels_of_every_tenth() {
    for (level, steel, aluminium) in [
        (1_500.1, [15_001, 3_500_300, 3_392_806, 32_232, 32_006], [3_394_228, 32_245, 32_019]),
        (1_500.2, [15_002, 3_500_600, 3_393_096, 32_234, 32_008], [3_394_518, 32_248, 32_022]),
        (1_500.4, [15_004, 3_501_200, 3_393_678, 32_240, 32_014], [3_395_101, 32_253, 32_027]),
        (1_500.6, [15_006, 3_501_800, 3_394_260, 32_245, 32_019], [3_395_682, 32_259, 32_033]),
        (1_500.8, [15_008, 3_502_400, 3_394_841, 32_251, 32_025], [3_396_264, 32_265, 32_039]),
        (1_500.9, [15_009, 3_502_700, 3_395_131, 32_254, 32_028], [3_396_555, 32_267, 32_041]),
        (1_000.1, [10_001, 2_000_300, 1_938_871, 18_419, 18_290], [1_939_684, 18_427, 18_298]),
        (2_999.9, [29_999, 6_999_800, 6_784_836, 64_456, 64_005], [6_787_680, 64_483, 64_032]),
        (0.9, [9, 1_800, 1_745, 17, 17], [1_745, 17, 17]),
        (0.1, [1, 200, 193, 2, 2], [193, 2, 2]),
    ] {
        assert_eq!(ask(at(level)), Ok(steel), "{level}");
        let [volume_at_15, gross, net] = aluminium;
        let expected = [steel[0], steel[1], volume_at_15, gross, net];
        assert_eq!(ask(ProbeCar { stick: 2, ..at(level) }), Ok(expected), "{level}");
    }
    let set = Set { level: 1_500.35, temperature: 60.15, density: 950.15 };
    assert_eq!(
        ask(ProbeCar { stick: 2, set, ..CAR }),
        Ok([15_003, 3_500_900, 3_394_369, 32_253, 32_027])
    );
}

#[test]
fn refusal_16_by_a_tenth() {
    // 3000.0400, 3000.0500 and 2999.9500 as floats.
    assert_eq!(ask(at(3_000.04)).unwrap()[..2], [30_000, 7_000_000]);
    assert_eq!(ask(at(2_999.95)).unwrap()[..2], [29_999, 6_999_800]);
    assert_eq!([refusal(at(3_000.05)), refusal(at(3_001.0))], [Some(16); 2]);
    assert_eq!(ask(at(0.05)).unwrap()[..2], [1, 200]);
    assert_eq!([refusal(at(0.04)), refusal(at(0.0)), refusal(at(-0.0))], [Some(16); 3]);
    assert_eq!([refusal(at(9_999_999.0)), refusal(at(10_000_000.0))], [Some(16), Some(32)]);
}

#[test]
fn refusal_17_by_a_tenth() {
    let on_water = |level, water_level| ask(ProbeCar { water_level, ..at(level) });
    assert_eq!(on_water(1_500.05, 1_500), Ok([15_001, 300, 291, 3, 3]));
    assert_eq!(on_water(1_500.04, 1_500), Err(17));
    assert_eq!(on_water(1_500.05, 1_501), Err(17));
    assert_eq!(on_water(1_500.95, 1_501), Err(17));
    // Ten times the last but one is 4 in 32 bits.
    for water_level in [1_501, 429_496_730, u32::MAX] {
        assert_eq!(on_water(1_500.0, water_level), Err(17));
    }
}

#[test]
fn temperature_and_density_by_a_tenth() {
    let warm = |temperature| ask(ProbeCar { set: Set { temperature, ..SET }, ..CAR });
    assert_eq!(warm(39.95), Ok([15_000, 3_500_000, 3_440_203, 32_682, 32_453]));
    assert_eq!(warm(90.04), Ok([15_000, 3_500_000, 3_320_152, 31_541, 31_320]));
    assert_eq!([warm(39.94), warm(90.05)], [Err(18); 2]);
    let dense = |density| ask(ProbeCar { set: Set { density, ..SET }, ..CAR });
    assert_eq!(dense(899.95), Ok([15_000, 3_500_000, 3_384_146, 30_457, 30_244]));
    assert_eq!(dense(990.04), Ok([15_000, 3_500_000, 3_398_466, 33_645, 33_409]));
    assert_eq!([dense(899.94), dense(990.06)], [Err(19); 2]);
    let of_grade_1 = |density| {
        let set = Set { density, ..SET };
        ask(ProbeCar { grade: 1, water: 0, impurities: 0, set, ..CAR })
    };
    assert_eq!(of_grade_1(958.44), Ok([15_000, 3_500_000, 3_393_815, 32_526, 32_526]));
    assert_eq!(of_grade_1(958.45), Err(21));
}

/// A train of sixty refused cars, which answers a further one with 9.
fn full() -> Train {
    let mut train = Train { held: 60, ..Train::default() };
    for (number, place) in (101..).zip(&mut train.places) {
        place.number = number;
    }
    train
}

/// A car, the tables that are handed in with it, and the train that it is to be entered in.
struct Asked {
    car: ProbeCar,
    tables: Vec<HandedIn>,
    train: Train,
}

fn wrong_in_everything() -> Asked {
    let set = Set { level: -1.0, temperature: f32::NAN, density: f32::NEG_INFINITY };
    let flat = table(&[(0, 0), (1_000, 0)]);
    let tables = vec![HandedIn { car_type: 0, ..flat }];
    Asked { car: ProbeCar::new([0, 0, 5, 0, u32::MAX, 31, 11], set), tables, train: full() }
}

/// A refusal, and what then is changed so that the next applies.
type Step = (u32, fn(&mut Asked));

/// The refusals of a probe's car in the order in which they are tested; 14, 15 and 23 are not among
/// them.
const STEPS: [Step; 22] = [
    (31, |asked| asked.car.set.level = f32::INFINITY),
    (31, |asked| asked.car.set.level = 10_000_000.0),
    (32, |asked| asked.car.set.level = 0.04),
    (31, |asked| asked.car.set.temperature = 1e8),
    (32, |asked| asked.car.set.temperature = 19.94),
    (31, |asked| asked.car.set.density = 1e9),
    (32, |asked| asked.car.set.density = 899.94),
    (7, |asked| asked.tables[0].car_type = 1),
    (8, |asked| asked.tables = tables()),
    (9, |asked| asked.train.strike(160).unwrap()),
    (10, |asked| asked.car.number = 101),
    (11, |asked| asked.car.number = 161),
    (12, |asked| asked.car.car_type = 1),
    (13, |asked| asked.car.grade = 1),
    (13, |asked| asked.car.stick = 2),
    (16, |asked| asked.car.set.level = 3_000.05),
    (16, |asked| asked.car.set.level = 3_000.0),
    (17, |asked| asked.car.water_level = 2_999),
    (18, |asked| asked.car.set.temperature = 19.96),
    (19, |asked| asked.car.set.density = 958.5),
    (20, |asked| (asked.car.water, asked.car.impurities) = (30, 10)),
    (21, |asked| asked.car.set.density = 958.4),
];

/// The first refusal from a step on that a car worked out alone can be given.
fn alone(place: usize) -> Option<u32> {
    let mut refusals = STEPS[place..].iter().map(|(refusal, _)| *refusal);
    refusals.find(|refusal| !matches!(refusal, 9 | 11))
}

/// The train with a car that was refused behind those held.
fn with_refused(train: &Train, number: u32) -> Train {
    let mut train = train.clone();
    train.places[train.held] = Place { number, ..Place::default() };
    train.held += 1;
    train
}

/// By 31, 32 and 7 to 11 the train stays as it is; by the others the number is held.
#[test]
fn every_refusal_of_an_entered_car_in_its_place() {
    let mut asked = wrong_in_everything();
    for (place, (refusal, change)) in STEPS.into_iter().enumerate() {
        let Asked { car, tables, train } = &asked;
        let mut entered = train.clone();
        let answer = operations::enter_probe(&mut entered, tables, car);
        assert_eq!(answer.map_err(Refusal::number), Err(refusal), "step {place}");
        let stays = matches!(refusal, 31 | 32 | 7..=11);
        let expected = if stays { train.clone() } else { with_refused(train, car.number) };
        assert_eq!(entered, expected, "step {place}");
        change(&mut asked);
    }
    let figures = operations::enter_probe(&mut asked.train, &asked.tables, &asked.car).unwrap();
    assert_eq!((figures.number, figures.level, figures.volume), (161, 30_000, 2_000));
    assert_eq!((asked.train.all.accepted, asked.train.held), (1, 60));
    assert_eq!(asked.train.places[59].grade, 1);
}

/// Alone, and with given errors that 24 turns away too.
#[test]
fn every_refusal_of_a_car_alone_in_its_place() {
    let mut asked = wrong_in_everything();
    let mut errors = Errors { level: 101, ..Errors::default() };
    for (place, (_, change)) in STEPS.into_iter().enumerate() {
        let Asked { car, tables, .. } = &asked;
        let figures = operations::work_out_probe(tables, car);
        assert_eq!(figures.err().map(Refusal::number), alone(place), "step {place}");
        let permitted = operations::permitted_error_probe(tables, car, &errors);
        assert_eq!(permitted.err().map(Refusal::number), alone(place), "step {place}");
        change(&mut asked);
    }
    let Asked { car, tables, .. } = &asked;
    let figures = operations::work_out_probe(tables, car).unwrap();
    let mut ask = |level| {
        errors.level = level;
        operations::permitted_error_probe(tables, car, &errors)
    };
    // 10⁷ × 100 × 20,000 dm³ over 1,000 mm × 2,000, and 10⁷ × 20,000 dm³ over the same.
    assert_eq!(ask(101), Err(Refusal::GivenError));
    assert_eq!([ask(100), ask(1)], [Err(Refusal::LevelTerm); 2]);
    assert_eq!(ask(0).map(|permitted| permitted.figures), Ok(figures));
}

/// Where the tables are checked already, 31 and 32 still come before all others.
#[test]
fn the_set_comes_first_where_tables_are_checked() {
    let checked = operations::check_tables(&tables()).unwrap();
    let errors = Errors { level: 101, ..Errors::default() };
    for (level, refusal) in [(-1.0, 31), (f32::NAN, 31), (10_000_000.0, 32), (0.0, 9)] {
        let car = ProbeCar { set: Set { level, ..SET }, ..ProbeCar::default() };
        let mut train = full();
        let entered = train.enter_probe(&car, &checked);
        assert_eq!(entered.map_err(Refusal::number), Err(refusal));
        assert_eq!(train, full());
        let of_the_car = if refusal == 9 { 10 } else { refusal };
        assert_eq!(car.work_out(&checked).map_err(Refusal::number), Err(of_the_car));
        let permitted = permitted::work_out_probe(&car, &checked, &errors);
        assert_eq!(permitted.map_err(Refusal::number), Err(of_the_car));
    }
}

/// Dipped cars, probes' cars and strikes in one train; masses as [`levels_of_every_tenth`] has them.
#[test]
fn a_train_of_both() {
    let mut train = Train::default();
    let mut enter = |number, car: ProbeCar| {
        let before = train.clone();
        let answer = operations::enter_probe(&mut train, &tables(), &ProbeCar { number, ..car });
        let refusal = answer.err().map(Refusal::number);
        assert_eq!(train == before, matches!(refusal, Some(31 | 32 | 11)));
        refusal
    };
    assert_eq!(enter(1, at(1_500.1)), None);
    assert_eq!([enter(2, at(f32::NAN)), enter(3, at(1e9))], [Some(31), Some(32)]);
    assert_eq!([enter(4, at(3_000.05)), enter(1, at(1_500.2))], [Some(16), Some(11)]);
    assert_eq!([enter(1, at(-1.0)), enter(4, at(1e9))], [Some(31), Some(32)]);
    let dipped = |number| Car { number, ..Car::from(DIPPED) };
    let mut dip = |number| operations::enter(&mut train, &tables(), &dipped(number)).err();
    assert_eq!([dip(1), dip(4), dip(2)], [Some(Refusal::CarTwice), Some(Refusal::CarTwice), None]);
    assert_eq!(train.all, Totals { accepted: 2, gross: 32_232 + 32_229, net: 32_006 + 32_003 });
    assert_eq!((train.grades[2], train.held), (train.all, 3));
    let car = ProbeCar { number: 3, stick: 2, ..at(1_500.2) };
    assert_eq!(operations::strike(&mut train, 1), Ok(()));
    assert_eq!(operations::strike(&mut train, 3), Err(Refusal::NotHeld));
    assert_eq!(operations::enter_probe(&mut train, &tables(), &car).unwrap().gross, 32_248);
    assert_eq!(train.all, Totals { accepted: 2, gross: 32_229 + 32_248, net: 32_003 + 32_022 });
    let numbers = train.places.map(|place| place.number);
    assert_eq!(numbers[..4], [4, 2, 3, 0]);
}

#[test]
fn the_permitted_error() {
    let errors = Errors::from([5_000, 1_600, 500, 5, 5, 30]);
    let ask = |level| operations::permitted_error_probe(&tables(), &at(level), &errors).unwrap();
    for (level, gross, level_term, squares, limit) in [
        (1_500.0, 32_229, 2_571, 35_028_247, 6_511),
        (1_500.1, 32_232, 2_571, 35_028_247, 6_511),
        // Rows 0 and 1000 mm: 6 × 10¹² over 1,000 mm × V0.
        (999.9, 18_415, 3_000, 37_418_206, 6_729),
        // The float 1000.05 is 1000.0499878.
        (1_000.05, 18_417, 3_000, 37_418_206, 6_729),
        // Rows 1000 and 2000 mm: 9 × 10¹² over 1,000 mm × 2,000,300.
        (1_000.06, 18_419, 4_499, 48_659_207, 7_674),
    ] {
        let permitted = ask(level);
        assert_eq!((permitted.figures.gross, permitted.terms.level), (gross, level_term));
        assert_eq!((permitted.terms.squares, permitted.limit), (squares, limit), "{level}");
        let terms = permitted.terms;
        assert_eq!([terms.factor, terms.density_by_factor], [1_063_338, 1_701]);
        assert_eq!([terms.density_temperature, terms.density_temperature_by_factor], [359, 382]);
        assert!(!permitted.within);
    }
    let dipped = operations::permitted_error(&tables(), &Car::from(DIPPED), &errors);
    assert_eq!(dipped, Ok(ask(1_500.0)));
}

/// The probe's car that a dipped one is, given its mean level in 0.1 mm. Tenths of at most seven digits
/// come back out of the floats.
fn probed(car: &Car, level: u64) -> ProbeCar {
    let number = |tenths: u64| (tenths as f64 / 10.0) as f32;
    let set = Set {
        level: number(level),
        temperature: number(car.temperature.into()),
        density: number(car.density.into()),
    };
    let Car { number, car_type, grade, stick, water_level, water, impurities, .. } = *car;
    ProbeCar { number, car_type, grade, stick, water_level, water, impurities, set }
}

/// The level of a dipped car that is not turned away by 14, 15 or 23, and whose numbers the floats hold.
fn level_of(car: &Car) -> Option<u64> {
    let level = match level::mean(car.given, car.readings) {
        Err(Refusal::Level) => 0,
        mean => mean.ok()?,
    };
    let largest = level.max(car.temperature.into()).max(car.density.into());
    (largest <= 1_000_000).then_some(level)
}

/// Cars of generated sheets, dipped and by probe: the same figures or the same refusal, alone and with
/// the permitted error, and the same train.
#[test]
fn beside_dipped_cars_at_the_same_level() {
    let errors = Errors::from([5_000, 1_600, 500, 5, 5, 30]);
    let (mut accepted, mut refused) = (0, [0; 26]);
    for seed in 0..3_000 {
        let Ok(sheet) = Sheet::read(&sheets::sheet(seed)) else { continue };
        let (mut by_dip, mut by_probe) = (Train::default(), Train::default());
        for car in sheet.cars() {
            let Some(level) = level_of(car) else { continue };
            let (car, other) = (*car, probed(car, level));
            let answer = by_dip.enter(&car, &sheet.tables);
            assert_eq!(answer, by_probe.enter_probe(&other, &sheet.tables), "{car:?}");
            assert_eq!(by_dip, by_probe, "{car:?}");
            assert_eq!(car.work_out(&sheet.tables), other.work_out(&sheet.tables), "{car:?}");
            let permitted = permitted::work_out(&car, &sheet.tables, &errors);
            let of_probe = permitted::work_out_probe(&other, &sheet.tables, &errors);
            assert_eq!(permitted, of_probe, "{car:?}");
            accepted += u32::from(answer.is_ok());
            refused[answer.map_or_else(|refusal| refusal.number() as usize, |_| 0)] += 1;
        }
    }
    assert!(accepted > 5_000, "{accepted}");
    for refusal in [9, 10, 11, 12, 13, 16, 17, 18, 19, 20, 21] {
        assert!(refused[refusal] > 10, "{refusal}: {}", refused[refusal]);
    }
}

/// The filling order: at every tenth up to the table's last level a probe's car shows at least what it
/// showed a tenth lower, and as much as a dipped car that comes to this level.
#[test]
fn the_fuller_car_never_shows_less() {
    for (stick, temperature, density) in [(1, 400, 9_900), (2, 900, 9_000)] {
        let car = Car { stick, temperature, density, ..Car::from(DIPPED) };
        let mut below = [0; 5];
        for tenths in 1..=30_000 {
            let figures = ask(probed(&car, tenths.into())).unwrap();
            assert_eq!(figures[0], tenths);
            assert!(figures.iter().zip(below).all(|(now, before)| *now >= before), "{tenths}");
            below = figures;
            if tenths % 5 == 0 {
                let dipped = Car { readings: [tenths / 10, tenths.div_ceil(10), 0, 0], ..car };
                let by_dip = operations::work_out(&tables(), &dipped).unwrap();
                assert_eq!(shown(by_dip), figures, "{tenths}");
            }
        }
    }
}
