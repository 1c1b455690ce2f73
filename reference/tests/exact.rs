//! Gross and net masses against the exact value, in whole numbers of any length.

use reference::car::{Car, Figures, FIELDS};
use reference::probe::{ProbeCar, Set};
use reference::sheet::{Event, Sheet};
use reference::sheets;
use reference::table::{Row, Tables};
use reference::train::Train;

/// A whole number of any length, its lowest 32 bits first.
#[derive(Clone, Debug, PartialEq, Eq)]
struct Big(Vec<u32>);

impl Big {
    fn from(number: u64) -> Self {
        Self(vec![number as u32, (number >> 32) as u32]).trim()
    }

    fn trim(mut self) -> Self {
        while self.0.last() == Some(&0) {
            self.0.pop();
        }
        self
    }

    fn times(&self, other: &Self) -> Self {
        let mut product = vec![0; self.0.len() + other.0.len()];
        for (i, &a) in self.0.iter().enumerate() {
            let mut carry = 0;
            for (j, &b) in other.0.iter().enumerate() {
                let sum = u64::from(a) * u64::from(b) + u64::from(product[i + j]) + carry;
                product[i + j] = sum as u32;
                carry = sum >> 32;
            }
            product[i + other.0.len()] = carry as u32;
        }
        Self(product).trim()
    }

    fn by(&self, number: u64) -> Self {
        self.times(&Self::from(number))
    }

    fn plus(&self, other: &Self) -> Self {
        let mut sum = Vec::new();
        let mut carry = 0;
        for place in 0..self.0.len().max(other.0.len()) + 1 {
            let digit = |number: &Self| u64::from(number.0.get(place).copied().unwrap_or(0));
            let total = digit(self) + digit(other) + carry;
            sum.push(total as u32);
            carry = total >> 32;
        }
        Self(sum).trim()
    }

    fn at_most(&self, other: &Self) -> bool {
        let key = |number: &Self| (number.0.len(), number.0.iter().rev().copied().collect());
        let (ours, theirs): ((usize, Vec<u32>), (usize, Vec<u32>)) = (key(self), key(other));
        ours <= theirs
    }
}

/// A fraction `(plus - minus) / divisor` that is not negative.
struct Exact {
    plus: Big,
    minus: Big,
    divisor: Big,
}

impl Exact {
    fn by(&self, dividend: u64, divisor: u64) -> Self {
        Self {
            plus: self.plus.by(dividend),
            minus: self.minus.by(dividend),
            divisor: self.divisor.by(divisor),
        }
    }

    fn plus(&self, other: &Self) -> Self {
        let over = |ours: &Big, theirs: &Big| {
            ours.times(&other.divisor).plus(&theirs.times(&self.divisor))
        };
        Self {
            plus: over(&self.plus, &other.plus),
            minus: over(&self.minus, &other.minus),
            divisor: self.divisor.times(&other.divisor),
        }
    }

    /// Whether the distance to a whole number is at most so many hundredths.
    fn is_near(&self, number: u64, hundredths: u64) -> bool {
        let exact = |part: &Big| part.by(100);
        let low = self.divisor.by((100 * number).saturating_sub(hundredths));
        let high = self.divisor.by(100 * number + hundredths);
        low.plus(&exact(&self.minus)).at_most(&exact(&self.plus))
            && exact(&self.plus).at_most(&high.plus(&exact(&self.minus)))
    }
}

/// The series of the exponential of `-dividend / divisor` up to a power.
fn exponential(dividend: &Big, divisor: &Big, powers: u64) -> Exact {
    let one = || Big::from(1);
    let mut sum = Exact { plus: one(), minus: Big::from(0), divisor: one() };
    let mut term = one();
    for power in 1..=powers {
        let step = divisor.by(power);
        term = term.times(dividend);
        sum.plus = sum.plus.times(&step);
        sum.minus = sum.minus.times(&step);
        sum.divisor = sum.divisor.times(&step);
        if power % 2 == 0 {
            sum.plus = sum.plus.plus(&term);
        } else {
            sum.minus = sum.minus.plus(&term);
        }
    }
    sum
}

/// A hundred times the capacity at a level in 0.1 mm, as dividend and divisor.
fn capacity(rows: &[(u64, u64)], level: u64) -> (u64, u64) {
    let pair = rows.windows(2).find(|pair| level <= 10 * pair[1].0).unwrap();
    let ((low, low_capacity), (high, high_capacity)) = (pair[0], pair[1]);
    let (low, step) = (10 * low, 10 * (high - low));
    (100 * (low_capacity * step + (high_capacity - low_capacity) * (level - low)), step)
}

/// The exact gross mass of an accepted car, from its mean level in 0.1 mm, its series taken to a power.
fn exact_gross(car: &Car, figures: &Figures, rows: &[(u64, u64)], powers: u64) -> Exact {
    let (oil, oil_step) = capacity(rows, u64::from(figures.level));
    let (water, water_step) = capacity(rows, 10 * u64::from(car.water_level));
    let density = u64::from(car.density);
    let temperature = u64::from(car.temperature);
    let expansion = if car.stick == 1 { 100 } else { 121 };

    // y, the exponent without its square, is b / r² for tenths of a degree and units of 10⁻¹⁰;
    // the exponent is y + 0.8 y².
    let b = Big::from(18_696_960_000_000 + 4_861_800_000 * density).by(temperature - 150);
    let whole = Big::from(density * density).by(10_000_000_000);
    let dividend = b.times(&whole).by(10).plus(&b.times(&b).by(8));
    let divisor = whole.times(&whole).by(10);

    exponential(&dividend, &divisor, powers)
        .by(oil * water_step - water * oil_step, oil_step * water_step)
        .by(20_000_000 + expansion * (temperature - 200), 20_000_000)
        .by(density, 1_000_000)
}

#[test]
fn masses_stay_near_the_exact_value() {
    let mut cars = 0;
    let mut widest = 0;
    for seed in 0.. {
        if cars >= 3_000 {
            break;
        }
        let bytes = if seed % 50 == 0 { sheets::full_sheet(seed) } else { sheets::sheet(seed) };
        let Ok(sheet) = Sheet::read(&bytes) else { continue };
        for car in sheet.cars() {
            let Ok(figures) = car.work_out(&sheet.tables) else { continue };
            let rows = rows_of(&bytes, car.car_type);
            for powers in [7, 8] {
                let gross = exact_gross(car, &figures, &rows, powers);
                let share = u64::from(10_000 - car.water - car.impurities);
                let net = gross.by(share, 10_000);
                let fields = <[u32; FIELDS]>::from(*car);
                assert!(gross.is_near(figures.gross.into(), 55), "gross of {fields:?}");
                assert!(net.is_near(figures.net.into(), 110), "net of {fields:?}");
                if !gross.is_near(figures.gross.into(), 49) {
                    widest += 1;
                }
            }
            cars += 1;
        }
    }
    // The bound is not idle: some masses lie almost half a kilogram off.
    assert!(widest > 0);
}

/// The exact gross and net of some accepted cars of a sheet, their series taken to a power.
fn exact_totals(cars: &[(&Car, Figures)], sheet: &[u8], powers: u64) -> (Exact, Exact) {
    let zero = || Exact { plus: Big::from(0), minus: Big::from(0), divisor: Big::from(1) };
    cars.iter().fold((zero(), zero()), |(gross, net), (car, figures)| {
        let exact = exact_gross(car, figures, &rows_of(sheet, car.car_type), powers);
        let share = u64::from(10_000 - car.water - car.impurities);
        (gross.plus(&exact), net.plus(&exact.by(share, 10_000)))
    })
}

#[test]
fn each_grade_s_totals_stay_near_the_exact_sums() {
    let (mut grades_with_cars, mut strikes) = (0, 0);
    for seed in 0..150 {
        let bytes = if seed % 50 == 0 { sheets::fullest_sheet(seed) } else { sheets::sheet(seed) };
        let Ok(sheet) = Sheet::read(&bytes) else { continue };
        let mut train = Train::default();
        let mut accepted: [Vec<(&Car, Figures)>; 4] = Default::default();
        for event in sheet.events() {
            match event {
                Event::Enter(car) => {
                    if let Ok(figures) = train.enter(car, &sheet.tables) {
                        accepted[car.grade as usize - 1].push((car, figures));
                    }
                }
                Event::Strike(number) => {
                    strikes += u32::from(train.strike(*number).is_ok());
                    accepted
                        .iter_mut()
                        .for_each(|cars| cars.retain(|(car, _)| car.number != *number));
                }
            }
        }
        for (cars, totals) in accepted.iter().zip(train.grades) {
            assert_eq!(cars.len(), totals.accepted as usize);
            let count = u64::from(totals.accepted);
            for powers in [7, 8] {
                let (gross, net) = exact_totals(cars, &bytes, powers);
                assert!(gross.is_near(totals.gross, 55 * count), "gross, seed {seed}");
                assert!(net.is_near(totals.net, 110 * count), "net, seed {seed}");
            }
            grades_with_cars += u32::from(count > 0);
        }
    }
    assert!(grades_with_cars > 100 && strikes > 200, "{grades_with_cars}, {strikes} strikes");
}

/// The rows of a type, read from the text of a sheet.
fn rows_of(sheet: &[u8], car_type: u32) -> Vec<(u64, u64)> {
    let text = std::str::from_utf8(sheet).unwrap();
    let numbers = |line: &str| -> Vec<u64> {
        line[1..].split_whitespace().map(|number| number.parse().unwrap()).collect()
    };
    text.lines()
        .skip_while(|line| !line.starts_with('T') || numbers(line)[0] != u64::from(car_type))
        .skip(1)
        .take_while(|line| line.starts_with('R'))
        .map(|line| (numbers(line)[0], numbers(line)[1]))
        .collect()
}

#[test]
fn the_first_car_of_the_paper() {
    let car = Car::from([50_000_001, 1, 3, 1, 2, 1500, 1500, 0, 0, 0, 600, 9500, 50, 20]);
    let rows = [(0, 0), (1000, 20_000), (2000, 50_000), (3000, 70_000)];
    let figures = Figures {
        number: 50_000_001,
        level: 15_000,
        volume: 3_500_000,
        volume_at_15: 3_392_515,
        gross: 32_229,
        net: 32_003,
    };
    for powers in [7, 8] {
        let gross = exact_gross(&car, &figures, &rows, powers);
        assert!(gross.is_near(32_229, 55));
        assert!(!gross.is_near(32_230, 55));
        assert!(!gross.is_near(32_228, 55));
        assert!(gross.by(9_930, 10_000).is_near(32_003, 110));
    }
}

/// A table with these rows, of type 1.
fn tables_of(rows: &[(u64, u64)]) -> Tables {
    let mut tables = Tables::new();
    tables.begin(1, rows.len() as u32).unwrap();
    for &(level, capacity) in rows {
        tables.add(Row { level: level as u32, capacity: capacity as u32 }).unwrap();
    }
    tables
}

/// The paper's car at 1500.5 mm holds 35,015 dm³ and 32,242.70 kg; at 1500 mm it would be 32,228.89 kg, at
/// 1501 mm 32,256.52 kg.
#[test]
fn the_exact_value_starts_from_tenths() {
    let rows = [(0, 0), (1000, 20_000), (2000, 50_000), (3000, 70_000)];
    let car = Car::from([1, 1, 3, 1, 2, 1500, 1501, 0, 0, 0, 600, 9500, 50, 20]);
    let figures = car.work_out(&tables_of(&rows)).unwrap();
    assert_eq!((figures.level, figures.volume), (15_005, 3_501_500));
    for powers in [7, 8] {
        let gross = exact_gross(&car, &figures, &rows, powers);
        assert!(gross.is_near(32_243, 55) && gross.is_near(figures.gross.into(), 55));
        assert!(!gross.is_near(32_229, 110) && !gross.is_near(32_257, 110));
    }
}

/// A probe's masses against the exact value from its tenths: levels over two metres, temperatures and
/// densities over their ranges.
#[test]
fn a_probe_s_masses_stay_near_the_exact_value_of_its_tenths() {
    let rows = [(0, 0), (7, 3), (1000, 20_000), (2000, 50_000), (3000, 199_999)];
    let tables = tables_of(&rows);
    let nearest = |number: f32| (10.0 * f64::from(number)).round() as u32;
    for step in 0..3_000_u16 {
        let along = |low: f32, high: f32, by: u16| {
            let part = f32::from(step.wrapping_mul(by) % 3_000) / 3_000.0;
            low + part * (high - low)
        };
        let [level, temperature, density] = [
            along(1_000.04, 3_000.04, 1),
            along(39.96, 90.04, 1_237),
            along(899.96, 990.03, 2_011),
        ];
        let set = Set { level, temperature, density };
        let stick = 1 + u32::from(step % 2);
        let car = ProbeCar::new([1, 1, 4, stick, 999, 100, 37], set);
        let figures = car.work_out(&tables).unwrap();
        assert_eq!(figures.level, nearest(level));
        let mut tenths = Car::from([1, 1, 4, stick, 0, 0, 0, 0, 0, 999, 0, 0, 100, 37]);
        (tenths.temperature, tenths.density) = (nearest(temperature), nearest(density));
        for powers in [7, 8] {
            let gross = exact_gross(&tenths, &figures, &rows, powers);
            assert!(gross.is_near(figures.gross.into(), 55), "gross of {set:?}");
            let net = gross.by(9_863, 10_000);
            assert!(net.is_near(figures.net.into(), 110), "net of {set:?}");
        }
    }
}

#[test]
fn long_numbers() {
    let factorial = |last: u64| (1..=last).fold(Big::from(1), |product, next| product.by(next));
    assert_eq!(factorial(20), Big::from(2_432_902_008_176_640_000));
    assert_eq!(factorial(30), factorial(28).by(29 * 30));
    assert!(factorial(29).at_most(&factorial(30)) && !factorial(30).at_most(&factorial(29)));
    assert_eq!(Big::from(u64::MAX).plus(&Big::from(1)), Big::from(1 << 32).by(1 << 32));
}
