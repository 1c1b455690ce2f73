//! A second calculation of the permitted error that can take a wrong turn: each turn must show in the
//! answer of the vectors made for it.

mod millimetres;
mod roundings;
mod turns;

use reference::car::{Car, Figures};
use reference::conformance::vectors::{all, permitted::Vector};
use reference::operations::{self, HandedIn};
use reference::table::Row;

use millimetres::Millimetre::{self, Cut, Nearest, Next};
use roundings::{rounded, Rounding};

/// Places where the rules round.
#[derive(Clone, Copy, Debug, PartialEq, Eq)]
enum Term {
    Level,
    DensityTemperature,
    OilTemperature,
    Factor,
    DensityByFactor,
    TemperatureByFactor,
}

/// Ten times a reading or the water level, the sum of ten times the readings, or twice that sum.
#[derive(Clone, Copy, Debug, PartialEq, Eq)]
enum Held {
    Tenfold,
    Sum,
    TwiceTheSum,
}

#[derive(Clone, Copy, Debug, PartialEq, Eq)]
enum Turn {
    None,
    Round(Term, Rounding),
    /// An error is left out of the sum, by its place among those given.
    LeftOut(usize),
    TemperatureErrorsExchanged,
    UpperPairOnARow,
    LowerPairAboveARow,
    PairAroundWater,
    PairAroundFirstReading,
    PairOfFirstTable,
    /// The rows around the level brought to whole mm, or V0 at it.
    PairAround(Millimetre),
    VolumeAtMean(Millimetre),
    /// Rows in mm searched for a level in tenths.
    RowsNotTimesTen,
    LevelStepInTenths,
    LevelErrorInMillimetres,
    /// A number that the mean level comes of held in 32 bits.
    In32Bits(Held),
    VolumeWithWater,
    VolumeAt15,
    StepsExchanged,
    RoundedOnce,
    FactorUpsideDown,
    FactorOne,
    FactorFrom20,
    FactorUnrounded,
    FactorOnOil,
    FactorNotOnTemperature,
    ComparedBeforeRounding,
    /// The largest level term that is accepted.
    LargestLevelTerm(u64),
    NoVolumeAccepted,
    NoVolumeAcceptedWithoutLevelError,
    /// The highest error that is accepted, by its place.
    Highest(usize, u64),
    /// Errors cut to so many bits.
    Bits(u32),
    ErrorsBeforeCar,
    LevelTermBeforeErrors,
    MoreThanSquares,
    LimitDown,
    LimitToNearest,
    LimitInFloatingPoint,
    /// From this many kg on the narrower limit holds.
    HeavyFrom(u64),
    HeavyByNet,
    LessThanAllowed,
}

use Held::{Sum, Tenfold, TwiceTheSum};
use Rounding::{Down, HalfDown, HalfToEven, Up};
use Term::{
    DensityByFactor, DensityTemperature, Factor, Level, OilTemperature, TemperatureByFactor,
};

const HIGHEST: [u64; 6] = [10_000, 10_000, 10_000, 20, 20, 100];
const ONE: u64 = 10_000_000_000;

/// What a caller sees: figures, n and whether it is within, or the refusal.
type Seen = Result<(Figures, u64, bool), u32>;

impl Held {
    /// The car at the mean level and above the water level that come out, cut to mm.
    fn car(self, car: Car) -> Car {
        let hold = |held, number: u64| if self == held { number % (1 << 32) } else { number };
        let tenfold = |mm: &u32| hold(Tenfold, 10 * u64::from(*mm));
        let used = used(car.readings);
        let count = used.len() as u64;
        let sum = hold(Sum, used.iter().map(tenfold).sum());
        let level = hold(TwiceTheSum, 2 * sum + count) / (2 * count);
        let [level, water_level] = [level, tenfold(&car.water_level)].map(|of| (of / 10) as u32);
        Car { given: 2, readings: [level, level, 0, 0], water_level, ..car }
    }
}

/// The readings whose mean is taken: the first two where they agree, else the three closest.
fn used(mut readings: [u32; 4]) -> Vec<u32> {
    if readings[0].abs_diff(readings[1]) <= 1 {
        return readings[..2].to_vec();
    }
    readings.sort_unstable();
    let by_span = |three: &&[u32]| three[2] - three[0];
    readings.windows(3).min_by_key(by_span).expect("three readings").to_vec()
}

impl Turn {
    fn round(self, term: Term, dividend: u64, divisor: u64) -> u64 {
        let rounding = match self {
            Self::Round(turned, rounding) if turned == term => Some(rounding),
            _ => None,
        };
        rounded(rounding, dividend, divisor)
    }

    /// The answer to a vector, from the figures of its car or the car's own refusal.
    fn answer(self, vector: &Vector) -> Seen {
        let errors = <[u32; 6]>::from(vector.errors).map(u64::from);
        let errors = match self {
            Self::Bits(bits) => errors.map(|error| error % (1 << bits)),
            _ => errors,
        };
        let wrong = self.is_out_of_range(errors);
        if wrong && self == Self::ErrorsBeforeCar {
            return Err(24);
        }
        let car = if let Self::In32Bits(held) = self { held.car(vector.car) } else { vector.car };
        let figures = operations::work_out(&vector.tables, &car);
        let figures = figures.map_err(|refusal| refusal.number())?;
        let level_term = self.level_term(vector, &figures, errors[5]);
        if wrong && !(self == Self::LevelTermBeforeErrors && level_term.is_err()) {
            return Err(24);
        }
        let squares = self.squares(vector, level_term?, errors);
        let limit = self.limit(squares);
        Ok((figures, limit, self.is_within(limit, &figures)))
    }

    fn is_out_of_range(self, errors: [u64; 6]) -> bool {
        let highest = |place| match self {
            Self::Highest(turned, highest) if turned == place => highest,
            _ => HIGHEST[place],
        };
        (0..6).any(|place| errors[place] > highest(place))
    }

    fn level_term(self, vector: &Vector, figures: &Figures, error: u64) -> Result<u64, u32> {
        let (level_step, capacity_step) = self.steps(vector, figures.level);
        let worked_out = |car: Car| {
            operations::work_out(&vector.tables, &car).expect("a car that is accepted").volume
        };
        let volume = match self {
            Self::VolumeWithWater => worked_out(Car { water_level: 0, ..vector.car }),
            Self::VolumeAt15 => figures.volume_at_15,
            Self::VolumeAtMean(millimetre) => {
                let level = millimetre.of(figures.level.into()) as u32;
                worked_out(Car { given: 2, readings: [level, level, 0, 0], ..vector.car })
            }
            _ => figures.volume,
        };
        if volume == 0 {
            let accepted = self == Self::NoVolumeAccepted
                || (self == Self::NoVolumeAcceptedWithoutLevelError && error == 0);
            return if accepted { Ok(0) } else { Err(25) };
        }
        // an error that is out of its range may be any number of 32 bits
        let unit = if self == Self::LevelErrorInMillimetres { 10 } else { 1 };
        let dividend = (10_000_000 * unit * error).saturating_mul(capacity_step);
        let unit = if self == Self::LevelStepInTenths { 10 } else { 1 };
        let divisor = unit * level_step * u64::from(volume);
        let term = self.round(Level, dividend, divisor);
        let tested =
            if self == Self::ComparedBeforeRounding { dividend.div_ceil(divisor) } else { term };
        let largest = if let Self::LargestLevelTerm(largest) = self { largest } else { 10_000 };
        if tested > largest {
            return Err(25);
        }
        Ok(if self == Self::LeftOut(5) { 0 } else { term })
    }

    /// Level step and capacity step of the rows around the level in 0.1 mm.
    fn steps(self, vector: &Vector, level: u32) -> (u64, u64) {
        let own = |table: &&HandedIn| table.car_type == vector.car.car_type;
        let table = match self {
            Self::PairOfFirstTable => vector.tables.first(),
            _ => vector.tables.iter().find(own),
        };
        let rows = &table.expect("a table").rows;
        let level = match self {
            Self::PairAroundWater => 10 * vector.car.water_level,
            Self::PairAroundFirstReading => 10 * vector.car.readings[0],
            Self::PairAround(millimetre) => 10 * millimetre.of(level.into()) as u32,
            Self::RowsNotTimesTen => 10 * level,
            _ => level,
        };
        let reached = |row: &Row| level <= 10 * row.level;
        let mut upper = rows.iter().position(reached).unwrap_or(rows.len() - 1);
        if self == Self::UpperPairOnARow && level == 10 * rows[upper].level {
            upper += 1;
        }
        if self == Self::LowerPairAboveARow && level <= 10 * (rows[upper - 1].level + 1) {
            upper -= 1;
        }
        let upper = upper.clamp(1, rows.len() - 1);
        let (low, high) = (rows[upper - 1], rows[upper]);
        let steps = (u64::from(high.level - low.level), u64::from(high.capacity - low.capacity));
        if self == Self::StepsExchanged {
            (steps.1, steps.0)
        } else {
            steps
        }
    }

    fn squares(self, vector: &Vector, level_term: u64, mut errors: [u64; 6]) -> u64 {
        if let Self::LeftOut(place) = self {
            errors[place] = 0;
        }
        if self == Self::TemperatureErrorsExchanged {
            errors.swap(3, 4);
        }
        let [capacity, density, processing, density_temperature, oil_temperature, _] = errors;
        let r = u64::from(vector.car.density);
        let sum = 18_696_960_000_000 + 4_861_800_000 * r;
        let coefficient = (2 * sum + r * r) / (2 * r * r);
        let (above, below) = self.factor(coefficient, u64::from(vector.car.temperature));

        let of_density = self.round(DensityByFactor, density * above, below);
        let term = self.round(DensityTemperature, coefficient * density_temperature, 10_000);
        let of_temperature = match self {
            Self::RoundedOnce => {
                let dividend = coefficient * density_temperature * above;
                self.round(TemperatureByFactor, dividend, 10_000 * below)
            }
            Self::FactorNotOnTemperature => term,
            _ => self.round(TemperatureByFactor, term * above, below),
        };
        let mut oil = self.round(OilTemperature, coefficient * oil_temperature, 10_000);
        if self == Self::FactorOnOil {
            oil = self.round(OilTemperature, oil * above, below);
        }
        [capacity, level_term, of_density, of_temperature, oil, processing]
            .iter()
            .map(|term| term * term)
            .sum()
    }

    /// G as what stands above the line and below it.
    fn factor(self, coefficient: u64, temperature: u64) -> (u64, u64) {
        const MILLION: u64 = 1_000_000;
        let at = |tenths| ONE + 2 * coefficient * tenths;
        let oil = at(temperature);
        let (above, below) = match self {
            Self::FactorUpsideDown => (at(150), oil),
            Self::FactorOne => (at(150), at(150)),
            Self::FactorFrom20 => (oil, at(200)),
            _ => (oil, at(150)),
        };
        if self == Self::FactorUnrounded {
            return (above, below);
        }
        (self.round(Factor, MILLION * above, below), MILLION)
    }

    fn limit(self, squares: u64) -> u64 {
        let reaches = |n: &u64| match self {
            Self::MoreThanSquares => 100 * n * n > 121 * squares,
            Self::LimitDown => 100 * (n + 1) * (n + 1) > 121 * squares,
            Self::LimitToNearest => 100 * (2 * n + 1) * (2 * n + 1) > 4 * 121 * squares,
            Self::LimitInFloatingPoint => *n as f64 >= 1.1 * (squares as f64).sqrt(),
            _ => 100 * n * n >= 121 * squares,
        };
        (0..).find(reaches).expect("a limit")
    }

    fn is_within(self, limit: u64, figures: &Figures) -> bool {
        let mass = if self == Self::HeavyByNet { figures.net } else { figures.gross };
        let heavy = if let Self::HeavyFrom(heavy) = self { heavy } else { 100_000 };
        let allowed = if u64::from(mass) < heavy { 6_500 } else { 5_000 };
        limit < allowed || (limit == allowed && self != Self::LessThanAllowed)
    }
}

const TURNS: &[(&str, &[Turn])] = &[
    ("alone-capacity-error", &[Turn::LeftOut(0)]),
    ("alone-density-error", &[Turn::LeftOut(1), Turn::FactorOne]),
    ("alone-processing-error", &[Turn::LeftOut(2)]),
    (
        "alone-density-temperature-error",
        &[Turn::LeftOut(3), Turn::TemperatureErrorsExchanged, Turn::FactorNotOnTemperature],
    ),
    (
        "alone-oil-temperature-error",
        &[Turn::LeftOut(4), Turn::TemperatureErrorsExchanged, Turn::FactorOnOil],
    ),
    ("alone-level-error", &[Turn::LeftOut(5), Turn::StepsExchanged, Turn::VolumeAt15]),
    ("parting-upper-pair-on-a-row", &[Turn::UpperPairOnARow]),
    ("parting-upper-pair-on-a-row-less-steep-above", &[Turn::UpperPairOnARow]),
    ("parting-lower-pair-above-a-row", &[Turn::LowerPairAboveARow]),
    ("parting-pair-around-the-water-level", &[Turn::PairAroundWater, Turn::VolumeWithWater]),
    ("parting-pair-around-the-first-reading", &[Turn::PairAroundFirstReading]),
    ("parting-v0-with-the-water", &[Turn::VolumeWithWater]),
    ("parting-v15-for-v0", &[Turn::VolumeAt15]),
    ("parting-steps-exchanged", &[Turn::StepsExchanged]),
    ("level-15000-in-table-2-of-four", &[Turn::PairOfFirstTable, Turn::UpperPairOnARow]),
    ("level-15000-in-table-3-of-four", &[Turn::PairOfFirstTable, Turn::UpperPairOnARow]),
    ("level-15000-in-table-4-of-four", &[Turn::PairOfFirstTable, Turn::UpperPairOnARow]),
    ("parting-rows-around-the-level-cut-to-mm", &[Turn::PairAround(Cut), Turn::LowerPairAboveARow]),
    ("parting-rows-around-the-level-cut-to-mm-less-steep-above", &[Turn::PairAround(Cut)]),
    ("parting-rows-around-the-nearest-mm", &[Turn::PairAround(Nearest), Turn::PairAround(Cut)]),
    ("parting-rows-around-the-nearest-mm-less-steep-above", &[Turn::PairAround(Nearest)]),
    ("parting-rows-not-times-ten", &[Turn::RowsNotTimesTen]),
    ("parting-level-step-in-tenths", &[Turn::LevelStepInTenths]),
    ("parting-level-error-in-mm", &[Turn::LevelErrorInMillimetres]),
    ("parting-volume-at-the-level-cut-to-mm", &[Turn::VolumeAtMean(Cut), Turn::VolumeAtMean(Next)]),
    ("parting-volume-at-the-nearest-mm", &[Turn::VolumeAtMean(Nearest), Turn::VolumeAtMean(Cut)]),
    ("refusal-16-readings-times-10-in-32-bits", &[Turn::In32Bits(Tenfold), Turn::In32Bits(Sum)]),
    ("refusal-16-first-two-of-four-times-10-in-32-bits", &[Turn::In32Bits(Tenfold)]),
    ("refusal-16-three-of-four-times-10-in-32-bits", &[Turn::In32Bits(Tenfold)]),
    ("refusal-16-readings-times-10-in-32-bits-in-table-1-of-four", &[Turn::In32Bits(Tenfold)]),
    ("refusal-16-readings-times-10-in-32-bits-in-table-4-of-four", &[Turn::In32Bits(Tenfold)]),
    ("refusal-16-sum-of-two-in-32-bits", &[Turn::In32Bits(Sum), Turn::In32Bits(TwiceTheSum)]),
    ("refusal-16-sum-of-three-in-32-bits", &[Turn::In32Bits(Sum), Turn::In32Bits(TwiceTheSum)]),
    ("refusal-16-twice-the-sum-of-two-in-32-bits", &[Turn::In32Bits(TwiceTheSum)]),
    ("refusal-16-twice-the-sum-of-three-in-32-bits", &[Turn::In32Bits(TwiceTheSum)]),
    ("refusal-17-water-level-times-10-in-32-bits", &[Turn::In32Bits(Tenfold)]),
    ("refusal-17-water-level-times-10-in-32-bits-with-a-mean-of-three", &[Turn::In32Bits(Tenfold)]),
    ("refusal-17-water-level-times-10-in-32-bits-in-table-2-of-four", &[Turn::In32Bits(Tenfold)]),
    ("level-10005", &[Turn::PairAround(Cut), Turn::LevelStepInTenths]),
    ("level-20003", &[Turn::PairAround(Nearest), Turn::LevelErrorInMillimetres]),
    ("rack-car-15005", &[Turn::LevelErrorInMillimetres, Turn::LevelStepInTenths]),
    ("refusal-25-level-term-10005", &[Turn::VolumeAtMean(Next), Turn::LargestLevelTerm(10_005)]),
    ("refusal-25-no-volume-at-17.5-mm", &[Turn::VolumeAtMean(Nearest), Turn::NoVolumeAccepted]),
    ("parting-factor-upside-down", &[Turn::FactorUpsideDown, Turn::FactorOne]),
    ("parting-15-degrees-above-the-line", &[Turn::FactorOne, Turn::FactorUpsideDown]),
    ("parting-20-degrees-below-the-line", &[Turn::FactorFrom20, Turn::FactorUpsideDown]),
    ("parting-factor-left-out-of-density-temperature", &[Turn::FactorNotOnTemperature]),
    ("parting-factor-on-oil-temperature", &[Turn::FactorOnOil]),
    ("parting-density-temperature-rounded-once", &[Turn::RoundedOnce]),
    ("parting-density-temperature-rounded-once-goes-up", &[Turn::RoundedOnce]),
    ("rounding-level-term-down", &[Turn::Round(Level, Up)]),
    ("rounding-level-term-up", &[Turn::Round(Level, Down)]),
    (
        "rounding-level-term-half-goes-up",
        &[Turn::Round(Level, Down), Turn::Round(Level, HalfDown), Turn::Round(Level, HalfToEven)],
    ),
    ("rounding-oil-temperature-term-down", &[Turn::Round(OilTemperature, Up)]),
    ("rounding-oil-temperature-term-up", &[Turn::Round(OilTemperature, Down)]),
    (
        "rounding-oil-temperature-term-half-goes-up",
        &[
            Turn::Round(OilTemperature, Down),
            Turn::Round(OilTemperature, HalfDown),
            Turn::Round(OilTemperature, HalfToEven),
        ],
    ),
    ("rounding-density-temperature-term-down", &[Turn::Round(DensityTemperature, Up)]),
    ("rounding-density-temperature-term-up", &[Turn::Round(DensityTemperature, Down)]),
    (
        "rounding-density-temperature-term-half-goes-up",
        &[
            Turn::Round(DensityTemperature, Down),
            Turn::Round(DensityTemperature, HalfDown),
            Turn::Round(DensityTemperature, HalfToEven),
        ],
    ),
    ("rounding-factor-down", &[Turn::Round(Factor, Up)]),
    ("rounding-factor-up", &[Turn::Round(Factor, Down), Turn::FactorUnrounded]),
    ("rounding-density-by-factor-down", &[Turn::Round(DensityByFactor, Up)]),
    ("rounding-density-by-factor-up", &[Turn::Round(DensityByFactor, Down)]),
    (
        "rounding-density-by-factor-half-goes-up",
        &[
            Turn::Round(DensityByFactor, Down),
            Turn::Round(DensityByFactor, HalfDown),
            Turn::Round(DensityByFactor, HalfToEven),
        ],
    ),
    ("rounding-density-temperature-by-factor-down", &[Turn::Round(TemperatureByFactor, Up)]),
    ("rounding-density-temperature-by-factor-up", &[Turn::Round(TemperatureByFactor, Down)]),
    (
        "rounding-density-temperature-by-factor-half-goes-up",
        &[
            Turn::Round(TemperatureByFactor, Down),
            Turn::Round(TemperatureByFactor, HalfDown),
            Turn::Round(TemperatureByFactor, HalfToEven),
        ],
    ),
    ("limit-of-a-sum-of-1", &[Turn::LimitDown, Turn::LimitToNearest]),
    ("limit-just-below-a-square", &[Turn::LimitDown]),
    ("limit-at-a-square", &[Turn::MoreThanSquares]),
    ("limit-just-above-a-square", &[Turn::LimitDown, Turn::LimitToNearest]),
    ("limit-just-above-a-large-square", &[Turn::LimitDown, Turn::LimitToNearest]),
    ("limit-at-a-square-missed-by-floating-point", &[Turn::LimitInFloatingPoint]),
    ("limit-at-a-square-of-two-terms", &[Turn::MoreThanSquares]),
    ("rack-car-without-errors", &[Turn::MoreThanSquares]),
    ("within-6500-at-99999-kg", &[Turn::LessThanAllowed, Turn::HeavyFrom(99_999)]),
    ("within-5001-at-99999-kg", &[Turn::HeavyFrom(99_999)]),
    ("within-5000-at-100000-kg", &[Turn::LessThanAllowed]),
    ("over-5001-at-100000-kg", &[Turn::HeavyFrom(100_001), Turn::HeavyByNet]),
    ("over-6500-at-100000-kg", &[Turn::HeavyFrom(100_001), Turn::HeavyByNet]),
    ("over-5500-at-100000-kg-gross-and-99300-kg-net", &[Turn::HeavyByNet]),
    ("within-6500-of-a-small-car", &[Turn::LessThanAllowed]),
    ("over-6501-at-99999-kg", &[Turn::LimitDown, Turn::LimitToNearest]),
    ("over-6501-of-a-small-car", &[Turn::MoreThanSquares]),
    ("over-5500-of-the-largest-car", &[Turn::HeavyFrom(194_804)]),
    ("accepted-capacity-error-10000", &[Turn::Highest(0, 9_999)]),
    ("accepted-density-error-10000", &[Turn::Highest(1, 9_999)]),
    ("accepted-processing-error-10000", &[Turn::Highest(2, 9_999)]),
    ("accepted-density-temperature-error-20", &[Turn::Highest(3, 19)]),
    ("accepted-oil-temperature-error-20", &[Turn::Highest(4, 19)]),
    ("accepted-level-error-100", &[Turn::Highest(5, 99)]),
    ("refusal-24-capacity-error-10001", &[Turn::Highest(0, 10_001)]),
    ("refusal-24-density-error-10001", &[Turn::Highest(1, 10_001)]),
    ("refusal-24-processing-error-10001", &[Turn::Highest(2, 10_001)]),
    ("refusal-24-density-temperature-error-21", &[Turn::Highest(3, 21)]),
    ("refusal-24-oil-temperature-error-21", &[Turn::Highest(4, 21)]),
    ("refusal-24-level-error-101", &[Turn::Highest(5, 101)]),
    ("refusal-24-capacity-error-in-16-bits", &[Turn::Bits(16)]),
    ("refusal-24-level-error-in-16-bits", &[Turn::Bits(16), Turn::Bits(8)]),
    ("accepted-level-term-10000", &[Turn::LargestLevelTerm(9_999)]),
    ("accepted-level-term-rounded-down-to-10000", &[Turn::ComparedBeforeRounding]),
    (
        "refusal-25-level-term-rounded-up-to-10001",
        &[Turn::LargestLevelTerm(10_001), Turn::Round(Level, Down), Turn::Round(Level, HalfDown)],
    ),
    ("refusal-25-no-volume-at-17-mm", &[Turn::NoVolumeAccepted]),
    (
        "refusal-25-no-volume-and-no-level-error",
        &[Turn::NoVolumeAccepted, Turn::NoVolumeAcceptedWithoutLevelError],
    ),
    (
        "refusal-25-no-volume-above-water-and-no-level-error",
        &[Turn::NoVolumeAcceptedWithoutLevelError, Turn::VolumeWithWater],
    ),
    ("order-21-before-24-density-at-20", &[Turn::ErrorsBeforeCar]),
    ("order-10-before-24-number-0", &[Turn::ErrorsBeforeCar]),
    ("order-24-before-25-capacity-error", &[Turn::LevelTermBeforeErrors]),
    ("order-24-before-25-level-term", &[Turn::LevelTermBeforeErrors]),
    ("order-24-before-25-level-error-that-makes-the-term", &[Turn::LevelTermBeforeErrors]),
];

#[test]
fn every_wrong_turn_shows_in_its_vector() {
    turns::shows(TURNS, Turn::None, Turn::answer);
}

#[test]
fn without_a_wrong_turn_the_answers_are_the_same() {
    for vector in all::<Vector>() {
        let answer = vector.work_out().map_err(|refusal| refusal.number());
        let seen = answer.map(|permitted| (permitted.figures, permitted.limit, permitted.within));
        assert_eq!(Turn::None.answer(&vector), seen, "{}", vector.name);
    }
}

#[test]
fn every_parting_and_rounding_vector_has_a_wrong_turn() {
    turns::has_all::<Vector, _>(TURNS, "parting-");
    turns::has_all::<Vector, _>(TURNS, "rounding-");
}
