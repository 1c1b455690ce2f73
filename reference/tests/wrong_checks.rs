//! A second calculation of the stick against the tape that can take a wrong turn: each turn must show in
//! the answer of the vectors made for it.

mod millimetres;
mod roundings;
mod turns;

use reference::conformance::vectors::{all, stick::Vector};

use millimetres::Millimetre::{self, Cut, Nearest, Next};
use roundings::{rounded, Rounding};

#[derive(Clone, Copy, Debug, PartialEq, Eq)]
enum Turn {
    None,
    /// The size of the difference.
    Size(Rounding),
    /// A half of the difference, or the whole of it, towards one end of all numbers.
    HalfUp,
    HalfDown,
    Floor,
    Ceiling,
    InSingleFloatingPoint,
    SignTurned,
    WithoutSign,
    /// Difference or mean to so many 0.01 mm, before they are used further.
    DifferenceTo(i64),
    MeanTo(i64),
    MeanCutTo(i64),
    /// The stick level brought to whole mm, for all that comes of it, for the pass or for the allowance.
    StickTo(Millimetre),
    PassByStickTo(Millimetre),
    AllowanceOfStickTo(Millimetre),
    /// Tenths of the stick level taken for mm, for all that comes of it or for the allowance.
    StickAsMillimetres,
    AllowanceOfMillimetres,
    /// The difference in another unit, so many to a mm.
    DifferenceIn1Of(i64),
    /// Held in so many bits, with a sign or without.
    SumIn(Word),
    StickTimesCountIn(Word),
    TenfoldSumIn(Word),
    TenfoldIn(Word),
    DifferenceIn(Word),
    Averaged(Mean),
    Pass(Pass),
    /// The least and the largest number of readings, stick level or reading that is taken.
    Counts(i64, i64),
    Sticks(i64, i64),
    Readings(i64, i64),
    Tested(Tested),
    CountIn(Word),
    LevelsIn(Word),
    /// Count and levels without their signs, in 32 bits and in 64.
    Unsigned32,
    Unsigned64,
    LevelsBeforeCount,
    /// One refusal in place of another.
    For(u32, u32),
    StickBy16,
    AllowanceOf(Mean),
    AllowanceOf1500,
    /// The allowance added to the difference so many times.
    AllowanceAdded(i64),
}

#[derive(Clone, Copy, Debug, PartialEq, Eq)]
enum Word {
    Signed(u32),
    Unsigned(u32),
}

/// What the stick is set against.
#[derive(Clone, Copy, Debug, PartialEq, Eq)]
enum Mean {
    OfGiven,
    /// The sum of the readings over another number.
    Over(i64),
    /// All places over the number of readings, all over 20, those that are not 0.
    AllOverCount,
    AllOver20,
    NotZero,
    First(usize),
    /// The readings without the first or the last, or the last not added.
    WithoutFirst,
    WithoutLast,
    LastNotAdded,
    OneMore,
    Last,
    Lowest,
    Highest,
    WithoutEnds,
    Middle,
    BetweenEnds,
    EachOnce,
}

#[derive(Clone, Copy, Debug, PartialEq, Eq)]
enum Pass {
    /// At most so many 0.01 mm, also with the allowance so many times.
    Limit(i64, i64),
    Below2,
    TenthsCut,
    TenthsHalfDown,
    WholeCut,
    Whole,
    WholeMean,
    NotBelow,
    NotAbove,
    EveryReading,
    AnyReading,
    /// The sum of the differences, in mm.
    Sum(i64),
    /// At most so many tenths of a mm.
    Tenths(i64),
    MillimetresInFloatingPoint,
    Turned,
}

/// What 29 looks at.
#[derive(Clone, Copy, Debug, PartialEq, Eq)]
enum Tested {
    NotStick,
    NotReadings,
    NotFirst,
    NotLast,
    FirstTen,
    Lowest,
    Highest,
    Mean,
    AllPlaces,
    UnusedNotZero,
}

/// What a caller sees: the difference in 0.01 mm, whether it passes and the allowance in 0.01 mm, or the
/// refusal.
type Seen = Result<(i64, bool, i64), u32>;

/// What is given: the stick level in 0.1 mm, readings in mm.
struct Given {
    stick: i64,
    count: i64,
    places: Vec<i64>,
}

/// A sum over a number.
#[derive(Clone, Copy)]
struct Over(i64, i64);

impl Word {
    fn hold(self, number: i64) -> i64 {
        match self {
            Self::Unsigned(bits) => number & (i64::MAX >> (63 - bits)),
            Self::Signed(bits) => {
                (number + (1 << (bits - 1))).rem_euclid(1 << bits) - (1 << (bits - 1))
            }
        }
    }
}

impl Given {
    fn readings(&self) -> &[i64] {
        &self.places[..self.places.len().min(self.count as usize)]
    }

    fn mean(&self, mean: Mean) -> Over {
        let readings = self.readings();
        let count = readings.len();
        let mut rising = readings.to_vec();
        rising.sort_unstable();
        let of = |readings: &[i64]| Over(readings.iter().sum(), readings.len() as i64);
        let sum = |readings: &[i64], over: i64| Over(readings.iter().sum(), over);
        match mean {
            Mean::OfGiven => sum(readings, self.count),
            Mean::Over(number) => sum(readings, number),
            Mean::AllOverCount => sum(&self.places, self.count),
            Mean::AllOver20 => of(&self.places),
            Mean::NotZero => {
                of(&self.places.iter().copied().filter(|&place| place != 0).collect::<Vec<_>>())
            }
            Mean::First(number) => of(&readings[..number]),
            Mean::WithoutFirst => of(&readings[1..]),
            Mean::WithoutLast => of(&readings[..count - 1]),
            Mean::LastNotAdded => sum(&readings[..count - 1], self.count),
            Mean::OneMore => of(&self.places[..count + 1]),
            Mean::Last => of(&readings[count - 1..]),
            Mean::Lowest => of(&rising[..1]),
            Mean::Highest => of(&rising[count - 1..]),
            Mean::WithoutEnds => of(&rising[1..count - 1]),
            Mean::Middle => of(&rising[(count - 1) / 2..=count / 2]),
            Mean::BetweenEnds => Over(rising[0] + rising[count - 1], 2),
            Mean::EachOnce => {
                rising.dedup();
                of(&rising)
            }
        }
    }
}

/// A quotient to the nearest, a half up.
fn nearest(dividend: i64, divisor: i64) -> i64 {
    (2 * dividend + divisor).div_euclid(2 * divisor)
}

/// The allowance at a level in 0.1 mm.
fn allowance(level: i64) -> i64 {
    15 + 15 * (0..level).step_by(10_000).count() as i64
}

impl Turn {
    fn answer(self, vector: &Vector) -> Seen {
        let given = self.taken(vector);
        self.test(&given)?;
        let given = Given { stick: self.worked_with(given.stick), ..given };
        let mean = given.mean(if let Self::Averaged(mean) = self { mean } else { Mean::OfGiven });
        let allowance = self.allowance(&given);
        let more = if let Self::AllowanceAdded(times) = self { times * allowance } else { 0 };
        let passes = self.passes(&given, mean, allowance);
        Ok((self.difference(given.stick, mean) + more, passes, allowance))
    }

    /// The numbers that are tested.
    fn taken(self, vector: &Vector) -> Given {
        let hold = |number: u64, in_word: Option<Word>| match (self, in_word) {
            (Self::Unsigned32, _) => i64::from((number as i32).unsigned_abs()),
            (Self::Unsigned64, _) => (number as i64).unsigned_abs() as i64,
            (_, Some(word)) => word.hold(number as i64),
            _ => number.try_into().unwrap_or(i64::MAX),
        };
        let count = if let Self::CountIn(word) = self { Some(word) } else { None };
        let level = if let Self::LevelsIn(word) = self { Some(word) } else { None };
        Given {
            stick: hold(vector.stick, level),
            count: hold(vector.count.into(), count),
            places: vector.readings.iter().map(|&reading| hold(reading.into(), level)).collect(),
        }
    }

    /// The stick level that is worked with, in 0.1 mm.
    fn worked_with(self, stick: i64) -> i64 {
        match self {
            Self::StickTo(millimetre) => 10 * millimetre.of(stick as u64) as i64,
            Self::StickAsMillimetres => 10 * stick,
            _ => stick,
        }
    }

    fn allowance(self, given: &Given) -> i64 {
        match self {
            Self::AllowanceOf(mean) => {
                let Over(sum, over) = given.mean(mean);
                allowance(-(-10 * sum).div_euclid(over))
            }
            Self::AllowanceOf1500 => allowance(15_000),
            Self::AllowanceOfStickTo(millimetre) => {
                allowance(10 * millimetre.of(given.stick as u64) as i64)
            }
            Self::AllowanceOfMillimetres => allowance(10 * given.stick),
            _ => allowance(given.stick),
        }
    }

    /// 28 and 29, in their order.
    fn test(self, given: &Given) -> Result<(), u32> {
        let (least, most) =
            if let Self::Counts(least, most) = self { (least, most) } else { (10, 20) };
        let by_count = (!(least..=most).contains(&given.count)).then_some(28);
        let by_level = (!self.levels_fit(given)).then_some(29);
        let stick_alone = self == Self::StickBy16 && !(10..=36_000).contains(&given.stick);
        let found = match self {
            Self::LevelsBeforeCount => by_level.or(by_count),
            _ if stick_alone => by_count.or(Some(16)),
            _ => by_count.or(by_level),
        };
        match (found, self) {
            (Some(refusal), Self::For(right, wrong)) if refusal == right => Err(wrong),
            (Some(refusal), _) => Err(refusal),
            (None, _) => Ok(()),
        }
    }

    fn levels_fit(self, given: &Given) -> bool {
        let (low, high) = match self {
            Self::Sticks(low, high) => (low, high),
            Self::StickAsMillimetres => (1, 3_600),
            _ => (10, 36_000),
        };
        let stick = (low..=high).contains(&given.stick);
        let (low, high) =
            if let Self::Readings(low, high) = self { (low, high) } else { (1, 3_600) };
        let readings = given.readings();
        let fit = |readings: &[i64]| readings.iter().all(|reading| (low..=high).contains(reading));
        let of = |mean| {
            let Over(sum, over) = given.mean(mean);
            fit(&[nearest(sum, over)])
        };
        let Self::Tested(tested) = self else { return stick && fit(readings) };
        match tested {
            Tested::NotStick => fit(readings),
            Tested::NotReadings => stick,
            Tested::NotFirst => stick && fit(&readings[1..]),
            Tested::NotLast => stick && fit(&readings[..readings.len() - 1]),
            Tested::FirstTen => stick && fit(&readings[..10]),
            Tested::Lowest => stick && of(Mean::Lowest),
            Tested::Highest => stick && of(Mean::Highest),
            Tested::Mean => stick && of(Mean::OfGiven),
            Tested::AllPlaces => stick && fit(&given.places),
            Tested::UnusedNotZero => {
                let unused = &given.places[readings.len()..];
                stick && fit(readings) && unused.iter().all(|&place| place == 0)
            }
        }
    }

    /// In 0.01 mm, from the stick level in 0.1 mm.
    fn difference(self, stick: i64, Over(sum, over): Over) -> i64 {
        let product = match self {
            Self::StickTimesCountIn(word) => word.hold(stick * over),
            _ => stick * over,
        };
        let sum = if let Self::SumIn(word) = self { word.hold(sum) } else { sum };
        let apart = match self {
            Self::TenfoldSumIn(word) => product - word.hold(10 * sum),
            _ => product - 10 * sum,
        };
        let tenfold =
            if let Self::TenfoldIn(word) = self { word.hold(10 * apart) } else { 10 * apart };
        let size = |rounding, unit: i64| {
            rounded(rounding, tenfold.unsigned_abs(), (over * unit) as u64) as i64 * unit
        };
        let right = tenfold.signum() * size(None, 1);
        match self {
            Self::Size(rounding) => tenfold.signum() * size(Some(rounding), 1),
            Self::HalfUp => nearest(tenfold, over),
            Self::HalfDown => -nearest(-tenfold, over),
            Self::Floor => tenfold.div_euclid(over),
            Self::Ceiling => -(-tenfold).div_euclid(over),
            Self::InSingleFloatingPoint => {
                (10.0 * (stick as f32 - (10 * sum) as f32 / over as f32)).round() as i64
            }
            Self::SignTurned => -right,
            Self::WithoutSign => right.abs(),
            Self::DifferenceTo(unit) => tenfold.signum() * size(None, unit),
            Self::DifferenceIn1Of(parts) => {
                let size = rounded(None, (parts * apart).unsigned_abs(), 10 * over as u64);
                apart.signum() * size as i64
            }
            Self::MeanTo(unit) => 10 * stick - unit * nearest(100 * sum, over * unit),
            Self::MeanCutTo(unit) => 10 * stick - unit * (100 * sum / (over * unit)),
            Self::DifferenceIn(word) => word.hold(right),
            _ => right,
        }
    }

    fn passes(self, given: &Given, Over(sum, over): Over, allowance: i64) -> bool {
        let stick = match self {
            Self::PassByStickTo(millimetre) => 10 * millimetre.of(given.stick as u64) as i64,
            _ => given.stick,
        };
        let apart = stick * over - 10 * sum;
        let size = apart.abs();
        let by_rule = size <= 20 * over;
        let near = |reading: &i64| (given.stick - 10 * reading).abs() <= 20;
        let Self::Pass(pass) = self else { return by_rule };
        match pass {
            Pass::Limit(limit, times) => 10 * size <= (limit + times * allowance) * over,
            Pass::Below2 => size < 20 * over,
            Pass::TenthsCut => size / over <= 20,
            Pass::TenthsHalfDown => {
                rounded(Some(Rounding::HalfDown), size as u64, over as u64) <= 20
            }
            Pass::WholeCut => size / (10 * over) <= 2,
            Pass::Whole => nearest(size, 10 * over) <= 2,
            Pass::WholeMean => (given.stick - 10 * nearest(sum, over)).abs() <= 20,
            Pass::NotBelow => apart <= 20 * over,
            Pass::NotAbove => -apart <= 20 * over,
            Pass::EveryReading => given.readings().iter().all(near),
            Pass::AnyReading => given.readings().iter().any(near),
            Pass::Sum(limit) => size <= 10 * limit,
            Pass::Tenths(limit) => size <= limit * over,
            Pass::MillimetresInFloatingPoint => {
                (given.stick as f64 / 10.0 - sum as f64 / over as f64).abs() <= 2.0
            }
            Pass::Turned => !by_rule,
        }
    }
}

const TURNS: &[(&str, &[Turn])] = &[
    (
        "example-14-of-1500-and-2-of-1501",
        &[Turn::HalfUp, Turn::SignTurned, Turn::Size(Rounding::HalfDown)],
    ),
    ("example-14-of-1500-and-2-of-1499", &[Turn::HalfDown, Turn::Size(Rounding::HalfToEven)]),
    ("example-10-of-1498", &[Turn::Pass(Pass::Below2), Turn::Averaged(Mean::AllOver20)]),
    ("example-9-of-1498-and-1-of-1497", &[Turn::Pass(Pass::WholeMean), Turn::MeanTo(100)]),
    ("example-11-of-1500-and-1-of-1501", &[Turn::Floor, Turn::Averaged(Mean::WithoutLast)]),
    (
        "example-stick-15004-10-of-1500-and-6-of-1501",
        &[Turn::Size(Rounding::HalfToEven), Turn::DifferenceTo(10), Turn::StickTo(Cut)],
    ),
    ("example-stick-15020-20-of-1500", &[Turn::Pass(Pass::Below2), Turn::StickAsMillimetres]),
    (
        "example-stick-15021-20-of-1500",
        &[Turn::PassByStickTo(Cut), Turn::Pass(Pass::Limit(210, 0))],
    ),
    ("example-stick-14979-20-of-1500", &[Turn::PassByStickTo(Next), Turn::PassByStickTo(Nearest)]),
    ("none-at-15005-with-20", &[Turn::StickTo(Cut), Turn::StickTo(Next), Turn::MeanTo(100)]),
    ("none-at-36000-with-20", &[Turn::SumIn(Word::Unsigned(16)), Turn::Sticks(10, 35_999)]),
    ("tenths-1-above-with-10", &[Turn::StickTo(Cut), Turn::StickTo(Nearest), Turn::SignTurned]),
    ("tenths-9-below-with-10", &[Turn::StickTo(Cut), Turn::StickTo(Nearest), Turn::WithoutSign]),
    (
        "none-though-readings-lie-far-apart",
        &[Turn::Averaged(Mean::Middle), Turn::Readings(2, 3_599)],
    ),
    ("least-below-with-16", &[Turn::Floor, Turn::DifferenceTo(10)]),
    ("half-of-62-and-63-above-with-16", &[Turn::Size(Rounding::HalfToEven)]),
    ("half-of-212-and-213-below-with-16", &[Turn::HalfUp, Turn::Pass(Pass::Limit(300, 0))]),
    ("short-of-a-half-above-with-19", &[Turn::Size(Rounding::Up)]),
    ("past-a-half-below-with-19", &[Turn::Size(Rounding::Down)]),
    ("largest-above-with-20", &[Turn::DifferenceIn(Word::Signed(16))]),
    ("largest-below-with-20", &[Turn::DifferenceIn(Word::Signed(16)), Turn::Pass(Pass::NotBelow)]),
    ("exchanged-1500-against-1502", &[Turn::SignTurned, Turn::Pass(Pass::Below2)]),
    ("at-2-mm-above-with-13", &[Turn::Pass(Pass::Below2), Turn::Pass(Pass::Limit(200, -1))]),
    ("past-2-mm-below-with-20", &[Turn::Pass(Pass::Limit(205, 0)), Turn::Pass(Pass::TenthsCut)]),
    ("counted-place-1", &[Turn::Averaged(Mean::WithoutFirst)]),
    ("counted-place-20", &[Turn::Averaged(Mean::WithoutLast), Turn::Averaged(Mean::First(10))]),
    ("refusal-29-place-1-0", &[Turn::Tested(Tested::NotFirst), Turn::Readings(0, 3_600)]),
    ("refusal-29-place-20-3601", &[Turn::Tested(Tested::NotLast), Turn::Readings(1, 3_601)]),
    ("unused-from-11-1600", &[Turn::Averaged(Mean::OneMore), Turn::Tested(Tested::UnusedNotZero)]),
    ("unused-from-20-4294967295", &[Turn::Tested(Tested::AllPlaces)]),
    ("accepted-stick-10", &[Turn::Sticks(11, 36_000)]),
    ("accepted-stick-11", &[Turn::Sticks(20, 36_000), Turn::StickTo(Cut)]),
    ("accepted-stick-10001", &[Turn::AllowanceOfStickTo(Cut), Turn::AllowanceOfStickTo(Nearest)]),
    ("accepted-stick-35999", &[Turn::Sticks(10, 35_990), Turn::StickTo(Cut)]),
    ("accepted-last-reading-3600", &[Turn::Readings(1, 3_599)]),
    ("accepted-10-readings", &[Turn::Counts(11, 20)]),
    ("accepted-20-readings", &[Turn::Counts(10, 19), Turn::Counts(10, 10)]),
    ("refusal-28-number-9", &[Turn::Counts(9, 20)]),
    ("refusal-28-number-21", &[Turn::Counts(10, 21)]),
    ("refusal-28-number-in-8-bits", &[Turn::CountIn(Word::Unsigned(8))]),
    ("refusal-28-number-in-16-bits", &[Turn::CountIn(Word::Unsigned(16))]),
    ("refusal-28-number-in-31-bits", &[Turn::CountIn(Word::Unsigned(31))]),
    ("refusal-28-number-that-is-negative-in-32-bits", &[Turn::Unsigned32]),
    ("refusal-28-number-9-unused-0", &[Turn::Counts(9, 20)]),
    ("refusal-29-stick-0", &[Turn::Sticks(0, 36_000), Turn::Tested(Tested::NotStick)]),
    ("refusal-29-stick-1", &[Turn::Sticks(1, 36_000), Turn::StickAsMillimetres]),
    ("refusal-29-stick-9", &[Turn::Sticks(9, 36_000)]),
    ("refusal-29-stick-36001", &[Turn::Sticks(10, 36_001)]),
    ("refusal-29-stick-36010", &[Turn::Sticks(10, 36_010)]),
    ("refusal-29-stick-in-32-bits", &[Turn::LevelsIn(Word::Unsigned(32))]),
    ("refusal-29-stick-in-48-bits", &[Turn::LevelsIn(Word::Unsigned(48))]),
    ("refusal-29-stick-in-63-bits", &[Turn::LevelsIn(Word::Unsigned(63))]),
    ("refusal-29-stick-that-is-negative-in-64-bits", &[Turn::Unsigned64]),
    ("refusal-29-stick-times-16-in-64-bits", &[Turn::LevelsIn(Word::Unsigned(60))]),
    ("refusal-29-stick-in-16-bits", &[Turn::LevelsIn(Word::Unsigned(16))]),
    ("refusal-29-stick-in-31-bits", &[Turn::LevelsIn(Word::Unsigned(31))]),
    ("refusal-29-stick-that-is-negative-in-32-bits", &[Turn::Unsigned32]),
    ("refusal-29-reading-4001", &[Turn::Readings(1, 4_001), Turn::Tested(Tested::Mean)]),
    ("refusal-29-reading-in-16-bits", &[Turn::LevelsIn(Word::Unsigned(16))]),
    ("refusal-29-reading-in-31-bits", &[Turn::LevelsIn(Word::Unsigned(31))]),
    ("refusal-29-reading-that-is-negative-in-32-bits", &[Turn::Unsigned32]),
    ("parting-half-going-up", &[Turn::HalfUp]),
    ("parting-half-going-down", &[Turn::HalfDown]),
    ("parting-half-going-to-zero", &[Turn::Size(Rounding::HalfDown)]),
    ("parting-half-to-even", &[Turn::Size(Rounding::HalfToEven)]),
    ("parting-cut", &[Turn::Size(Rounding::Down)]),
    ("parting-away-from-zero", &[Turn::Size(Rounding::Up)]),
    ("parting-rounded-down", &[Turn::Floor]),
    ("parting-rounded-up", &[Turn::Ceiling]),
    ("parting-sign-turned", &[Turn::SignTurned]),
    ("parting-sign-left-out", &[Turn::WithoutSign]),
    ("parting-difference-rounded-to-whole-mm", &[Turn::DifferenceTo(100)]),
    ("parting-difference-rounded-to-tenths", &[Turn::DifferenceTo(10)]),
    ("parting-mean-in-whole-mm", &[Turn::MeanTo(100)]),
    ("parting-mean-cut-to-whole-mm", &[Turn::MeanCutTo(100)]),
    ("parting-mean-in-tenths", &[Turn::MeanTo(10)]),
    ("parting-mean-in-hundredths", &[Turn::MeanTo(1)]),
    ("parting-half-of-a-hundredth-going-to-zero", &[Turn::Size(Rounding::HalfDown)]),
    ("parting-half-of-a-hundredth-below-going-up", &[Turn::HalfUp]),
    ("parting-stick-in-mm", &[Turn::StickAsMillimetres]),
    ("parting-stick-in-mm-at-a-level-of-the-tape", &[Turn::StickAsMillimetres]),
    ("parting-stick-cut-to-mm", &[Turn::StickTo(Cut)]),
    ("parting-stick-cut-to-mm-below", &[Turn::StickTo(Cut)]),
    ("parting-stick-to-the-nearest-mm", &[Turn::StickTo(Nearest)]),
    ("parting-stick-to-the-nearest-mm-goes-up", &[Turn::StickTo(Nearest)]),
    ("parting-stick-up-to-the-next-mm", &[Turn::StickTo(Next)]),
    ("parting-difference-shown-in-tenths", &[Turn::DifferenceIn1Of(10)]),
    ("parting-difference-shown-in-micrometres", &[Turn::DifferenceIn1Of(1_000)]),
    ("parting-difference-rounded-to-tenths-goes-to-zero", &[Turn::DifferenceTo(10)]),
    ("parting-pass-by-the-stick-cut-to-mm", &[Turn::PassByStickTo(Cut)]),
    ("parting-pass-by-the-stick-to-the-nearest-mm", &[Turn::PassByStickTo(Nearest)]),
    ("parting-pass-by-the-stick-up-to-the-next-mm", &[Turn::PassByStickTo(Next)]),
    ("parting-limit-of-2-tenths", &[Turn::Pass(Pass::Tenths(2))]),
    ("parting-limit-of-20-mm", &[Turn::Pass(Pass::Tenths(200))]),
    ("parting-limit-of-21-tenths", &[Turn::Pass(Pass::Tenths(21))]),
    ("parting-limit-of-19-tenths", &[Turn::Pass(Pass::Tenths(19))]),
    ("parting-allowance-of-the-stick-cut-to-mm", &[Turn::AllowanceOfStickTo(Cut)]),
    ("parting-allowance-of-the-stick-to-the-nearest-mm", &[Turn::AllowanceOfStickTo(Nearest)]),
    ("parting-allowance-of-tenths-as-mm", &[Turn::AllowanceOfMillimetres]),
    ("parting-sum-in-8-bits", &[Turn::SumIn(Word::Unsigned(8))]),
    ("parting-sum-in-16-bits", &[Turn::SumIn(Word::Unsigned(16))]),
    ("parting-sum-in-16-bits-with-sign", &[Turn::SumIn(Word::Signed(16))]),
    ("parting-stick-times-readings-in-16-bits", &[Turn::StickTimesCountIn(Word::Unsigned(16))]),
    ("parting-tenfold-sum-in-16-bits", &[Turn::TenfoldSumIn(Word::Unsigned(16))]),
    ("parting-tenfold-in-16-bits-with-sign", &[Turn::TenfoldIn(Word::Signed(16))]),
    ("parting-difference-in-8-bits-with-sign", &[Turn::DifferenceIn(Word::Signed(8))]),
    ("parting-difference-in-16-bits", &[Turn::DifferenceIn(Word::Unsigned(16))]),
    ("parting-difference-in-16-bits-with-sign", &[Turn::DifferenceIn(Word::Signed(16))]),
    ("parting-difference-in-single-floating-point-with-17", &[Turn::InSingleFloatingPoint]),
    ("parting-difference-in-single-floating-point-with-19", &[Turn::InSingleFloatingPoint]),
    (
        "parting-pass-by-mm-in-floating-point-with-10",
        &[Turn::Pass(Pass::MillimetresInFloatingPoint)],
    ),
    (
        "parting-pass-by-mm-in-floating-point-with-15",
        &[Turn::Pass(Pass::MillimetresInFloatingPoint)],
    ),
    (
        "parting-pass-by-mm-in-floating-point-with-20",
        &[Turn::Pass(Pass::MillimetresInFloatingPoint)],
    ),
    ("parting-mean-over-20", &[Turn::Averaged(Mean::Over(20))]),
    ("parting-mean-over-10", &[Turn::Averaged(Mean::Over(10))]),
    ("parting-all-places-summed", &[Turn::Averaged(Mean::AllOverCount)]),
    ("parting-all-places-averaged", &[Turn::Averaged(Mean::AllOver20)]),
    ("parting-places-that-are-not-0-averaged", &[Turn::Averaged(Mean::NotZero)]),
    ("parting-first-ten-averaged", &[Turn::Averaged(Mean::First(10))]),
    ("parting-first-reading-alone", &[Turn::Averaged(Mean::First(1))]),
    ("parting-last-reading-alone", &[Turn::Averaged(Mean::Last)]),
    ("parting-first-reading-left-out", &[Turn::Averaged(Mean::WithoutFirst)]),
    ("parting-last-reading-left-out", &[Turn::Averaged(Mean::WithoutLast)]),
    ("parting-last-reading-not-summed", &[Turn::Averaged(Mean::LastNotAdded)]),
    ("parting-one-place-more", &[Turn::Averaged(Mean::OneMore)]),
    ("parting-lowest-and-highest-left-out", &[Turn::Averaged(Mean::WithoutEnds)]),
    ("parting-middle-reading", &[Turn::Averaged(Mean::Middle)]),
    ("parting-between-lowest-and-highest", &[Turn::Averaged(Mean::BetweenEnds)]),
    ("parting-equal-readings-counted-once", &[Turn::Averaged(Mean::EachOnce)]),
    ("parting-2-mm-above-failing", &[Turn::Pass(Pass::Below2)]),
    ("parting-2-mm-below-failing", &[Turn::Pass(Pass::Below2)]),
    ("parting-limit-of-205", &[Turn::Pass(Pass::Limit(205, 0))]),
    ("parting-limit-of-205-below", &[Turn::Pass(Pass::Limit(205, 0))]),
    ("parting-limit-of-3-mm", &[Turn::Pass(Pass::Limit(300, 0))]),
    ("parting-limit-of-3-mm-at-3-mm", &[Turn::Pass(Pass::Limit(300, 0))]),
    ("parting-limit-of-1-mm", &[Turn::Pass(Pass::Limit(100, 0))]),
    ("parting-pass-by-tenths-cut", &[Turn::Pass(Pass::TenthsCut)]),
    ("parting-pass-by-tenths-half-down", &[Turn::Pass(Pass::TenthsHalfDown)]),
    ("parting-pass-by-whole-mm-cut", &[Turn::Pass(Pass::WholeCut)]),
    ("parting-pass-by-whole-mm", &[Turn::Pass(Pass::Whole)]),
    ("parting-pass-by-the-mean-in-whole-mm", &[Turn::Pass(Pass::WholeMean)]),
    ("parting-pass-tested-above-only", &[Turn::Pass(Pass::NotBelow)]),
    ("parting-pass-tested-below-only", &[Turn::Pass(Pass::NotAbove)]),
    ("parting-limit-by-the-allowance", &[Turn::Pass(Pass::Limit(0, 1))]),
    ("parting-allowance-added-to-the-limit", &[Turn::Pass(Pass::Limit(200, 1))]),
    ("parting-allowance-taken-off-the-limit", &[Turn::Pass(Pass::Limit(200, -1))]),
    ("parting-pass-by-every-reading", &[Turn::Pass(Pass::EveryReading)]),
    ("parting-pass-by-any-reading", &[Turn::Pass(Pass::AnyReading)]),
    ("parting-pass-by-the-sum", &[Turn::Pass(Pass::Sum(2))]),
    ("parting-pass-by-the-sum-over-20", &[Turn::Pass(Pass::Sum(40))]),
    ("parting-pass-by-the-sum-over-10", &[Turn::Pass(Pass::Sum(20))]),
    ("parting-pass-turned", &[Turn::Pass(Pass::Turned)]),
    ("parting-9-readings-taken", &[Turn::Counts(9, 20)]),
    ("parting-10-readings-refused", &[Turn::Counts(11, 20)]),
    ("parting-20-readings-refused", &[Turn::Counts(10, 19)]),
    ("parting-21-readings-taken", &[Turn::Counts(10, 21)]),
    ("parting-only-10-readings-taken", &[Turn::Counts(10, 10)]),
    ("parting-29-for-28", &[Turn::For(28, 29)]),
    ("parting-stick-0-taken", &[Turn::Sticks(0, 36_000)]),
    ("parting-stick-1-taken", &[Turn::Sticks(1, 36_000)]),
    ("parting-stick-9-taken", &[Turn::Sticks(9, 36_000)]),
    ("parting-stick-10-refused", &[Turn::Sticks(11, 36_000)]),
    ("parting-stick-above-3600-refused", &[Turn::Sticks(10, 3_600), Turn::StickAsMillimetres]),
    ("parting-stick-36000-refused", &[Turn::Sticks(10, 35_999)]),
    ("parting-stick-36001-taken", &[Turn::Sticks(10, 36_001)]),
    ("parting-stick-36009-taken", &[Turn::Sticks(10, 36_009)]),
    ("parting-stick-not-tested", &[Turn::Tested(Tested::NotStick)]),
    ("parting-16-for-the-stick", &[Turn::StickBy16]),
    ("parting-reading-0-taken", &[Turn::Readings(0, 3_600)]),
    ("parting-reading-1-refused", &[Turn::Readings(2, 3_600)]),
    ("parting-reading-3600-refused", &[Turn::Readings(1, 3_599)]),
    ("parting-reading-3601-taken", &[Turn::Readings(1, 3_601)]),
    ("parting-readings-not-tested", &[Turn::Tested(Tested::NotReadings)]),
    ("parting-first-reading-not-tested", &[Turn::Tested(Tested::NotFirst)]),
    ("parting-last-reading-not-tested", &[Turn::Tested(Tested::NotLast)]),
    ("parting-first-ten-tested", &[Turn::Tested(Tested::FirstTen)]),
    ("parting-lowest-reading-tested", &[Turn::Tested(Tested::Lowest)]),
    ("parting-highest-reading-tested", &[Turn::Tested(Tested::Highest)]),
    ("parting-mean-tested", &[Turn::Tested(Tested::Mean)]),
    ("parting-unused-places-tested", &[Turn::Tested(Tested::AllPlaces)]),
    ("parting-unused-places-not-0", &[Turn::Tested(Tested::UnusedNotZero)]),
    ("parting-28-for-29", &[Turn::For(29, 28)]),
    ("parting-allowance-of-the-mean", &[Turn::AllowanceOf(Mean::OfGiven)]),
    ("parting-allowance-of-the-first-reading", &[Turn::AllowanceOf(Mean::First(1))]),
    ("parting-allowance-of-the-last-reading", &[Turn::AllowanceOf(Mean::Last)]),
    ("parting-allowance-of-the-highest-reading", &[Turn::AllowanceOf(Mean::Highest)]),
    ("parting-allowance-of-the-lowest-reading", &[Turn::AllowanceOf(Mean::Lowest)]),
    ("parting-allowance-of-the-second-metre", &[Turn::AllowanceOf1500]),
    ("parting-allowance-added-to-the-difference", &[Turn::AllowanceAdded(1)]),
    ("parting-allowance-taken-off-the-difference", &[Turn::AllowanceAdded(-1)]),
];

#[test]
fn every_wrong_turn_shows_in_its_vector() {
    turns::shows(TURNS, Turn::None, Turn::answer);
}

#[test]
fn without_a_wrong_turn_the_answers_are_the_same() {
    for vector in all::<Vector>() {
        let seen = vector
            .work_out()
            .map(|check| (check.difference, check.passes, i64::from(check.allowance)))
            .map_err(|refusal| refusal.number());
        assert_eq!(Turn::None.answer(&vector), seen, "{}", vector.name);
    }
}

#[test]
fn the_levels_before_the_count_show_in_every_order() {
    let vectors = all::<Vector>();
    for vector in vectors.iter().filter(|vector| vector.name.starts_with("order-28-before-29-")) {
        assert_eq!(Turn::LevelsBeforeCount.answer(vector), Err(29), "{}", vector.name);
    }
}

#[test]
fn every_parting_vector_has_a_wrong_turn() {
    turns::has_all::<Vector, _>(TURNS, "parting-");
}
