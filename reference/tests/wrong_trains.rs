//! A second calculation of a train that is handed in with a strike or a car, which can take a wrong turn:
//! each turn must show in the answer of the vectors made for it. The figures of a single car are the
//! package's.

mod turns;

use reference::car::{Car, Figures};
use reference::conformance::vectors::all;
use reference::conformance::vectors::train::{table, Vector};
use reference::operations;
use reference::sheet::Event;
use reference::train::{Place, Totals, Train};

#[derive(Clone, Copy, Debug, PartialEq, Eq)]
enum Turn {
    None,
    /// The number of held cars cut to so many bits.
    HeldIn(u32),
    /// A strike, or a car, is barred from so many held cars on.
    StrikeBarredFrom(usize),
    CarBarredFrom(usize),
    /// Numbers twice: not tested, tested next to each other, among accepted cars, but for 0, in free
    /// places too, in the first so many places, by so many bits, in single floating point.
    Twice(Twice),
    CountLimit(u32),
    GrossLimit(u64),
    NetLimit(u64),
    /// Not compared: count, gross or net of all, or of the grades, counted from 0; all three of them.
    SkipAll(usize),
    SkipGrade(usize),
    SkipAllTotals,
    SkipGrades,
    /// The totals of all are compared with the sums of the grades' and with nothing else.
    SumsAlone,
    /// The totals of all are compared with the held cars, and with the grades' sums in 64 and 32 bits.
    GradesBySumCutOff,
    SumsIn(u32),
    /// Gross or net of the held cars is added in 32 bits, counted as above: for all and the grades, or for
    /// all alone.
    SumIn32Bits(usize),
    SumOfAllIn32Bits(usize),
    TotalsIn(u32),
    CountIn8Bits,
    RefusedMassesCounted,
    OtherGradesRefused,
    OtherGradesAs4,
    /// Cars of other grades count in all and in no grade; of the grades gross and net are added up.
    OtherGradesInAll,
    GradeIn(u32),
    FreeGradesTested,
    FreeCounted,
    Holds0Barred,
    LargeNumbersBarred,
    NotTestedForStrike,
    NotTestedForCar,
    NotHeldFirst,
    CarRefusalsFirst,
    /// A strike of 0, or of a number above 99,999,999, is refused by this.
    ZeroBy(u32),
    LargeBy(u32),
    /// The number's range is tested before the train, and refused by this.
    RangeFirst(u32),
    FreeSearched,
    NumberIn(u32),
    NumberInFloats,
    LastDigits,
    ByPlace,
    UnknownBy(u32),
    UnknownAnswered,
    Gap(Gap),
    /// Left: count, gross or net of all, or of the grade.
    LeavesAll(usize),
    LeavesGrade(usize),
    LowersNextGrade,
    LowersByNextPlace,
    LowersCountOfRefused,
    LowersByRefusedMasses,
    ClearsRefusedMasses,
    EntersAtFirstEmpty,
    EntersFirst,
    EntersWithoutMasses,
    RefusedKeepsRest,
}

#[derive(Clone, Copy, Debug, PartialEq, Eq)]
enum Twice {
    NotTested,
    Neighbours,
    Accepted,
    But0,
    FreeToo,
    Among(usize),
    InBits(u32),
    InFloats,
}

/// How a gap is closed.
#[derive(Clone, Copy, Debug, PartialEq, Eq)]
enum Gap {
    LastCar,
    FirstCar,
    LeftOpen,
    LeftAndCountLowered,
    HeldNotLowered,
    HeldOnly,
    FreeCleared,
    LastKept,
    TurnedRound,
    BehindDropped,
    NumbersOnly,
    LastCarStaysToo,
}

/// What a caller sees: figures for a car, or the refusal; and the train.
type Seen = (Result<Option<Figures>, u32>, Train);

/// Count, gross and net.
fn parts(totals: &Totals) -> [u128; 3] {
    [totals.accepted.into(), totals.gross.into(), totals.net.into()]
}

/// The train with counts that a wrong turn cuts off.
fn cut_counts(train: &Train) -> Train {
    let mut cut = train.clone();
    cut.all.accepted %= 256;
    cut.grades.iter_mut().for_each(|totals| totals.accepted %= 256);
    cut
}

fn cut(number: u128, bits: u32) -> u128 {
    number & ((1 << bits) - 1)
}

fn sum<'a>(grades: impl Iterator<Item = &'a [u128; 3]>) -> [u128; 3] {
    grades.fold([0; 3], |sum, grade| [0, 1, 2].map(|part| sum[part] + grade[part]))
}

impl Turn {
    fn answer(self, vector: &Vector) -> Seen {
        let mut train = vector.train.clone();
        let answer = match &vector.asked {
            Event::Strike(number) => self.strike(&mut train, *number).map(|()| None),
            Event::Enter(car) => self.enter(&mut train, car).map(Some),
        };
        (answer, train)
    }

    fn held(self, train: &Train) -> usize {
        match self {
            Self::HeldIn(bits) => cut(train.held as u128, bits) as usize,
            _ => train.held,
        }
    }

    /// Whether the train is not what its held cars make, or is past its limits.
    fn is_barred(self, train: &Train) -> bool {
        if self == Self::CountIn8Bits {
            return Self::None.is_barred(&cut_counts(train));
        }
        let held = self.held(train);
        if held > 60 {
            return true;
        }
        let cars = &train.places[..held];
        let odd = cars.iter().any(|car| match self {
            Self::Holds0Barred => car.number == 0,
            Self::LargeNumbersBarred => car.number > 99_999_999,
            _ => false,
        });
        odd || self.has_twice(train, cars)
            || !self.is_made(train, cars)
            || self.is_past_limits(&train.all)
    }

    fn has_twice(self, train: &Train, cars: &[Place]) -> bool {
        let of = match self {
            Self::Twice(Twice::FreeToo) => &train.places,
            Self::Twice(Twice::Among(first)) => &cars[..first.min(cars.len())],
            _ => cars,
        };
        let numbers: Vec<u32> = of
            .iter()
            .filter(|car| match self {
                Self::Twice(Twice::Accepted) => car.grade > 0,
                Self::Twice(Twice::But0) => car.number > 0,
                Self::Twice(Twice::FreeToo) => **car != Place::default(),
                _ => true,
            })
            .map(|car| match self {
                Self::Twice(Twice::InBits(bits)) => cut(car.number.into(), bits) as u32,
                Self::Twice(Twice::InFloats) => (car.number as f32) as u32,
                _ => car.number,
            })
            .collect();
        match self {
            Self::Twice(Twice::NotTested) => false,
            Self::Twice(Twice::Neighbours) => numbers.windows(2).any(|pair| pair[0] == pair[1]),
            _ => (1..numbers.len()).any(|place| numbers[..place].contains(&numbers[place])),
        }
    }

    fn is_past_limits(self, all: &Totals) -> bool {
        let [accepted, gross, net] = parts(all).map(|total| match self {
            Self::TotalsIn(bits) => cut(total, bits),
            _ => total,
        });
        let count_limit = if let Self::CountLimit(limit) = self { limit } else { 60 };
        let gross_limit = if let Self::GrossLimit(limit) = self { limit } else { 12_000_000 };
        let net_limit = if let Self::NetLimit(limit) = self { limit } else { 12_000_000 };
        accepted > count_limit.into() || gross > gross_limit.into() || net > net_limit.into()
    }

    /// The grade as it is looked at: 0 for a refused car.
    fn grade(self, car: &Place) -> usize {
        let grade = match self {
            Self::GradeIn(bits) => cut(car.grade.into(), bits) as usize,
            _ => car.grade as usize,
        };
        match self {
            Self::OtherGradesRefused if grade > 4 => 0,
            Self::OtherGradesAs4 => grade.min(4),
            Self::OtherGradesInAll if grade > 4 => 0,
            _ => grade,
        }
    }

    /// Whether the totals are those of the held cars.
    fn is_made(self, train: &Train, cars: &[Place]) -> bool {
        let grades = train.grades.each_ref().map(parts);
        if self == Self::SumsAlone {
            return parts(&train.all) == sum(grades.iter());
        }
        let free_too = matches!(self, Self::FreeGradesTested | Self::FreeCounted);
        let looked_at = if free_too { &train.places } else { cars };
        if looked_at.iter().any(|car| self.grade(car) > 4) {
            return false;
        }
        let counted = if self == Self::FreeCounted { looked_at } else { cars };
        let mut made = [[0; 3]; 5];
        for car in counted {
            let refused = match self {
                Self::OtherGradesInAll => car.grade == 0,
                _ => self.grade(car) == 0,
            };
            let masses = !refused || self == Self::RefusedMassesCounted;
            let of = &mut made[self.grade(car)];
            of[0] += u128::from(!refused);
            of[1] += u128::from(car.gross) * u128::from(masses);
            of[2] += u128::from(car.net) * u128::from(masses);
        }
        self.agrees(parts(&train.all), grades, made)
    }

    /// Whether totals are those made; of grade 0 only masses that count in all.
    fn agrees(self, all: [u128; 3], grades: [[u128; 3]; 4], made: [[u128; 3]; 5]) -> bool {
        let same = |part: usize, given: u128, made: u128| match self {
            Self::SumsIn(bits) => given == cut(made, bits),
            Self::SumIn32Bits(of) if of == part => given == cut(made, 32),
            Self::TotalsIn(bits) => cut(given, bits) == cut(made, bits),
            _ => given == made,
        };
        let mut of_all = sum(made.iter());
        if let Self::SumOfAllIn32Bits(part) = self {
            of_all[part] = cut(of_all[part], 32);
        }
        let skip_all = |part| self == Self::SkipAllTotals || self == Self::SkipAll(part);
        let skip_grade = |part| self == Self::SkipGrades || self == Self::SkipGrade(part);
        let is_all = (0..3).all(|part| skip_all(part) || same(part, all[part], of_all[part]));
        let sums = sum(grades.iter());
        if self == Self::OtherGradesInAll && sums[1..] != all[1..] {
            return false;
        }
        if self == Self::GradesBySumCutOff {
            let bits = [32, 64, 64];
            return is_all && (0..3).all(|part| cut(sums[part], bits[part]) == all[part]);
        }
        let pairs = grades.iter().zip(&made[1..]);
        let mut parts = pairs.flat_map(|(given, made)| (0..3).map(move |part| (part, given, made)));
        is_all
            && parts
                .all(|(part, given, made)| skip_grade(part) || same(part, given[part], made[part]))
    }

    fn strike(self, train: &mut Train, number: u32) -> Result<(), u32> {
        let tested = self != Self::NotTestedForStrike;
        let barred = tested && self.is_barred(train);
        let full = matches!(self, Self::StrikeBarredFrom(from) if train.held >= from);
        let place = self.place(train, number);
        match self {
            Self::NotHeldFirst if place.is_none() => return Err(30),
            Self::RangeFirst(by) if !(1..=99_999_999).contains(&number) => return Err(by),
            _ => {}
        }
        if barred || full {
            return Err(9);
        }
        match self {
            Self::ZeroBy(refusal) if number == 0 => return Err(refusal),
            Self::LargeBy(refusal) if number > 99_999_999 => return Err(refusal),
            _ => {}
        }
        match (place, self) {
            (Some(place), _) => self.take_out(train, place),
            (None, Self::UnknownBy(refusal)) => return Err(refusal),
            (None, Self::UnknownAnswered) => {}
            (None, _) => return Err(30),
        }
        Ok(())
    }

    /// The place of a number, counted from 0.
    fn place(self, train: &Train, number: u32) -> Option<usize> {
        let held = self.held(train).min(60);
        let searched = if self == Self::FreeSearched { 60 } else { held };
        let is = |car: &Place| match self {
            Self::NumberIn(bits) => cut(car.number.into(), bits) == cut(number.into(), bits),
            Self::NumberInFloats => car.number as f32 == number as f32,
            Self::LastDigits => car.number % 100_000_000 == number % 100_000_000,
            _ => car.number == number,
        };
        match self {
            Self::ByPlace => (number as usize).checked_sub(1).filter(|place| *place < held),
            _ => train.places[..searched].iter().position(is),
        }
    }

    fn take_out(self, train: &mut Train, place: usize) {
        self.lower(train, place);
        let held = train.held;
        let before = train.places;
        if self == Self::ClearsRefusedMasses {
            let refused = train.places.iter_mut().filter(|car| car.grade == 0);
            refused.for_each(|car| (car.gross, car.net) = (0, 0));
        }
        train.places.copy_within(place + 1.., place);
        train.places[59] = Place::default();
        train.held = held.saturating_sub(1);
        if let Self::Gap(gap) = self {
            gap.close(train, &before, place, held);
        }
    }

    /// Takes the car in a place off the totals.
    fn lower(self, train: &mut Train, place: usize) {
        let car = train.places[place];
        if car.grade == 0 {
            train.all.accepted -= u32::from(self == Self::LowersCountOfRefused);
            if self == Self::LowersByRefusedMasses {
                train.all.gross -= u64::from(car.gross);
                train.all.net -= u64::from(car.net);
            }
            return;
        }
        let next = usize::from(self == Self::LowersNextGrade);
        let by = if self == Self::LowersByNextPlace { train.places[place + 1] } else { car };
        let grade = &mut train.grades[(car.grade as usize - 1 + next) % 4];
        for (totals, left) in [(&mut train.all, false), (grade, true)] {
            let is_left = |part| match self {
                Self::LeavesAll(of) => !left && of == part,
                Self::LeavesGrade(of) => left && of == part,
                _ => false,
            };
            totals.accepted = totals.accepted.wrapping_sub(u32::from(!is_left(0)));
            totals.gross = totals.gross.wrapping_sub(u64::from(by.gross) * u64::from(!is_left(1)));
            totals.net = totals.net.wrapping_sub(u64::from(by.net) * u64::from(!is_left(2)));
        }
    }

    fn enter(self, train: &mut Train, car: &Car) -> Result<Figures, u32> {
        let most = if let Self::CarBarredFrom(from) = self { from } else { 60 };
        let tested = self != Self::NotTestedForCar;
        let barred = tested && self.is_barred(train) || self.held(train) >= most;
        let alone = operations::work_out(&[table()], car).map_err(|refusal| refusal.number());
        let is_held = self.place(train, car.number).is_some();
        let refusal = match alone {
            Err(10) => Some(10),
            _ if is_held => Some(11),
            _ => None,
        };
        if barred {
            let first = self == Self::CarRefusalsFirst;
            return Err(refusal.or(alone.err()).filter(|_| first).unwrap_or(9));
        }
        if let Some(refusal) = refusal {
            return Err(refusal);
        }
        self.hold(train, car, &alone);
        alone
    }

    fn hold(self, train: &mut Train, car: &Car, alone: &Result<Figures, u32>) {
        let at = match self {
            Self::EntersAtFirstEmpty => {
                train.places.iter().position(|place| *place == Place::default()).unwrap_or(59)
            }
            Self::EntersFirst => 0,
            _ => self.held(train).min(59),
        };
        if self == Self::EntersFirst {
            train.places.copy_within(..59, 1);
        }
        let rest = if self == Self::RefusedKeepsRest { train.places[at] } else { Place::default() };
        train.places[at] = Place { number: car.number, ..rest };
        train.held += 1;
        let Ok(Figures { gross, net, .. }) = *alone else { return };
        if self != Self::EntersWithoutMasses {
            train.places[at] = Place { number: car.number, grade: car.grade, gross, net };
        }
        for totals in [&mut train.all, &mut train.grades[car.grade as usize - 1]] {
            totals.accepted = totals.accepted.wrapping_add(1);
            totals.gross = totals.gross.wrapping_add(gross.into());
            totals.net = totals.net.wrapping_add(net.into());
        }
    }
}

impl Gap {
    /// What is otherwise where the gap in a place was closed rightly.
    fn close(self, train: &mut Train, before: &[Place; 60], place: usize, held: usize) {
        let after = train.places;
        let empty = Place::default();
        match self {
            Self::LastCar | Self::FirstCar | Self::LeftOpen | Self::LeftAndCountLowered => {
                train.places = *before;
            }
            Self::HeldNotLowered => train.held = held,
            Self::HeldOnly => {
                train.places[held..].copy_from_slice(&before[held..]);
                train.places[held - 1] = empty;
            }
            Self::FreeCleared => train.places[held - 1..].fill(empty),
            Self::LastKept => train.places[59] = before[59],
            Self::TurnedRound => train.places[59] = before[place],
            Self::BehindDropped => train.places[place..].fill(empty),
            Self::LastCarStaysToo => train.places[held - 1] = before[held - 1],
            Self::NumbersOnly => {
                let numbers = after.map(|car| car.number);
                train.places = *before;
                train.places.iter_mut().zip(numbers).for_each(|(car, number)| car.number = number);
            }
        }
        match self {
            Self::LastCar => {
                train.places[place] = before[held - 1];
                train.places[held - 1] = empty;
            }
            Self::FirstCar => {
                train.places[place] = before[0];
                train.places.copy_within(1.., 0);
            }
            Self::LeftOpen => train.places[place] = empty,
            Self::BehindDropped => train.held = place,
            _ => {}
        }
    }
}

const TURNS: &[(&str, &[Turn])] = &[
    ("parting-last-car-in-the-gap", &[Turn::Gap(Gap::LastCar)]),
    ("parting-first-car-in-the-gap", &[Turn::Gap(Gap::FirstCar)]),
    ("parting-gap-left-open", &[Turn::Gap(Gap::LeftOpen)]),
    ("parting-place-left-and-count-lowered", &[Turn::Gap(Gap::LeftAndCountLowered)]),
    ("parting-held-not-lowered", &[Turn::Gap(Gap::HeldNotLowered)]),
    ("parting-only-held-places-move", &[Turn::Gap(Gap::HeldOnly)]),
    ("parting-free-places-cleared", &[Turn::Gap(Gap::FreeCleared)]),
    ("parting-last-place-kept", &[Turn::Gap(Gap::LastKept)]),
    ("parting-last-place-of-sixty-kept", &[Turn::Gap(Gap::LastKept)]),
    ("parting-places-turned-round", &[Turn::Gap(Gap::TurnedRound)]),
    ("parting-cars-behind-dropped", &[Turn::Gap(Gap::BehindDropped)]),
    ("parting-numbers-move-and-masses-stay", &[Turn::Gap(Gap::NumbersOnly)]),
    ("parting-last-car-stays-in-its-place-too", &[Turn::Gap(Gap::LastCarStaysToo)]),
    ("parting-count-of-all-left", &[Turn::LeavesAll(0)]),
    ("parting-gross-of-all-left", &[Turn::LeavesAll(1)]),
    ("parting-net-of-all-left", &[Turn::LeavesAll(2)]),
    ("parting-count-of-the-grade-left", &[Turn::LeavesGrade(0)]),
    ("parting-gross-of-the-grade-left", &[Turn::LeavesGrade(1)]),
    ("parting-net-of-the-grade-left", &[Turn::LeavesGrade(2)]),
    ("parting-next-grade-lowered", &[Turn::LowersNextGrade]),
    ("parting-masses-of-the-next-place", &[Turn::LowersByNextPlace]),
    ("parting-refused-car-lowers-the-count", &[Turn::LowersCountOfRefused]),
    ("parting-masses-beside-grade-0-taken-off", &[Turn::LowersByRefusedMasses]),
    ("parting-masses-beside-grade-0-cleared", &[Turn::ClearsRefusedMasses]),
    ("parting-masses-beside-grade-0-counted", &[Turn::RefusedMassesCounted]),
    ("parting-strike-barred-by-sixty", &[Turn::StrikeBarredFrom(60)]),
    ("parting-strike-barred-by-59", &[Turn::StrikeBarredFrom(59)]),
    ("parting-strike-barred-by-12000000", &[Turn::GrossLimit(11_999_999)]),
    ("parting-strike-barred-by-a-held-0", &[Turn::Holds0Barred, Turn::LargeNumbersBarred]),
    ("parting-strike-of-0-refused-by-10", &[Turn::ZeroBy(10)]),
    ("parting-strike-of-0-refused-by-30", &[Turn::ZeroBy(30)]),
    ("parting-strike-of-nine-digits-refused-by-10", &[Turn::LargeBy(10)]),
    ("parting-strike-of-nine-digits-refused-by-30", &[Turn::LargeBy(30)]),
    ("parting-free-places-tested-for-numbers-twice", &[Turn::Twice(Twice::FreeToo)]),
    ("parting-free-places-tested-for-grades", &[Turn::FreeGradesTested]),
    ("parting-free-places-counted", &[Turn::FreeCounted]),
    ("parting-free-places-searched", &[Turn::FreeSearched]),
    ("parting-empty-places-are-number-0", &[Turn::FreeSearched]),
    ("parting-unknown-refused-by-9", &[Turn::UnknownBy(9)]),
    ("parting-unknown-answered", &[Turn::UnknownAnswered]),
    ("parting-train-tested-after-30", &[Turn::NotHeldFirst]),
    ("parting-train-not-tested-for-a-strike", &[Turn::NotTestedForStrike]),
    ("parting-car-behind-the-free-places-that-are-filled", &[Turn::EntersAtFirstEmpty]),
    ("parting-car-s-number-searched-in-free-places", &[Turn::FreeSearched]),
    ("parting-car-without-its-masses", &[Turn::EntersWithoutMasses]),
    ("parting-car-in-the-first-place", &[Turn::EntersFirst]),
    ("parting-car-barred-by-59", &[Turn::CarBarredFrom(59)]),
    ("parting-car-entered-on-sixty", &[Turn::CarBarredFrom(61)]),
    ("parting-car-s-places-not-tested", &[Turn::SumsAlone, Turn::NotTestedForCar]),
    ("strike-gross-total-12000000", &[Turn::GrossLimit(11_999_999)]),
    ("strike-net-total-12000000", &[Turn::NetLimit(11_999_999)]),
    ("strike-refused-car-with-masses", &[Turn::LowersByRefusedMasses, Turn::RefusedMassesCounted]),
    ("strike-refused-number-0", &[Turn::ZeroBy(30), Turn::Holds0Barred]),
    ("strike-number-4000000000", &[Turn::LargeBy(30), Turn::LargeBy(10)]),
    ("strike-third-before-54-free-places", OF_FREE),
    ("strike-number-that-stands-in-free-places-too", &[Turn::Twice(Twice::FreeToo)]),
    ("strike-59-and-one-free-place", &[Turn::Gap(Gap::HeldOnly), Turn::Gap(Gap::LastKept)]),
    ("strike-place-60-of-sixty", &[Turn::Gap(Gap::LastKept), Turn::StrikeBarredFrom(60)]),
    ("strike-first-of-sixty-accepted", &[Turn::CountLimit(59)]),
    ("strike-thirtieth-of-sixty-accepted", &[Turn::CountLimit(59)]),
    ("strike-last-of-sixty-accepted", &[Turn::CountLimit(59), Turn::Gap(Gap::LastKept)]),
    ("strike-later-of-two-numbers-alike-in-8-bits", IN_8_BITS),
    ("strike-later-of-two-numbers-alike-in-16-bits", IN_16_BITS),
    ("strike-later-of-two-numbers-alike-in-24-bits", IN_24_BITS),
    ("strike-later-of-two-numbers-alike-in-31-bits", IN_31_BITS),
    ("strike-later-of-two-numbers-alike-in-single-floating-point", IN_FLOATS),
    ("refusal-30-number-0", &[Turn::FreeSearched, Turn::ZeroBy(10)]),
    ("refusal-30-number-4000000000", &[Turn::LargeBy(10), Turn::UnknownAnswered]),
    ("refusal-30-held-in-8-bits", &[Turn::NumberIn(8)]),
    ("refusal-30-held-in-16-bits", &[Turn::NumberIn(16)]),
    ("refusal-30-held-in-24-bits", &[Turn::NumberIn(24)]),
    ("refusal-30-held-in-31-bits", &[Turn::NumberIn(31)]),
    ("refusal-30-held-without-its-highest-bit", &[Turn::NumberIn(31)]),
    ("refusal-30-held-in-its-last-eight-digits", &[Turn::LastDigits]),
    ("refusal-30-place-of-a-held-car", &[Turn::ByPlace]),
    ("refusal-30-free-place-has-it", &[Turn::FreeSearched]),
    ("refusal-30-last-place-has-it", &[Turn::FreeSearched]),
    ("refusal-30-sixty-held", &[Turn::StrikeBarredFrom(60)]),
    ("car-on-totals-of-12000000", &[Turn::GrossLimit(11_999_999), Turn::NetLimit(11_999_999)]),
    ("car-beside-numbers-that-no-car-can-have", &[Turn::Holds0Barred, Turn::LargeNumbersBarred]),
    ("car-beside-a-refused-car-with-masses", &[Turn::RefusedMassesCounted]),
    ("car-beside-two-numbers-alike-in-8-bits", &[Turn::Twice(Twice::InBits(8))]),
    ("car-beside-two-numbers-alike-in-16-bits", &[Turn::Twice(Twice::InBits(16))]),
    ("car-beside-two-numbers-alike-in-24-bits", &[Turn::Twice(Twice::InBits(24))]),
    ("car-beside-two-numbers-alike-in-31-bits", &[Turn::Twice(Twice::InBits(31))]),
    ("car-beside-two-numbers-alike-in-single-floating-point", &[Turn::Twice(Twice::InFloats)]),
    ("refusal-09-car-on-sixty-accepted", &[Turn::CarBarredFrom(61)]),
    ("car-whose-number-stands-in-a-free-place", &[Turn::FreeSearched]),
    ("refusal-18-car-in-the-first-free-place", &[Turn::RefusedKeepsRest, Turn::EntersAtFirstEmpty]),
    ("refusal-09-car-on-sixty", &[Turn::CarBarredFrom(61)]),
    ("order-09-before-10-sixty-held", &[Turn::CarRefusalsFirst]),
    ("order-09-before-11-sixty-held", &[Turn::CarRefusalsFirst]),
    ("refusal-09-strike-number-twice-first-and-last-of-sixty", &[Turn::Twice(Twice::Neighbours)]),
    ("refusal-09-strike-number-twice-last-two-of-sixty", &[Turn::Twice(Twice::NotTested)]),
    ("refusal-09-strike-61-accepted-of-sixty-held", &[Turn::NotTestedForStrike]),
    ("order-09-before-30-61-held-number-7", &[Turn::NotHeldFirst]),
    ("order-09-before-30-count-of-all-number-0", &[Turn::NotHeldFirst, Turn::RangeFirst(10)]),
    ("order-09-before-30-number-twice-number-0", &[Turn::NotHeldFirst, Turn::RangeFirst(30)]),
    ("order-09-before-30-gross-12000001-number-4000000000", &[Turn::RangeFirst(30)]),
    ("order-09-before-12-type-gross-of-all", &[Turn::CarRefusalsFirst, Turn::SkipAll(1)]),
    ("strike-car-that-brought-the-total-to-12000000", &[Turn::GrossLimit(11_999_999)]),
];

/// Something stands in the free places.
const OF_FREE: &[Turn] = &[
    Turn::Gap(Gap::HeldOnly),
    Turn::Gap(Gap::FreeCleared),
    Turn::FreeCounted,
    Turn::Gap(Gap::LastKept),
];

/// The place, and numbers twice, by the last bits of a number.
const IN_8_BITS: &[Turn] = &[Turn::NumberIn(8), Turn::Twice(Twice::InBits(8))];
const IN_16_BITS: &[Turn] = &[Turn::NumberIn(16), Turn::Twice(Twice::InBits(16))];
const IN_24_BITS: &[Turn] = &[Turn::NumberIn(24), Turn::Twice(Twice::InBits(24))];
const IN_31_BITS: &[Turn] = &[Turn::NumberIn(31), Turn::Twice(Twice::InBits(31))];

/// The same in single floating point.
const IN_FLOATS: &[Turn] = &[Turn::NumberInFloats, Turn::Twice(Twice::InFloats)];

/// Trains with one fault, each with a strike and with a car, and the turns that do not see it.
const FAULTS: &[(&str, &[Turn])] = &[
    ("6-held-in-8-bits", &[Turn::HeldIn(8)]),
    ("6-held-in-16-bits", &[Turn::HeldIn(16)]),
    ("6-held-in-31-bits", &[Turn::HeldIn(31)]),
    ("number-twice-next-to-each-other", &[Turn::Twice(Twice::NotTested)]),
    ("number-twice-first-and-last", &[Turn::Twice(Twice::Neighbours)]),
    ("number-twice-accepted-and-refused", &[Turn::Twice(Twice::Accepted)]),
    ("number-twice-both-refused", &[Turn::Twice(Twice::Accepted)]),
    ("number-twice-places-40-and-41-of-59", &[Turn::Twice(Twice::Among(32)), AMONG_40]),
    ("number-twice-places-41-and-59-of-59", &[Turn::Twice(Twice::Neighbours), AMONG_40]),
    ("number-twice-0", &[Turn::Twice(Twice::But0)]),
    ("gross-12000001", &[Turn::GrossLimit(12_000_001)]),
    ("net-12000001", &[Turn::NetLimit(12_000_001)]),
    ("gross-12000001-of-six", &[Turn::GrossLimit(12_000_001)]),
    ("count-one-more-of-all", &[Turn::SkipAll(0), Turn::SkipAllTotals]),
    ("count-one-less-of-all", &[Turn::SkipAll(0), Turn::SkipAllTotals]),
    ("gross-one-more-of-all", &[Turn::SkipAll(1), Turn::SkipAllTotals]),
    ("gross-one-less-of-all", &[Turn::SkipAll(1), Turn::SkipAllTotals]),
    ("net-one-more-of-all", &[Turn::SkipAll(2), Turn::SkipAllTotals]),
    ("net-one-less-of-all", &[Turn::SkipAll(2), Turn::SkipAllTotals]),
    ("count-one-more-of-grade-1", &[Turn::SkipGrade(0), Turn::SkipGrades]),
    ("gross-one-less-of-grade-2", &[Turn::SkipGrade(1), Turn::SkipGrades]),
    ("net-one-more-of-grade-3", &[Turn::SkipGrade(2), Turn::SkipGrades]),
    ("net-one-less-of-grade-4", &[Turn::SkipGrade(2), Turn::SkipGrades]),
    ("count-one-more-of-all-and-of-grade-3", &[Turn::SumsAlone]),
    ("gross-one-less-of-all-and-of-grade-3", &[Turn::SumsAlone]),
    ("net-one-more-of-all-and-of-grade-3", &[Turn::SumsAlone]),
    ("grades-2-and-3-exchanged", &[Turn::SumsAlone, Turn::SkipGrades, Turn::GradesBySumCutOff]),
    ("1-kg-moved-to-the-next-grade", &[Turn::SumsAlone, Turn::SkipGrade(1)]),
    ("car-counted-in-another-grade", &[Turn::SumsAlone, Turn::SkipGrade(0)]),
    ("refused-car-s-masses-counted", &[Turn::SumsAlone]),
    ("car-counted-that-is-not-held", &[Turn::SumsAlone]),
    ("held-cars-without-totals", &[Turn::SumsAlone]),
    ("masses-of-two-cars-of-two-grades-exchanged", &[Turn::SkipGrades, Turn::SumsAlone]),
    ("free-place-counted", &[Turn::FreeCounted, Turn::SumsAlone]),
    ("grade-5-counted-in-grade-4", &[Turn::OtherGradesAs4]),
    ("grade-5-not-counted", &[Turn::OtherGradesRefused]),
    ("grade-5-without-mass", &[Turn::OtherGradesRefused]),
    ("grade-5-without-mass-counted-in-all", &[Turn::OtherGradesInAll]),
    ("grade-257-counted-in-grade-1", &[Turn::GradeIn(8)]),
    ("grade-65538-counted-in-grade-2", &[Turn::GradeIn(16)]),
    ("grade-256-not-counted", &[Turn::GradeIn(8), Turn::OtherGradesRefused]),
    ("grade-65536-not-counted", &[Turn::GradeIn(16), Turn::OtherGradesRefused]),
    ("held-sums-in-32-bits", &[Turn::SumsIn(32)]),
    ("held-gross-in-32-bits", &[Turn::SumsIn(32), Turn::SumIn32Bits(1)]),
    ("held-net-in-32-bits", &[Turn::SumsIn(32), Turn::SumIn32Bits(2)]),
    ("gross-of-all-in-32-bits", &[Turn::SumOfAllIn32Bits(1), Turn::SkipAll(1)]),
    ("net-of-all-in-32-bits", &[Turn::SumOfAllIn32Bits(2), Turn::SkipAll(2)]),
    ("totals-in-16-bits", &[Turn::TotalsIn(16)]),
    ("totals-in-32-bits", &[Turn::TotalsIn(32)]),
    ("totals-in-63-bits", &[Turn::TotalsIn(63)]),
    ("count-in-8-bits", &[Turn::CountIn8Bits]),
    ("gross-of-grades-in-64-bits", &[Turn::GradesBySumCutOff]),
    ("net-of-grades-in-64-bits", &[Turn::GradesBySumCutOff]),
    ("count-of-grades-in-32-bits", &[Turn::GradesBySumCutOff]),
];

const AMONG_40: Turn = Turn::Twice(Twice::Among(40));

#[test]
fn every_wrong_turn_shows_in_its_vectors() {
    turns::shows::<Vector, _, _>(TURNS, Turn::None, |turn, vector| turn.answer(vector));
    let of = |asked: &str, fault: &str| format!("refusal-09-{asked}-{fault}");
    for (fault, ways) in FAULTS {
        for name in [of("strike", fault), of("car", fault)] {
            let turns = [(name.as_str(), *ways)];
            turns::shows::<Vector, _, _>(&turns, Turn::None, |turn, vector| turn.answer(vector));
        }
    }
}

#[test]
fn without_a_wrong_turn_every_answer_is_right() {
    for vector in all::<Vector>() {
        let (answer, train) = vector.work_out();
        let answer = answer.map_err(|refusal| refusal.number());
        assert_eq!(Turn::None.answer(&vector), (answer, train), "{}", vector.name);
    }
}

#[test]
fn every_parting_vector_has_a_wrong_turn() {
    turns::has_all::<Vector, Turn>(TURNS, "parting-");
}
