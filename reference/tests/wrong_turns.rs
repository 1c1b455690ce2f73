//! A second calculation that can take a wrong turn: each turn must show on the sheet made for it.

mod millimetres;
mod roundings;

use reference::conformance::cases;

use millimetres::Millimetre;
use roundings::{rounded, Rounding};

/// Places where the rules round.
#[derive(Clone, Copy, Debug, PartialEq, Eq)]
enum Step {
    MeanOfThree,
    Capacity,
    VolumeAtTemperature,
    Coefficient,
    Exponent,
    Term(u64),
    VolumeAt15,
    Gross,
    Net,
    Density20,
}

#[derive(Clone, Copy, Debug, PartialEq, Eq)]
enum Turn {
    None,
    Round(Step, Rounding),
    NetFromUnroundedGross,
    CapacitiesRoundedOnce,
    OilFrom20,
    WallFrom15,
    AverageOfFour,
    SquareLeftOut,
    ThreeClosestAlways,
    UpperTriple,
    SpanLimit(u64),
    SpanOfAllFour,
    SpanOfLowerTriple,
    SpanOfUpperTriple,
    SpanThoughFirstTwoAgree,
    /// The mean level brought to whole mm: for all that comes of it, on the A line, for 16, for 17, for its
    /// capacity.
    MeanTo(Millimetre),
    ShownTo(Millimetre),
    EndComparedTo(Millimetre),
    WaterComparedTo(Millimetre),
    CapacityAt(Millimetre),
    WaterComparedWithLowest,
    /// Twice ten times the sum, with the number of readings added, in so many bits.
    MeanIn(u32),
    ReadingsTimesTen,
    LowestLevel(u64),
    EndNotTimesTen,
    WaterNotTimesTen,
    RowsNotTimesTen,
    SticksMixedUp,
    NetTotalFromGrossTotal,
    FiveTerms,
    NextGrade,
    GradeNetFromGross,
    GradeCountFromAll,
    RefusedCarCounted,
    ThreeGrades,
    GradesFalling,
    GradesWithCarsOnly,
    GradesBeforeAll,
    AllFromGrade4,
}

use Millimetre::{Cut, Nearest, Next};
use Rounding::{Down, HalfDown, HalfToEven, Up};
use Step::{
    Capacity, Coefficient, Density20, Exponent, Gross, MeanOfThree, Net, Term, VolumeAt15,
    VolumeAtTemperature,
};

impl Turn {
    fn round(self, step: Step, dividend: u64, divisor: u64) -> u64 {
        let rounding = match self {
            Self::Round(turned, rounding) if turned == step => Some(rounding),
            _ => None,
        };
        rounded(rounding, dividend, divisor)
    }

    /// The mean level in 0.1 mm, or refusal 15 or 23.
    fn mean_level(self, given: u64, readings: &[u64]) -> Result<u64, u64> {
        let unit = if self == Self::ReadingsTimesTen { 10 } else { 1 };
        let (first, second) = (readings[0], readings[1]);
        let mean_of_two = match self {
            Self::MeanIn(bits) => (20 * (first + second) + 2) % (1 << bits) / 4,
            _ => 5 * (first + second),
        };
        let agree = unit * first.abs_diff(second) <= 1;
        if given == 2 {
            return if agree { Ok(mean_of_two) } else { Err(15) };
        }
        if self == Self::AverageOfFour {
            return Ok(self.round(MeanOfThree, 10 * readings.iter().sum::<u64>(), 4));
        }
        let mut sorted = readings.to_vec();
        sorted.sort();
        let three = self.three_closest(&sorted);
        let agree = agree && self != Self::ThreeClosestAlways;
        if self.is_apart(&sorted, three, unit) && (!agree || self == Self::SpanThoughFirstTwoAgree)
        {
            return Err(23);
        }
        let sum: u64 = three.iter().sum();
        Ok(match self {
            _ if agree => mean_of_two,
            Self::MeanIn(bits) => (20 * sum + 3) % (1 << bits) / 6,
            _ => self.round(MeanOfThree, 10 * sum, 3),
        })
    }

    /// The mean level where 15, 23, 16 and 17 do not turn the car away.
    fn level(self, rows: &[(u64, u64)], car: &[u64]) -> Result<u64, u64> {
        let level = self.mean_level(car[4], &car[5..9])?;
        let level =
            if let Self::MeanTo(millimetre) = self { 10 * millimetre.of(level) } else { level };
        let end = rows[rows.len() - 1].0 * if self == Self::EndNotTimesTen { 1 } else { 10 };
        let to_end = if let Self::EndComparedTo(millimetre) = self {
            10 * millimetre.of(level)
        } else {
            level
        };
        let lowest = if let Self::LowestLevel(lowest) = self { lowest } else { 1 };
        if level < lowest || to_end > end {
            return Err(16);
        }
        let over_water = match self {
            Self::WaterComparedTo(millimetre) => 10 * millimetre.of(level),
            Self::WaterComparedWithLowest => 10 * car[5].min(car[6]),
            _ => level,
        };
        if self.water_level(car) >= over_water {
            return Err(17);
        }
        Ok(level)
    }

    /// The water level in 0.1 mm.
    fn water_level(self, car: &[u64]) -> u64 {
        car[9] * if self == Self::WaterNotTimesTen { 1 } else { 10 }
    }

    fn three_closest(self, sorted: &[u64]) -> &[u64] {
        let (lower, upper) = (sorted[2] - sorted[0], sorted[3] - sorted[1]);
        let take_lower = lower < upper || lower == upper && self != Self::UpperTriple;
        if take_lower {
            &sorted[..3]
        } else {
            &sorted[1..]
        }
    }

    /// Whether three of four sorted readings span too much.
    fn is_apart(self, sorted: &[u64], three: &[u64], unit: u64) -> bool {
        let tested = match self {
            Self::SpanOfAllFour => sorted,
            Self::SpanOfLowerTriple => &sorted[..3],
            Self::SpanOfUpperTriple => &sorted[1..],
            _ => three,
        };
        let limit = if let Self::SpanLimit(limit) = self { limit } else { 3 };
        unit * (tested[tested.len() - 1] - tested[0]) > limit
    }

    /// Oil volume at 20 °C, from levels in 0.1 mm.
    fn volume(self, rows: &[(u64, u64)], level: u64, water: u64) -> u64 {
        let level =
            if let Self::CapacityAt(millimetre) = self { 10 * millimetre.of(level) } else { level };
        let unit = if self == Self::RowsNotTimesTen { 1 } else { 10 };
        let (oil, oil_step) = fraction(rows, level, unit);
        let (water, water_step) = fraction(rows, water, unit);
        if self == Self::CapacitiesRoundedOnce {
            let difference = oil * water_step - water * oil_step;
            return self.round(Capacity, difference, oil_step * water_step);
        }
        self.round(Capacity, oil, oil_step) - self.round(Capacity, water, water_step)
    }

    fn contraction(self, density: u64, tenths: u64) -> u64 {
        const ONE: u64 = 10_000_000_000;
        let coefficient = self.round(
            Coefficient,
            18_696_960_000_000 + 4_861_800_000 * density,
            density * density,
        );
        let plain = coefficient * tenths;
        let square = self.round(Exponent, 8 * plain * plain, 100_000_000_000);
        let exponent = if self == Self::SquareLeftOut { plain } else { plain + square };
        let mut terms = vec![ONE, exponent];
        for k in 2..=6 {
            terms.push(self.round(Term(k), terms[k as usize - 1] * exponent, k * ONE));
        }
        if self == Self::FiveTerms {
            terms.pop();
        }
        let (mut plus, mut minus) = (0, 0);
        for (power, term) in terms.iter().enumerate() {
            if power % 2 == 0 {
                plus += term;
            } else {
                minus += term;
            }
        }
        plus - minus
    }

    /// The figures of a car that no other refusals than 15 to 17, 21 and 23 turn away.
    fn figures(self, rows: &[(u64, u64)], car: &[u64]) -> Result<[u64; 6], u64> {
        let (number, grade, stick, temperature, density) =
            (car[0], car[2], car[3], car[10], car[11]);
        let level = self.level(rows, car)?;
        let density_at_20 =
            self.round(Density20, density * self.contraction(density, 50), 10_000_000_000);
        if grade == 1 && density_at_20 > 9_550 || grade == 2 && density_at_20 > 9_600 {
            return Err(21);
        }
        let volume = self.volume(rows, level, self.water_level(car));
        let steel = (stick == 1) != (self == Self::SticksMixedUp);
        let wall = temperature - if self == Self::WallFrom15 { 150 } else { 200 };
        let factor = 20_000_000 + if steel { 100 } else { 121 } * wall;
        let measured = self.round(VolumeAtTemperature, volume * factor, 20_000_000);
        let tenths = temperature - if self == Self::OilFrom20 { 200 } else { 150 };
        let contraction = self.contraction(density, tenths);
        let volume_at_15 = self.round(VolumeAt15, measured * contraction, 10_000_000_000);
        let gross = self.round(Gross, volume_at_15 * density, 1_000_000);
        let share = 10_000 - car[12] - car[13];
        let net = if self == Self::NetFromUnroundedGross {
            self.round(Net, volume_at_15 * density * share, 10_000_000_000)
        } else {
            self.round(Net, gross * share, 10_000)
        };
        let shown = if let Self::ShownTo(millimetre) = self { millimetre.of(level) } else { level };
        Ok([number, shown, volume, volume_at_15, gross, net])
    }

    /// The listing of a sheet with one table and no other refusals than 15 to 17, 21 and 23.
    fn listing(self, sheet: &[u8]) -> String {
        let text = std::str::from_utf8(sheet).unwrap();
        let numbers = |line: &str| -> Vec<u64> {
            line[1..].split_whitespace().map(|number| number.parse().unwrap()).collect()
        };
        let of = |letter| text.lines().filter(move |line| line.starts_with(letter)).map(numbers);
        let rows: Vec<(u64, u64)> = of('R').map(|row| (row[0], row[1])).collect();
        let mut listing = String::new();
        let mut grades = [[0; 3]; 4];
        let mut shares = 0;
        for car in of('C') {
            let grade = car[2] as usize - if self == Self::NextGrade { 0 } else { 1 };
            let totals = &mut grades[grade % 4];
            match self.figures(&rows, &car) {
                Ok(figures) => {
                    totals[0] += 1;
                    totals[1] += figures[4];
                    totals[2] += figures[5];
                    listing.push_str(&line('A', &figures));
                }
                Err(refusal) => {
                    totals[0] += u64::from(self == Self::RefusedCarCounted);
                    listing.push_str(&line('X', &[car[0], refusal]));
                }
            }
            shares = 10_000 - car[12] - car[13];
        }
        let accepted = listing.matches('A').count() as u64;
        listing + &self.totals(accepted, grades, shares)
    }

    /// The lines S and G; shares are the last car's.
    fn totals(self, accepted: u64, mut grades: [[u64; 3]; 4], shares: u64) -> String {
        let [_, gross, net] = [0, 1, 2].map(|part| grades.iter().map(|totals| totals[part]).sum());
        let all = match self {
            Self::NetTotalFromGrossTotal => {
                [accepted, gross, self.round(Net, gross * shares, 10_000)]
            }
            Self::AllFromGrade4 => grades[3],
            _ => [accepted, gross, net],
        };
        for totals in &mut grades {
            match self {
                Self::GradeNetFromGross => totals[2] = totals[1],
                Self::GradeCountFromAll => totals[0] = accepted,
                _ => {}
            }
        }
        self.in_order(line('S', &all), grades)
    }

    /// The line S and those of the grades.
    fn in_order(self, all: String, grades: [[u64; 3]; 4]) -> String {
        let of_grades = (1..)
            .zip(grades)
            .filter(|(_, totals)| self != Self::GradesWithCarsOnly || totals[0] > 0);
        let mut lines: Vec<String> =
            of_grades.map(|(grade, [a, b, c])| line('G', &[grade, a, b, c])).collect();
        match self {
            Self::ThreeGrades => lines.truncate(3),
            Self::GradesFalling => lines.reverse(),
            _ => {}
        }
        let place = if self == Self::GradesBeforeAll { lines.len() } else { 0 };
        lines.insert(place, all);
        lines.concat()
    }
}

/// A hundred times the capacity at a level in 0.1 mm, as dividend and divisor, by the last rows where the
/// table does not reach it; the rows' levels are taken times so much.
fn fraction(rows: &[(u64, u64)], level: u64, unit: u64) -> (u64, u64) {
    let pair = rows.windows(2).find(|pair| level <= unit * pair[1].0);
    let pair = pair.unwrap_or(&rows[rows.len() - 2..]);
    let ((low, low_capacity), (high, high_capacity)) = (pair[0], pair[1]);
    let (low, step) = (unit * low, unit * (high - low));
    (100 * (low_capacity * step + (high_capacity - low_capacity) * (level - low)), step)
}

fn line(letter: char, numbers: &[u64]) -> String {
    let fields: String = numbers.iter().map(|number| format!("{number:>9}")).collect();
    format!("{letter}{fields}\n")
}

const TURNS: &[(&str, &[Turn])] = &[
    ("parting-net-from-unrounded-gross", &[Turn::NetFromUnroundedGross]),
    ("parting-capacities-rounded-once", &[Turn::CapacitiesRoundedOnce]),
    ("parting-expansion-of-oil-from-20", &[Turn::OilFrom20]),
    ("parting-expansion-of-wall-from-15", &[Turn::WallFrom15]),
    ("parting-average-of-all-four-readings", &[Turn::AverageOfFour]),
    ("parting-square-left-out", &[Turn::SquareLeftOut]),
    ("parting-three-closest-though-first-two-agree", &[Turn::ThreeClosestAlways]),
    ("parting-upper-triple-of-a-tie", &[Turn::UpperTriple]),
    ("parting-span-of-4-accepted", &[Turn::SpanLimit(4)]),
    ("parting-span-of-3-refused", &[Turn::SpanLimit(2)]),
    ("parting-span-of-all-four-readings", &[Turn::SpanOfAllFour]),
    ("parting-span-though-first-two-agree", &[Turn::SpanThoughFirstTwoAgree]),
    ("parting-span-of-the-lower-triple-where-the-upper-is-used", &[Turn::SpanOfLowerTriple]),
    ("parting-span-of-the-upper-triple-where-the-lower-is-used", &[Turn::SpanOfUpperTriple]),
    ("refusal-23-span-of-the-lower-triple", &[Turn::SpanLimit(4), Turn::SpanLimit(2)]),
    ("refusal-23-span-of-the-upper-triple", &[Turn::SpanLimit(4), Turn::SpanLimit(2)]),
    ("refusal-23-tie-of-triples-that-span-4", &[Turn::SpanLimit(4)]),
    ("accepted-tie-of-triples-that-span-3", &[Turn::SpanLimit(2), Turn::UpperTriple]),
    ("accepted-span-3-of-the-lower-triple", &[Turn::SpanLimit(2), Turn::SpanOfUpperTriple]),
    ("accepted-span-3-of-the-upper-triple", &[Turn::SpanLimit(2), Turn::SpanOfLowerTriple]),
    ("accepted-span-small-of-three-large-of-four", &[Turn::SpanOfAllFour]),
    ("accepted-first-two-agree-others-wild", &[Turn::SpanThoughFirstTwoAgree]),
    ("totals-without-cars-refused-by-23", &[Turn::SpanLimit(4), Turn::RefusedCarCounted]),
    ("parting-sticks-mixed-up", &[Turn::SticksMixedUp]),
    ("parting-net-total-from-gross-total", &[Turn::NetTotalFromGrossTotal]),
    ("parting-mean-level-rounded-to-mm", &[Turn::MeanTo(Nearest), Turn::MeanTo(Next)]),
    ("parting-mean-level-cut-to-mm", &[Turn::MeanTo(Cut)]),
    ("parting-mean-level-shown-in-mm", &[Turn::ShownTo(Cut), Turn::ShownTo(Nearest)]),
    ("parting-readings-times-ten-before-they-are-compared", &[Turn::ReadingsTimesTen]),
    ("parting-levels-below-1-mm-refused", &[Turn::LowestLevel(10), Turn::MeanTo(Nearest)]),
    ("parting-mean-of-three-in-32-bits", &[Turn::MeanIn(32)]),
    ("parting-mean-of-two-in-31-bits", &[Turn::MeanIn(31)]),
    ("parting-last-level-not-times-ten", &[Turn::EndNotTimesTen]),
    ("parting-last-level-compared-with-the-mean-cut-to-mm", &[Turn::EndComparedTo(Cut)]),
    ("parting-last-level-compared-with-the-nearest-mm", &[Turn::EndComparedTo(Nearest)]),
    ("parting-water-level-not-times-ten", &[Turn::WaterNotTimesTen]),
    ("parting-water-level-compared-with-the-mean-cut-to-mm", &[Turn::WaterComparedTo(Cut)]),
    ("parting-water-level-compared-with-the-nearest-mm", &[Turn::WaterComparedTo(Nearest)]),
    ("parting-water-level-compared-with-the-lowest-reading", &[Turn::WaterComparedWithLowest]),
    ("parting-capacity-at-the-mean-cut-to-mm", &[Turn::CapacityAt(Cut)]),
    ("parting-capacity-at-the-nearest-mm", &[Turn::CapacityAt(Nearest)]),
    ("parting-capacity-at-the-next-mm", &[Turn::CapacityAt(Next)]),
    ("parting-rows-not-times-ten", &[Turn::RowsNotTimesTen]),
    (
        "accepted-levels-of-3-5-and-7-tenths",
        &[Turn::LowestLevel(10), Turn::LowestLevel(4), Turn::MeanTo(Cut), Turn::MeanTo(Next)],
    ),
    (
        "accepted-tenths-of-two-and-of-three-readings",
        &[Turn::MeanTo(Nearest), Turn::Round(MeanOfThree, Down), Turn::Round(MeanOfThree, Up)],
    ),
    ("accepted-levels-by-tenths-around-rows", &[Turn::CapacityAt(Cut), Turn::MeanTo(Next)]),
    (
        "refusal-16-above-last-level-by-tenths",
        &[Turn::EndComparedTo(Cut), Turn::EndComparedTo(Nearest), Turn::MeanTo(Nearest)],
    ),
    (
        "refusal-17-water-level-around-tenths",
        &[Turn::WaterComparedTo(Cut), Turn::WaterComparedTo(Nearest), Turn::MeanTo(Nearest)],
    ),
    (
        "rounding-capacity-at-tenths-half-goes-up",
        &[
            Turn::Round(Capacity, Down),
            Turn::Round(Capacity, Up),
            Turn::Round(Capacity, HalfDown),
            Turn::Round(Capacity, HalfToEven),
            Turn::CapacityAt(Cut),
        ],
    ),
    ("rounding-mean-of-three", &[Turn::Round(MeanOfThree, Down), Turn::Round(MeanOfThree, Up)]),
    (
        "rounding-capacity-half-goes-up",
        &[
            Turn::Round(Capacity, Down),
            Turn::Round(Capacity, HalfDown),
            Turn::Round(Capacity, HalfToEven),
        ],
    ),
    (
        "rounding-capacity-of-water-half-goes-up",
        &[
            Turn::Round(Capacity, Down),
            Turn::Round(Capacity, HalfDown),
            Turn::Round(Capacity, HalfToEven),
            Turn::CapacitiesRoundedOnce,
        ],
    ),
    (
        "rounding-capacity-to-nearest",
        &[Turn::Round(Capacity, Down), Turn::Round(Capacity, Up), Turn::CapacitiesRoundedOnce],
    ),
    (
        "rounding-volume-at-temperature",
        &[
            Turn::Round(VolumeAtTemperature, Down),
            Turn::Round(VolumeAtTemperature, Up),
            Turn::Round(VolumeAtTemperature, HalfDown),
            Turn::Round(VolumeAtTemperature, HalfToEven),
        ],
    ),
    (
        "rounding-coefficient-half-at-density-9600",
        &[
            Turn::Round(Coefficient, Down),
            Turn::Round(Coefficient, HalfDown),
            Turn::Round(Coefficient, HalfToEven),
        ],
    ),
    (
        "rounding-exponent-and-terms",
        &[
            Turn::Round(Coefficient, Down),
            Turn::Round(Coefficient, Up),
            Turn::Round(Exponent, Down),
            Turn::Round(Exponent, Up),
            Turn::Round(Term(2), Down),
            Turn::Round(Term(2), Up),
            Turn::Round(Term(3), Down),
            Turn::Round(Term(3), Up),
            Turn::Round(Term(4), Down),
            Turn::Round(Term(4), Up),
            Turn::Round(Term(5), Down),
            Turn::Round(Term(5), Up),
            Turn::Round(Term(6), Down),
            Turn::Round(Term(6), Up),
            Turn::FiveTerms,
        ],
    ),
    ("rounding-volume-at-15", &[Turn::Round(VolumeAt15, Down), Turn::Round(VolumeAt15, Up)]),
    (
        "rounding-gross-half-goes-up",
        &[Turn::Round(Gross, Down), Turn::Round(Gross, HalfDown), Turn::Round(Gross, HalfToEven)],
    ),
    ("rounding-gross-to-nearest", &[Turn::Round(Gross, Down), Turn::Round(Gross, Up)]),
    (
        "rounding-net-half-goes-up",
        &[Turn::Round(Net, Down), Turn::Round(Net, HalfDown), Turn::Round(Net, HalfToEven)],
    ),
    ("rounding-net-to-nearest", &[Turn::Round(Net, Down), Turn::Round(Net, Up)]),
    ("rounding-density-at-20", &[Turn::Round(Density20, Down)]),
    ("totals-of-no-cars", &[Turn::ThreeGrades, Turn::GradesFalling, Turn::GradesWithCarsOnly]),
    ("totals-of-grade-1-alone", OF_GRADES),
    ("totals-of-grade-2-alone", OF_GRADES),
    ("totals-of-grade-3-alone", OF_GRADES),
    ("totals-of-grade-4-alone", &[Turn::NextGrade, Turn::ThreeGrades, Turn::GradesBeforeAll]),
    ("totals-of-grades-1-and-3", OF_GRADES),
    ("totals-of-grades-2-and-4", OF_GRADES),
    ("totals-of-all-four-grades", &[Turn::NextGrade, Turn::AllFromGrade4, Turn::GradeCountFromAll]),
    ("totals-of-grades-in-mixed-order", &[Turn::NextGrade, Turn::RefusedCarCounted]),
    ("totals-of-sixty-cars", &[Turn::NextGrade, Turn::GradesFalling]),
];

/// Wrong turns that show where some grades have cars and others have none, grade 4 not alone.
const OF_GRADES: &[Turn] = &[
    Turn::NextGrade,
    Turn::GradeNetFromGross,
    Turn::GradeCountFromAll,
    Turn::ThreeGrades,
    Turn::GradesFalling,
    Turn::GradesWithCarsOnly,
    Turn::GradesBeforeAll,
    Turn::AllFromGrade4,
];

#[test]
fn every_wrong_turn_shows_on_its_sheet() {
    let cases = cases();
    for (name, turns) in TURNS {
        let case = cases.iter().find(|case| case.name == *name).expect(name);
        let listing = String::from_utf8_lossy(&case.listing);
        assert_eq!(Turn::None.listing(&case.sheet), listing, "{name}");
        for turn in *turns {
            assert_ne!(turn.listing(&case.sheet), listing, "{name}: {turn:?} does not show");
        }
    }
}

/// A whole number of mm lies below a level, or reaches it, exactly where it does so for the next whole mm:
/// for these two comparisons that way is no wrong one.
#[test]
fn to_compare_the_next_millimetre_is_to_compare_tenths() {
    for case in cases() {
        let turns = TURNS.iter().filter(|(name, _)| *name == case.name);
        for turn in turns.flat_map(|_| [Turn::EndComparedTo(Next), Turn::WaterComparedTo(Next)]) {
            let listing = String::from_utf8_lossy(&case.listing);
            assert_eq!(turn.listing(&case.sheet), listing, "{}: {turn:?}", case.name);
        }
    }
}

/// But for those of strikes and full trains, whose wrong turns stand in `wrong_strikes`.
#[test]
fn every_parting_and_rounding_sheet_has_a_wrong_turn() {
    let elsewhere = ["parting-strike-", "parting-full-train-"];
    for case in cases() {
        let named = case.name.starts_with("parting-") || case.name.starts_with("rounding-");
        if named && !elsewhere.iter().any(|start| case.name.starts_with(start)) {
            let known = TURNS.iter().any(|(name, _)| *name == case.name);
            assert!(known, "{} shows no wrong turn", case.name);
        }
    }
}
