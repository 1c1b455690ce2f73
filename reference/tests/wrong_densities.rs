//! A second calculation of the density at 15 °C from a report that can take a wrong turn: each turn must
//! show in the answer of the vectors made for it.

mod roundings;
mod turns;

use reference::conformance::vectors::{all, laboratory::halves::BESIDE, laboratory::Vector};

use roundings::{rounded, Rounding};

#[derive(Clone, Copy, Debug, PartialEq, Eq)]
enum Turn {
    None,
    LargerOfATie,
    TieByUnrounded,
    /// The lowest and the highest field that is searched.
    Fields(u64, u64),
    /// The largest difference that is accepted.
    Furthest(u64),
    FurthestBeforeRounding,
    /// The lowest and the highest temperature that is accepted.
    Temperatures(u64, u64),
    DensityBeforeTemperature,
    /// Report and temperature cut to so many bits.
    Bits(u32),
    ReportWithoutSign,
    WholeKilograms,
    WholeDegrees,
    Density(Rounding),
    From20,
    TemperatureForTenths,
    Always20,
    DividedByE,
    /// B of another density.
    CoefficientOfFieldBelow,
    CoefficientOfFieldAbove,
    CoefficientOf9500,
    CoefficientOfReport,
    /// B as a fraction, all behind it rounded by the rule.
    CoefficientUnrounded,
    /// One part of B in single floating point.
    Single(Part),
    InFloatingPoint,
    InSingleFloatingPoint,
    SquareLeftOut,
    SquareTakenOff,
    /// So many terms of the series.
    Terms(u64),
    /// E slips by so many units.
    Slip(i64),
    /// The report over E of the report, then so many times over E of what came out.
    ReportOverE(u32),
    ReportOverEIn64Bits,
    ReportTimesCoefficient,
    /// Linear between fields so far apart.
    Linear(u64),
}

/// The square below the line of B, what is added above it, and what comes out.
#[derive(Clone, Copy, Debug, PartialEq, Eq)]
enum Part {
    Square,
    Sum,
    Quotient,
}

const ONE: u64 = 10_000_000_000;

/// What a caller sees: the density at 15 °C, or the refusal.
type Seen = Result<u64, u32>;

fn nearest(dividend: u64, divisor: u64) -> u64 {
    rounded(None, dividend, divisor)
}

fn nearest_of_wide(dividend: u128, divisor: u128) -> u128 {
    (2 * dividend + divisor) / (2 * divisor)
}

impl Turn {
    fn answer(self, vector: &Vector) -> Seen {
        let (mut reported, mut temperature) =
            (u64::from(vector.reported), u64::from(vector.temperature));
        match self {
            Self::Bits(bits) => {
                (reported, temperature) = (reported % (1 << bits), temperature % (1 << bits));
            }
            Self::ReportWithoutSign => reported = reported.min((1 << 32) - reported),
            Self::WholeDegrees => temperature -= temperature % 10,
            _ => {}
        }
        let (lowest, highest) =
            if let Self::Temperatures(low, high) = self { (low, high) } else { (200, 900) };
        if !(lowest..=highest).contains(&temperature) {
            // Above 200 °C, where numbers on the way would overflow, E is taken as it is at 200 °C.
            let tenths = temperature.min(2_000).saturating_sub(150);
            let far = || self.search(reported, tenths).is_err();
            return Err(if self == Self::DensityBeforeTemperature && far() { 27 } else { 26 });
        }
        let tenths = match self {
            Self::From20 => temperature - 200,
            Self::TemperatureForTenths => temperature,
            Self::Always20 => 50,
            _ => temperature - 150,
        };
        let found =
            self.by_formula(reported, tenths).unwrap_or_else(|| self.search(reported, tenths))?;
        Ok(if self == Self::WholeKilograms { (found + 5) / 10 * 10 } else { found })
    }

    /// The search, as the rule has it.
    fn search(self, reported: u64, tenths: u64) -> Seen {
        let (lowest, highest) =
            if let Self::Fields(low, high) = self { (low, high) } else { (9_000, 9_900) };
        let apart = |r: &u64| self.density(*r, reported, tenths).abs_diff(reported);
        let least = (lowest..=highest).map(|r| apart(&r)).min().expect("a field");
        let mut near = (lowest..=highest).filter(|r| apart(r) == least);
        let found = match self {
            Self::LargerOfATie => near.next_back(),
            Self::TieByUnrounded => {
                near.min_by_key(|r| (r * self.contraction(*r, tenths)).abs_diff(ONE * reported))
            }
            _ => near.next(),
        };
        let found = found.expect("a field");
        let furthest = if let Self::Furthest(furthest) = self { furthest } else { 1 };
        let unrounded = || (found * self.contraction(found, tenths)).abs_diff(ONE * reported);
        let far = self == Self::FurthestBeforeRounding && least < 2 && unrounded() > ONE;
        if least > furthest || far {
            return Err(27);
        }
        Ok(found)
    }

    /// What a field comes to.
    fn density(self, r: u64, reported: u64, tenths: u64) -> u64 {
        let contraction = match self {
            Self::CoefficientOfFieldBelow => self.contraction(r - 1, tenths),
            Self::CoefficientOfFieldAbove => self.contraction(r + 1, tenths),
            Self::CoefficientOf9500 => self.contraction(9_500, tenths),
            Self::CoefficientOfReport => self.contraction(reported.clamp(1_000, 20_000), tenths),
            Self::CoefficientUnrounded => return with_b_unrounded(r.into(), tenths.into()),
            Self::InFloatingPoint => return in_floating_point(r as f64, tenths as f64),
            Self::InSingleFloatingPoint => return in_single(r as f32, tenths as f32),
            _ => self.contraction(r, tenths),
        };
        match self {
            Self::DividedByE => nearest(r * ONE, contraction),
            Self::Density(rounding) => rounded(Some(rounding), r * contraction, ONE),
            _ => nearest(r * contraction, ONE),
        }
    }

    /// B of a density.
    fn coefficient(self, r: u64) -> u64 {
        let (constant, product) = (18_696_960_000_000, 4_861_800_000 * r);
        let square = match self {
            Self::Single(Part::Square) => (r as f32 * r as f32) as u64,
            _ => r * r,
        };
        let sum = match self {
            Self::Single(Part::Sum) => (constant as f32 + product as f32) as u64,
            _ => constant + product,
        };
        match self {
            Self::Single(Part::Quotient) => (sum as f32 / square as f32).round() as u64,
            _ => nearest(sum, square),
        }
    }

    /// E with B of a density.
    fn contraction(self, r: u64, tenths: u64) -> u64 {
        let coefficient = self.coefficient(r);
        let plain = coefficient * tenths;
        let square = nearest(8 * plain * plain, 100_000_000_000);
        let exponent = match self {
            Self::SquareLeftOut => plain,
            Self::SquareTakenOff => plain - square,
            _ => plain + square,
        };
        let terms = if let Self::Terms(terms) = self { terms } else { 6 };
        let (mut sum, mut term) = (ONE - exponent, exponent);
        for power in 2..=terms {
            term = nearest(term * exponent, power * ONE);
            sum = if power % 2 == 0 { sum + term } else { sum - term };
        }
        sum.wrapping_add_signed(if let Self::Slip(units) = self { units } else { 0 })
    }

    /// An answer got without a search, where the turn is one.
    fn by_formula(self, reported: u64, tenths: u64) -> Option<Seen> {
        let over = |reported: u64, r: u64| {
            let divisor = self.contraction(r.clamp(1_000, 20_000), tenths);
            nearest_of_wide(u128::from(reported) * u128::from(ONE), divisor.into()) as u64
        };
        let found = match self {
            Self::ReportOverE(times) => (0..=times).fold(reported, |r, _| over(reported, r)),
            Self::ReportOverEIn64Bits => {
                let wrapped = reported.wrapping_mul(ONE);
                wrapped / self.contraction(9_500, tenths)
            }
            Self::ReportTimesCoefficient => {
                let r = reported.clamp(1_000, 20_000);
                nearest(r * (ONE + self.coefficient(r) * tenths), ONE)
            }
            Self::Linear(step) => return Some(self.linear(reported, tenths, step)),
            _ => return None,
        };
        Some(if (9_000..=9_900).contains(&found) { Ok(found) } else { Err(27) })
    }

    fn linear(self, reported: u64, tenths: u64, step: u64) -> Seen {
        let at = |r: u64| self.density(r, reported, tenths);
        if reported + 1 < at(9_000) || reported > at(9_900) + 1 {
            return Err(27);
        }
        let fields = (9_000..9_900).step_by(step as usize);
        let low = fields.filter(|&r| at(r) <= reported).last().unwrap_or(9_000);
        let (below, above) = (at(low), at(low + step));
        Ok((low + nearest(reported.saturating_sub(below) * step, above - below)).min(9_900))
    }
}

/// B, X, the terms and E stand over r², as what is above the line.
fn with_b_unrounded(r: u128, tenths: u128) -> u64 {
    let (one, line) = (u128::from(ONE), r * r);
    let plain = (18_696_960_000_000 + 4_861_800_000 * r) * tenths;
    let exponent = plain + line * nearest_of_wide(8 * plain * plain, 10 * one * line * line);
    let (mut sum, mut term) = (one * line - exponent, exponent);
    for power in 2..=6 {
        term = line * nearest_of_wide(term * exponent, power * one * line * line);
        sum = if power % 2 == 0 { sum + term } else { sum - term };
    }
    nearest_of_wide(r * sum, one * line) as u64
}

/// In double floating point, nothing rounded on the way.
fn in_floating_point(r: f64, tenths: f64) -> u64 {
    let plain = (18_696_960_000_000.0 + 4_861_800_000.0 * r) / (r * r) * tenths / 1e10;
    (r * (-plain * (1.0 + 0.8 * plain)).exp()).round() as u64
}

fn in_single(r: f32, tenths: f32) -> u64 {
    let plain = (18_696_960_000_000.0 + 4_861_800_000.0 * r) / (r * r) * tenths / 1e10;
    (r * (-plain * (1.0 + 0.8 * plain)).exp()).round() as u64
}

const TURNS: &[(&str, &[Turn])] = &[
    ("printed-9330-at-503", &[Turn::WholeDegrees, Turn::From20, Turn::ReportOverE(0)]),
    ("printed-9460-at-402", &[Turn::WholeDegrees, Turn::TemperatureForTenths, Turn::Always20]),
    ("refusal-27-two-below-9000-at-200", &[Turn::Furthest(2)]),
    ("refusal-27-two-above-9900-at-200", &[Turn::Furthest(2)]),
    ("refusal-27-two-below-9000-at-900", &[Turn::Furthest(2), Turn::Fields(8_998, 9_900)]),
    ("refusal-27-two-above-9900-at-900", &[Turn::Furthest(2), Turn::Fields(9_000, 9_901)]),
    (
        "accepted-one-below-9000-at-200",
        &[Turn::Furthest(0), Turn::Fields(9_001, 9_900), Turn::ReportOverE(50)],
    ),
    ("accepted-one-above-9900-at-900", &[Turn::Furthest(0), Turn::Fields(9_000, 9_899)]),
    ("accepted-9000-at-200", &[Turn::Fields(9_001, 9_900), Turn::Temperatures(201, 900)]),
    ("accepted-9900-at-900", &[Turn::Fields(9_000, 9_899), Turn::Temperatures(200, 899)]),
    ("tie-9173-at-200", &[Turn::LargerOfATie, Turn::TieByUnrounded, Turn::Furthest(0)]),
    ("tie-of-9000-and-9001-at-467", &[Turn::LargerOfATie, Turn::Fields(9_001, 9_900)]),
    ("tie-of-9899-and-9900-at-818", &[Turn::LargerOfATie, Turn::Furthest(0)]),
    ("refusal-26-temperature-199", &[Turn::Temperatures(199, 900)]),
    ("refusal-26-temperature-901", &[Turn::Temperatures(200, 901)]),
    ("refusal-26-temperature-15-degrees", &[Turn::Temperatures(150, 900)]),
    ("refusal-26-temperature-in-16-bits", &[Turn::Bits(16)]),
    ("refusal-26-temperature-in-31-bits", &[Turn::Bits(31)]),
    ("refusal-27-report-in-16-bits-at-500", &[Turn::Bits(16)]),
    ("refusal-27-report-in-31-bits-at-500", &[Turn::Bits(31)]),
    ("refusal-27-report-in-64-bits-at-500", &[Turn::ReportOverEIn64Bits]),
    ("refusal-27-report-that-is-negative-in-32-bits-at-500", &[Turn::ReportWithoutSign]),
    ("order-26-before-27-0-at-199", &[Turn::DensityBeforeTemperature]),
    ("order-26-before-27-4294967295-at-901", &[Turn::DensityBeforeTemperature]),
    ("parting-larger-of-a-tie", &[Turn::LargerOfATie]),
    ("parting-tie-by-the-unrounded-density", &[Turn::TieByUnrounded]),
    ("parting-search-from-9001", &[Turn::Fields(9_001, 9_900)]),
    ("parting-search-to-9899", &[Turn::Fields(9_000, 9_899)]),
    ("parting-difference-of-1-refused", &[Turn::Furthest(0)]),
    ("parting-difference-before-rounding-of-the-lightest", &[Turn::FurthestBeforeRounding]),
    ("parting-difference-before-rounding-of-the-densest", &[Turn::FurthestBeforeRounding]),
    ("parting-temperature-from-400", &[Turn::Temperatures(400, 900)]),
    ("parting-temperature-above-200", &[Turn::Temperatures(201, 900)]),
    ("parting-temperature-below-900", &[Turn::Temperatures(200, 899)]),
    ("parting-whole-kilograms", &[Turn::WholeKilograms]),
    ("parting-whole-degrees", &[Turn::WholeDegrees]),
    ("parting-density-cut", &[Turn::Density(Rounding::Down)]),
    ("parting-density-rounded-up", &[Turn::Density(Rounding::Up)]),
    ("parting-d-from-20-degrees", &[Turn::From20]),
    ("parting-temperature-for-d", &[Turn::TemperatureForTenths]),
    ("parting-always-20-degrees", &[Turn::Always20]),
    ("parting-divided-by-e", &[Turn::DividedByE]),
    ("parting-b-of-the-field-below", &[Turn::CoefficientOfFieldBelow]),
    ("parting-b-of-the-field-above", &[Turn::CoefficientOfFieldAbove]),
    ("parting-b-of-the-report", &[Turn::CoefficientOfReport]),
    ("parting-b-of-9500", &[Turn::CoefficientOf9500]),
    ("parting-square-of-b-in-single-floating-point", &[Turn::Single(Part::Square)]),
    ("parting-sum-of-b-in-single-floating-point", &[Turn::Single(Part::Sum)]),
    ("parting-quotient-of-b-in-single-floating-point", &[Turn::Single(Part::Quotient)]),
    ("parting-b-not-rounded", &[Turn::CoefficientUnrounded, Turn::InFloatingPoint]),
    ("parting-b-not-rounded-goes-up", &[Turn::CoefficientUnrounded]),
    ("parting-square-left-out", &[Turn::SquareLeftOut]),
    ("parting-square-taken-off", &[Turn::SquareTakenOff]),
    ("parting-two-terms", &[Turn::Terms(2)]),
    ("parting-three-terms", &[Turn::Terms(3)]),
    ("parting-four-terms", &[Turn::Terms(4)]),
    ("parting-single-floating-point", &[Turn::InSingleFloatingPoint]),
    ("half-8993-at-426", &[Turn::Slip(-2)]),
    ("half-8934-at-669", &[Turn::Slip(5), Turn::Terms(4)]),
    ("parting-report-over-e-of-the-report", &[Turn::ReportOverE(0)]),
    ("parting-report-over-e-corrected-once", &[Turn::ReportOverE(1)]),
    ("parting-report-over-e-corrected-three-times", &[Turn::ReportOverE(3)]),
    ("parting-report-times-1-plus-b-times-d", &[Turn::ReportTimesCoefficient]),
    ("parting-linear-between-9000-and-9900", &[Turn::Linear(900)]),
    ("parting-linear-between-every-hundredth-field", &[Turn::Linear(100)]),
];

#[test]
fn every_wrong_turn_shows_in_its_vector() {
    turns::shows(TURNS, Turn::None, Turn::answer);
}

#[test]
fn without_a_wrong_turn_the_answers_are_the_same() {
    for vector in all::<Vector>() {
        let answer = vector.work_out().map(|density| u64::from(density.0));
        let seen = answer.map_err(|refusal| refusal.number());
        assert_eq!(Turn::None.answer(&vector), seen, "{}", vector.name);
    }
}

#[test]
fn no_density_lies_at_a_half_or_within_a_unit_of_e() {
    let half = [Rounding::HalfDown, Rounding::HalfToEven].map(Turn::Density);
    for tenths in 50..=750 {
        for r in 9_000..=9_900 {
            let density = |turn: Turn| turn.density(r, r, tenths);
            for turn in half.into_iter().chain([Turn::Slip(-1), Turn::Slip(1)]) {
                assert_eq!(density(turn), density(Turn::None), "{turn:?} {r} {tenths}");
            }
        }
    }
}

#[test]
fn every_half_shows_slips_of_e_from_the_least_on_to_one_side() {
    for (reported, temperature, least) in BESIDE {
        let vector = Vector { name: String::new(), reported, temperature };
        for units in -15..=15 {
            let shows = Turn::Slip(units).answer(&vector) != Turn::None.answer(&vector);
            let beyond = units * least.signum() >= least.abs();
            assert_eq!(shows, beyond, "{units} in {reported} at {temperature}");
        }
    }
}

#[test]
fn the_density_before_the_temperature_shows_in_every_order() {
    let vectors = all::<Vector>();
    for vector in vectors.iter().filter(|vector| vector.name.starts_with("order-26-before-27-")) {
        assert_eq!(Turn::DensityBeforeTemperature.answer(vector), Err(27), "{}", vector.name);
    }
}

#[test]
fn every_parting_vector_has_a_wrong_turn() {
    turns::has_all::<Vector, _>(TURNS, "parting-");
}
