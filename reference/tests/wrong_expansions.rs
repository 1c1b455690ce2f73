//! A second calculation of B, by its list, that can take a wrong turn: each turn must show in the answer
//! of the vectors made for it, and in V15 on the sheets that have every density.

mod roundings;
mod turns;

use reference::conformance::vectors::{all, expansion::Vector};
use reference::conformance::{cases, Case};

use roundings::{rounded, Rounding};
use Instead::{Neighbour, Nothing, Zero};

#[derive(Clone, Copy, Debug, PartialEq, Eq)]
enum Turn {
    None,
    /// The lowest and the highest density that is answered.
    Densities(u64, u64),
    /// The first entry for what lies below the list, the last for what lies above.
    NearestEnd,
    WholeKilogramsTaken,
    HundredthsTaken,
    /// The density, or its place in the list, cut to so many bits.
    DensityBits(u32),
    PlaceBits(u32),
    DensityWithoutSign,
    PlaceWithoutSign,
    /// A place below 0 counted from the end.
    PlaceFromTheEnd,
    /// The entry of a density off by so much.
    Off(u64, i64),
    /// The entry so many places behind, or that from a density on.
    Behind(i64),
    BehindFrom(u64, i64),
    FromTheLastToTheFirst,
    /// No entry for a density.
    Lacks(u64, Instead),
    DensityAt20,
    /// Entries for each so many fields alone: the last one before the density, the nearest, or a line between.
    Before(u64),
    Nearest(u64),
    Linear(u64),
    Round(Rounding),
    /// The two numbers of the formula.
    Formula(u64, u64),
    FormulaInSingleFloatingPoint,
    /// B in so many units of 10⁻⁹.
    Unit(u64),
    /// B in so many bits, or in single floating point.
    Bits(u32),
    InSingleFloatingPoint,
}

/// What is answered where the list has no entry.
#[derive(Clone, Copy, Debug, PartialEq, Eq)]
enum Instead {
    /// The only entry beside it.
    Neighbour,
    Zero,
    /// Refusal 19.
    Nothing,
}

const CONSTANT: u64 = 18_696_960_000_000;
const FACTOR: u64 = 4_861_800_000;

/// What a caller sees: B in 10⁻⁹ per °C, or the refusal.
type Seen = Result<u64, u32>;

/// B of a density in 0.1 kg/m³.
fn by_rule(density: u64) -> u64 {
    rounded(None, CONSTANT + FACTOR * density, density * density)
}

impl Turn {
    fn answer(self, vector: &Vector) -> Seen {
        self.look_up(vector.density.into())
    }

    fn look_up(self, density: u64) -> Seen {
        let density = self.taken(density);
        let (lowest, highest) =
            if let Self::Densities(low, high) = self { (low, high) } else { (9_000, 9_900) };
        let is_answered = (lowest..=highest).contains(&density);
        is_answered.then(|| self.entry(density)).flatten().ok_or(19)
    }

    /// The density that is looked up.
    fn taken(self, density: u64) -> u64 {
        match self {
            Self::NearestEnd => density.clamp(9_000, 9_900),
            Self::WholeKilogramsTaken if density < 1_000 => 10 * density,
            Self::HundredthsTaken if density >= 90_000 => density / 10,
            Self::DensityBits(bits) => density % (1 << bits),
            Self::PlaceBits(bits) => 9_000 + density.wrapping_sub(9_000) % (1 << bits),
            Self::DensityWithoutSign => (density as i32).unsigned_abs().into(),
            Self::PlaceWithoutSign => 9_000 + density.abs_diff(9_000),
            Self::PlaceFromTheEnd if density < 9_000 => density + 901,
            _ => density,
        }
    }

    /// What the list has for a density, or nothing.
    fn entry(self, density: u64) -> Option<u64> {
        let near = |by: i64| by_rule(density.wrapping_add_signed(by));
        Some(match self {
            Self::Off(at, by) if at == density => by_rule(density).wrapping_add_signed(by),
            Self::Behind(by) => near(by),
            Self::BehindFrom(first, by) if first <= density => near(by),
            Self::FromTheLastToTheFirst => by_rule(18_900 - density),
            Self::Lacks(at, instead) if at == density => return instead.entry(density),
            Self::DensityAt20 => by_rule(density_at_20(density, by_rule(density))),
            Self::Before(step) => by_rule(density / step * step),
            Self::Nearest(step) => by_rule((density + step / 2) / step * step),
            Self::Linear(step) => linear(density, step),
            Self::Round(rounding) => {
                rounded(Some(rounding), CONSTANT + FACTOR * density, density * density)
            }
            Self::Formula(constant, factor) => {
                rounded(None, constant + factor * density, density * density)
            }
            Self::FormulaInSingleFloatingPoint => in_single(density as f32),
            Self::Unit(unit) => unit * rounded(None, by_rule(density), unit),
            Self::Bits(bits) => by_rule(density) % (1 << bits),
            Self::InSingleFloatingPoint => by_rule(density) as f32 as u64,
            _ => by_rule(density),
        })
    }

    /// Whether a car of the sheets shows the turn, by its V15 or by 19.
    fn shows_in(self, car: &Car) -> bool {
        self.look_up(car.density).map(|b| volume_at_15(car.stick, b)) != Ok(car.volume_at_15)
    }
}

impl Instead {
    fn entry(self, density: u64) -> Option<u64> {
        match self {
            Self::Neighbour if density == 9_000 => Some(by_rule(9_001)),
            Self::Neighbour => Some(by_rule(density - 1)),
            Self::Zero => Some(0),
            Self::Nothing => None,
        }
    }
}

/// B on a line between the entries of two densities so far apart, rounded.
fn linear(density: u64, step: u64) -> u64 {
    let low = 9_000 + (density - 9_000) / step * step;
    let (before, behind) = (by_rule(low), by_rule(low + step));
    before - rounded(Some(Rounding::HalfDown), (before - behind) * (density - low), step)
}

fn in_single(density: f32) -> u64 {
    ((CONSTANT as f32 + FACTOR as f32 * density) / (density * density)).round() as u64
}

const ONE: u64 = 10_000_000_000;

/// E for so many tenths of a degree above 15 °C.
fn contraction(b: u64, tenths: u64) -> u64 {
    let plain = b * tenths;
    let exponent = plain + rounded(None, 8 * plain * plain, 10 * ONE);
    let (mut sum, mut term) = (ONE - exponent, exponent);
    for power in 2..=6 {
        term = rounded(None, term * exponent, power * ONE);
        sum = if power % 2 == 0 { sum + term } else { sum - term };
    }
    sum
}

fn density_at_20(density: u64, b: u64) -> u64 {
    rounded(None, density * contraction(b, 50), ONE)
}

/// The largest V0, in 0.01 dm³.
const VOLUME: u64 = 20_000_000;

/// V15 of the largest V0 at 90 °C, in 0.01 dm³.
fn volume_at_15(stick: u64, b: u64) -> u64 {
    let expansion = [100, 121][stick as usize - 1];
    let measured = rounded(None, VOLUME * (20_000_000 + expansion * 700), 20_000_000);
    rounded(None, measured * contraction(b, 750), ONE)
}

/// A car of the sheets, with the V15 of its listing.
struct Car {
    density: u64,
    stick: u64,
    volume_at_15: u64,
}

/// The cars of the sheets that show B.
///
/// # Panics
///
/// If one is refused, has another volume than the largest or is not at 90 °C.
fn cars() -> Vec<Car> {
    let numbers = |line: &str| -> Vec<u64> {
        line[1..].split_whitespace().map(|number| number.parse().unwrap()).collect()
    };
    let sheets = cases().into_iter().filter(|case| case.name.starts_with("expansion-"));
    let of_sheet = |case: Case| {
        let [sheet, listing] =
            [case.sheet, case.listing].map(|text| String::from_utf8(text).unwrap());
        let asked = sheet.lines().filter(|line| line.starts_with('C')).map(numbers);
        let answered: Vec<Vec<u64>> =
            listing.lines().filter(|line| line.starts_with('A')).map(numbers).collect();
        let car = |(car, figures): (Vec<u64>, &Vec<u64>)| {
            assert_eq!((car[0], car[10], VOLUME), (figures[0], 900, figures[2]));
            Car { density: car[11], stick: car[3], volume_at_15: figures[3] }
        };
        assert_eq!(asked.clone().count(), answered.len());
        asked.zip(&answered).map(car).collect::<Vec<Car>>()
    };
    sheets.flat_map(of_sheet).collect()
}

const TURNS: &[(&str, &[Turn])] = &[
    ("card-9500", &[Turn::Behind(1), Turn::Unit(10), Turn::Round(Rounding::Down)]),
    ("density-9000", &[Turn::Densities(9_001, 9_900), Turn::Lacks(9_000, Nothing)]),
    ("density-9900", &[Turn::Densities(9_000, 9_899), Turn::Lacks(9_900, Nothing)]),
    ("density-9600", &[Turn::Round(Rounding::HalfDown), Turn::Off(9_600, -1)]),
    ("density-9256", &[Turn::PlaceBits(8)]),
    ("density-9512", &[Turn::PlaceBits(9)]),
    ("refusal-19-density-0", &[Turn::NearestEnd]),
    ("refusal-19-density-1", &[Turn::Densities(1, 9_900), Turn::NearestEnd]),
    ("refusal-19-density-900", &[Turn::WholeKilogramsTaken]),
    ("refusal-19-density-901", &[Turn::WholeKilogramsTaken, Turn::NearestEnd]),
    ("refusal-19-density-8998", &[Turn::PlaceWithoutSign, Turn::PlaceFromTheEnd]),
    ("refusal-19-density-8999", &[Turn::PlaceWithoutSign, Turn::PlaceFromTheEnd]),
    ("refusal-19-density-9901", &[Turn::Densities(9_000, 9_901), Turn::NearestEnd]),
    ("refusal-19-density-9902", &[Turn::Densities(9_000, 9_999), Turn::NearestEnd]),
    ("refusal-19-density-9999", &[Turn::Densities(9_000, 9_999)]),
    ("refusal-19-density-10000", &[Turn::Densities(9_000, 10_000)]),
    ("refusal-19-density-65535", &[Turn::NearestEnd]),
    ("refusal-19-density-4294967295", &[Turn::NearestEnd]),
    ("refusal-19-density-in-whole-kilograms", &[Turn::WholeKilogramsTaken]),
    ("refusal-19-density-in-hundredths", &[Turn::HundredthsTaken]),
    ("refusal-19-density-at-20-of-9000", &[Turn::Densities(8_900, 9_900)]),
    ("refusal-19-density-9000-in-16-bits", &[Turn::DensityBits(16), Turn::PlaceBits(16)]),
    ("refusal-19-density-9500-in-16-bits", &[Turn::DensityBits(16), Turn::PlaceBits(16)]),
    ("refusal-19-density-9600-in-16-bits", &[Turn::DensityBits(16), Turn::PlaceBits(16)]),
    ("refusal-19-density-9900-in-16-bits", &[Turn::DensityBits(16), Turn::PlaceBits(16)]),
    ("refusal-19-density-in-14-bits", &[Turn::DensityBits(14), Turn::PlaceBits(14)]),
    ("refusal-19-density-in-15-bits", &[Turn::DensityBits(15), Turn::PlaceBits(15)]),
    ("refusal-19-density-in-17-bits", &[Turn::DensityBits(17), Turn::DensityBits(16)]),
    ("refusal-19-density-in-24-bits", &[Turn::DensityBits(24), Turn::PlaceBits(24)]),
    ("refusal-19-density-in-31-bits", &[Turn::DensityBits(31), Turn::PlaceBits(31)]),
    ("refusal-19-density-of-all-bits-in-16-bits", &[Turn::DensityBits(16)]),
    ("refusal-19-density-that-is-negative-in-32-bits", &[Turn::DensityWithoutSign]),
    ("refusal-19-place-0-in-10-bits", &[Turn::PlaceBits(10)]),
    ("refusal-19-place-500-in-10-bits", &[Turn::PlaceBits(10)]),
    ("refusal-19-place-900-in-10-bits", &[Turn::PlaceBits(10)]),
    ("refusal-19-place-in-12-bits", &[Turn::PlaceBits(12)]),
    ("refusal-19-place-without-its-sign", &[Turn::PlaceWithoutSign, Turn::PlaceFromTheEnd]),
    ("refusal-19-place-900-without-its-sign", &[Turn::PlaceWithoutSign]),
    ("refusal-19-place-901-from-the-end", &[Turn::PlaceFromTheEnd]),
    ("parting-8999-answered", &[Turn::Densities(8_999, 9_900)]),
    ("parting-9000-refused", &[Turn::Densities(9_001, 9_900)]),
    ("parting-9900-refused", &[Turn::Densities(9_000, 9_899)]),
    ("parting-9901-answered", &[Turn::Densities(9_000, 9_901)]),
    ("parting-first-entry-below-the-list", &[Turn::NearestEnd]),
    ("parting-last-entry-above-the-list", &[Turn::NearestEnd]),
    ("parting-entry-before", &[Turn::Behind(-1)]),
    ("parting-entry-behind", &[Turn::Behind(1)]),
    ("parting-from-the-last-to-the-first", &[Turn::FromTheLastToTheFirst]),
    ("parting-entry-of-9450-left-out", &[Turn::BehindFrom(9_450, 1)]),
    ("parting-entry-of-9450-twice", &[Turn::BehindFrom(9_451, -1)]),
    (
        "parting-900-entries-from-9000",
        &[Turn::Lacks(9_900, Neighbour), Turn::Lacks(9_900, Zero), Turn::Lacks(9_900, Nothing)],
    ),
    (
        "parting-900-entries-from-9001",
        &[Turn::Lacks(9_000, Neighbour), Turn::Lacks(9_000, Zero), Turn::Lacks(9_000, Nothing)],
    ),
    ("parting-place-in-8-bits", &[Turn::PlaceBits(8)]),
    ("parting-place-in-9-bits", &[Turn::PlaceBits(9)]),
    ("parting-density-at-20-for-density-at-15", &[Turn::DensityAt20]),
    ("parting-whole-kilograms-cut", &[Turn::Before(10)]),
    ("parting-whole-kilograms-nearest", &[Turn::Nearest(10)]),
    ("parting-every-second-field", &[Turn::Before(2)]),
    ("parting-linear-between-every-tenth-field", &[Turn::Linear(10)]),
    ("parting-linear-between-every-hundredth-field", &[Turn::Linear(100)]),
    ("parting-linear-between-9000-and-9900", &[Turn::Linear(900)]),
    ("parting-half-goes-down", &[Turn::Round(Rounding::HalfDown)]),
    ("parting-half-goes-to-even", &[Turn::Round(Rounding::HalfToEven)]),
    ("parting-quotient-cut", &[Turn::Round(Rounding::Down)]),
    ("parting-quotient-rounded-up", &[Turn::Round(Rounding::Up)]),
    ("parting-constant-of-fewer-digits", &[Turn::Formula(18_697_000_000_000, FACTOR)]),
    ("parting-factor-of-fewer-digits", &[Turn::Formula(CONSTANT, 4_862_000_000)]),
    ("parting-both-of-fewer-digits", &[Turn::Formula(18_697_000_000_000, 4_862_000_000)]),
    ("parting-formula-in-single-floating-point", &[Turn::FormulaInSingleFloatingPoint]),
    ("parting-8-digits-after-the-point", &[Turn::Unit(10)]),
    ("parting-7-digits-after-the-point", &[Turn::Unit(100)]),
    ("parting-in-16-bits", &[Turn::Bits(16)]),
];

#[test]
fn every_wrong_turn_shows_in_its_vector() {
    turns::shows(TURNS, Turn::None, Turn::answer);
}

#[test]
fn without_a_wrong_turn_the_answers_are_the_same() {
    for vector in all::<Vector>() {
        let seen = vector.work_out().map_err(|refusal| refusal.number());
        assert_eq!(Turn::None.answer(&vector), seen, "{}", vector.name);
    }
    assert!(!cars().iter().any(|car| Turn::None.shows_in(car)));
}

#[test]
fn every_parting_vector_has_a_wrong_turn() {
    turns::has_all::<Vector, _>(TURNS, "parting-");
    turns::has_all::<Vector, _>(TURNS, "refusal-19-place-");
}

/// What differs for some density from 9,000 to 9,900.
#[test]
fn every_wrong_list_shows_on_the_sheets() {
    let (cars, mut lists) = (cars(), 0);
    let partings = TURNS.iter().filter(|(name, _)| name.starts_with("parting-"));
    for turn in partings.flat_map(|(_, turns)| *turns) {
        let differs = (9_000..=9_900).any(|r| turn.look_up(r) != Turn::None.look_up(r));
        assert_eq!(cars.iter().any(|car| turn.shows_in(car)), differs, "{turn:?}");
        lists += usize::from(differs);
    }
    assert_eq!(lists, 33);
}

#[test]
fn the_sheets_have_every_density_once() {
    let densities: Vec<u64> = cars().iter().map(|car| car.density).collect();
    assert_eq!(densities, (9_000..=9_900).collect::<Vec<u64>>());
}

#[test]
fn an_entry_off_by_one_shows_in_every_place() {
    let vectors = all::<Vector>();
    for car in cars() {
        for by in [-1, 1] {
            let turn = Turn::Off(car.density, by);
            assert!(turn.shows_in(&car), "{turn:?}");
            let at = |vector: &&Vector| u64::from(vector.density) == car.density;
            let vector = vectors.iter().find(at).expect("a vector of every density");
            assert_ne!(turn.answer(vector), Turn::None.answer(vector), "{turn:?}");
        }
    }
}

/// V15 falls by one unit or two with every unit of B, so that no B but the right one gives it.
#[test]
fn the_volume_tells_b_to_the_unit() {
    for stick in [1, 2] {
        let volumes: Vec<u64> = (600_000..=800_000).map(|b| volume_at_15(stick, b)).collect();
        assert!(volumes.windows(2).all(|pair| (1..=2).contains(&(pair[0] - pair[1]))));
    }
}

#[test]
fn a_list_in_single_floating_point_is_right() {
    let turn = Turn::InSingleFloatingPoint;
    assert!(!cars().iter().any(|car| turn.shows_in(car)));
    for vector in all::<Vector>() {
        assert_eq!(turn.answer(&vector), Turn::None.answer(&vector), "{}", vector.name);
    }
}

/// The density at 20 °C falls while B rises, so that the ends tell all between.
#[test]
fn refusal_21_tells_no_b_that_is_off_by_less_than_8365() {
    for density in 9_000..=9_900 {
        let b = by_rule(density);
        for highest in [9_550, 9_600] {
            let is_refused = |b: u64| density_at_20(density, b) > highest;
            assert_eq!(is_refused(b - 8_364), is_refused(b), "{density}");
            assert_eq!(is_refused(b + 8_364), is_refused(b), "{density}");
        }
    }
    assert_eq!([0, 8_365].map(|off| density_at_20(9_585, by_rule(9_585) + off)), [9_551, 9_550]);
}
