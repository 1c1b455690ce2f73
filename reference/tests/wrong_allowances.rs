//! A second calculation of the tape allowance, by its formula, that can take a wrong turn: each turn
//! must show in the answer of the vectors made for it.

mod millimetres;
mod turns;

use reference::conformance::vectors::{all, tape::Vector};

use millimetres::Millimetre::{self, Cut, Nearest, Next};

#[derive(Clone, Copy, Debug, PartialEq, Eq)]
enum Turn {
    None,
    /// The lowest and the highest level that is answered, in 0.1 mm.
    Levels(u64, u64),
    /// No level is too high, and so many metres count at most.
    AtMost(u64),
    RefusalAsAllowance,
    /// The level brought to whole mm before it is tested.
    ToMillimetres(Millimetre),
    /// The level brought to whole mm for its metres, and tested in tenths.
    MetresOfMillimetres(Millimetre),
    /// Tenths taken for mm, with levels from 1 up to so many answered.
    AsMillimetres(u64),
    /// The level cut to so many bits.
    Bits(u32),
    /// The level without its sign in so many bits.
    WithoutSign(u32),
    /// The level times so much in so many bits, and divided by it again.
    Times(u64, u32),
    /// 9,999 added in so many bits, and not the level but its metres tested.
    Plus9999(u32),
    WholeMetres,
    WholeMetresAndOne,
    NearestMetre,
    SecondAsThird,
    /// A metre of so many tenths of a mm.
    Metre(u64),
    ThousandthsInSingleFloatingPoint,
    /// What the first metre and each further one give, in 0.01 mm.
    Hundredths(u64, u64),
    Linear,
    CutInFloatingPoint,
}

/// What a caller sees: the allowance in 0.01 mm, or the refusal.
type Seen = Result<u64, u32>;

/// The lowest so many bits of a number.
fn lowest(bits: u32, number: u64) -> u64 {
    number & (u64::MAX >> (64 - bits))
}

impl Turn {
    fn answer(self, vector: &Vector) -> Seen {
        let level = self.taken(vector.level);
        match self {
            _ if self.is_answered(level) => Ok(self.allowance(level)),
            Self::RefusalAsAllowance => Ok(16),
            _ => Err(16),
        }
    }

    /// The level that is worked with.
    fn taken(self, level: u64) -> u64 {
        match self {
            Self::Bits(bits) => lowest(bits, level),
            Self::WithoutSign(32) => (level as i32).unsigned_abs().into(),
            Self::WithoutSign(_) => (level as i64).unsigned_abs(),
            Self::Times(factor, bits) => lowest(bits, level.wrapping_mul(factor)) / factor,
            Self::ToMillimetres(millimetre) => 10 * millimetre.of(level),
            _ => level,
        }
    }

    fn is_answered(self, level: u64) -> bool {
        match self {
            Self::Levels(lowest, highest) => (lowest..=highest).contains(&level),
            Self::AsMillimetres(highest) => (1..=highest).contains(&level),
            Self::AtMost(_) => level >= 10,
            Self::Plus9999(_) => self.metres(level) <= 4,
            _ => (10..=36_000).contains(&level),
        }
    }

    /// L: a metre counts where it begins below the level.
    fn metres(self, level: u64) -> u64 {
        let metres = level.div_ceil(10_000);
        match self {
            Self::AtMost(most) => metres.min(most),
            Self::Plus9999(bits) => lowest(bits, level.wrapping_add(9_999)) / 10_000,
            Self::WholeMetres => level / 10_000,
            Self::WholeMetresAndOne => level / 10_000 + 1,
            Self::NearestMetre => (level + 5_000) / 10_000,
            Self::SecondAsThird if metres > 1 => metres + 1,
            Self::Metre(length) => level.div_ceil(length),
            Self::AsMillimetres(_) => level.div_ceil(1_000),
            Self::MetresOfMillimetres(millimetre) => millimetre.of(level).div_ceil(1_000),
            Self::ThousandthsInSingleFloatingPoint => (level as f32 / 10.0 * 0.001).ceil() as u64,
            _ => metres,
        }
    }

    /// 0.3 + 0.15 (L − 1) mm in 0.01 mm, 0.15 mm where L is 0.
    fn allowance(self, level: u64) -> u64 {
        let metres = self.metres(level);
        let (first, further) =
            if let Self::Hundredths(first, further) = self { (first, further) } else { (30, 15) };
        match self {
            Self::Linear => 30 + 15 * level.saturating_sub(10_000) / 10_000,
            Self::CutInFloatingPoint => (100.0 * (0.3 + 0.15 * (metres - 1) as f64)) as u64,
            _ => first + further * metres - further,
        }
    }
}

const TURNS: &[(&str, &[Turn])] = &[
    ("card-10000", &[Turn::WholeMetresAndOne, Turn::Metre(9_990), Turn::AsMillimetres(36_000)]),
    ("card-10001", &[Turn::WholeMetres, Turn::Metre(10_001), Turn::MetresOfMillimetres(Cut)]),
    ("card-10010", &[Turn::WholeMetres, Turn::NearestMetre, Turn::Metre(10_010)]),
    ("metre-1-level-10", &[Turn::Levels(11, 36_000), Turn::WholeMetres, Turn::NearestMetre]),
    ("metre-1-level-11", &[Turn::Levels(20, 36_000), Turn::WholeMetres]),
    ("metre-2-level-10002", &[Turn::MetresOfMillimetres(Nearest), Turn::ToMillimetres(Cut)]),
    ("metre-4-level-30001", &[Turn::MetresOfMillimetres(Nearest), Turn::Metre(10_010)]),
    ("metre-4-level-36000", &[Turn::Levels(10, 35_999), Turn::Levels(10, 30_000), Turn::AtMost(3)]),
    ("refusal-16-level-0", &[Turn::Levels(0, 36_000), Turn::Plus9999(64)]),
    (
        "refusal-16-level-1",
        &[Turn::Levels(1, 36_000), Turn::Plus9999(64), Turn::ToMillimetres(Next)],
    ),
    ("refusal-16-level-5", &[Turn::ToMillimetres(Nearest), Turn::AsMillimetres(3_600)]),
    ("refusal-16-level-9", &[Turn::Levels(9, 36_000), Turn::ToMillimetres(Nearest)]),
    ("refusal-16-level-36001", &[Turn::Levels(10, 36_001), Turn::AtMost(4), Turn::Plus9999(64)]),
    ("refusal-16-level-36009", &[Turn::ToMillimetres(Cut)]),
    ("refusal-16-level-40000", &[Turn::Levels(10, 40_000), Turn::Plus9999(64)]),
    ("refusal-16-level-40001", &[Turn::Levels(10, 40_001), Turn::AtMost(4)]),
    ("refusal-16-level-4294967295", &[Turn::AtMost(4)]),
    ("refusal-16-level-18446744073709551615", &[Turn::AtMost(4), Turn::Levels(10, u64::MAX)]),
    ("refusal-16-level-in-16-bits", &[Turn::Bits(16)]),
    ("refusal-16-level-36000-in-16-bits", &[Turn::Bits(16)]),
    ("refusal-16-level-in-24-bits", &[Turn::Bits(24)]),
    ("refusal-16-level-in-31-bits", &[Turn::Bits(31)]),
    ("refusal-16-level-in-32-bits", &[Turn::Bits(32), Turn::WithoutSign(32)]),
    ("refusal-16-level-10-in-32-bits", &[Turn::Bits(32)]),
    ("refusal-16-level-36000-in-32-bits", &[Turn::Bits(32)]),
    ("refusal-16-level-in-33-bits", &[Turn::Bits(33), Turn::Bits(32)]),
    ("refusal-16-level-in-48-bits", &[Turn::Bits(48)]),
    ("refusal-16-level-in-63-bits", &[Turn::Bits(63)]),
    ("refusal-16-level-that-is-negative-in-32-bits", &[Turn::WithoutSign(32)]),
    ("refusal-16-level-that-is-negative-in-64-bits", &[Turn::WithoutSign(64)]),
    ("refusal-16-level-times-10-in-32-bits", &[Turn::Times(10, 32)]),
    ("refusal-16-level-times-15-in-32-bits", &[Turn::Times(15, 32)]),
    ("refusal-16-level-times-100-in-32-bits", &[Turn::Times(100, 32)]),
    ("refusal-16-level-times-10-in-64-bits", &[Turn::Times(10, 64)]),
    ("refusal-16-level-times-15-in-64-bits", &[Turn::Times(15, 64)]),
    ("refusal-16-level-times-100-in-64-bits", &[Turn::Times(100, 64)]),
    ("refusal-16-level-plus-9999-in-32-bits", &[Turn::Plus9999(32)]),
    ("refusal-16-level-plus-9999-in-64-bits", &[Turn::Plus9999(64)]),
    ("parting-0-answered", &[Turn::Levels(0, 36_000)]),
    ("parting-1-answered", &[Turn::Levels(1, 36_000)]),
    ("parting-9-answered", &[Turn::Levels(9, 36_000)]),
    ("parting-10-refused", &[Turn::Levels(11, 36_000)]),
    ("parting-36000-refused", &[Turn::Levels(10, 35_999)]),
    ("parting-36001-answered", &[Turn::Levels(10, 36_001)]),
    ("parting-above-3600-refused", &[Turn::Levels(10, 3_600), Turn::AsMillimetres(3_600)]),
    ("parting-the-whole-fourth-metre", &[Turn::Levels(10, 40_000)]),
    ("parting-a-fifth-metre", &[Turn::Levels(10, 50_000)]),
    ("parting-three-metres-only", &[Turn::Levels(10, 30_000)]),
    ("parting-16-as-an-allowance", &[Turn::RefusalAsAllowance]),
    ("parting-tenths-as-mm", &[Turn::AsMillimetres(3_600)]),
    ("parting-tenths-as-mm-and-none-too-high", &[Turn::AsMillimetres(u64::MAX)]),
    ("parting-metre-of-1000-tenths", &[Turn::Metre(1_000)]),
    ("parting-tenths-cut", &[Turn::ToMillimetres(Cut), Turn::MetresOfMillimetres(Cut)]),
    ("parting-nine-tenths-cut", &[Turn::ToMillimetres(Cut), Turn::MetresOfMillimetres(Cut)]),
    ("parting-tenths-cut-above-the-highest", &[Turn::ToMillimetres(Cut)]),
    ("parting-tenths-to-the-nearest-mm", &[Turn::MetresOfMillimetres(Nearest)]),
    ("parting-tenths-to-the-nearest-mm-above-the-highest", &[Turn::ToMillimetres(Nearest)]),
    ("parting-tenths-to-the-nearest-mm-below-the-lowest", &[Turn::ToMillimetres(Nearest)]),
    ("parting-tenths-up-to-the-next-mm-below-the-lowest", &[Turn::ToMillimetres(Next)]),
    ("parting-whole-metres", &[Turn::WholeMetres]),
    ("parting-whole-metres-and-one", &[Turn::WholeMetresAndOne]),
    ("parting-nearest-metre", &[Turn::NearestMetre]),
    ("parting-second-metre-as-the-third", &[Turn::SecondAsThird]),
    ("parting-metre-of-9990", &[Turn::Metre(9_990)]),
    ("parting-metre-of-9999", &[Turn::Metre(9_999)]),
    ("parting-metre-of-10001", &[Turn::Metre(10_001)]),
    ("parting-metre-of-10010", &[Turn::Metre(10_010)]),
    ("parting-metre-of-10240", &[Turn::Metre(10_240)]),
    ("parting-three-metres-at-most", &[Turn::AtMost(3)]),
    ("parting-four-metres-at-most", &[Turn::AtMost(4)]),
    ("parting-thousandths-in-single-floating-point", &[Turn::ThousandthsInSingleFloatingPoint]),
    ("parting-31-for-the-first-metre", &[Turn::Hundredths(31, 15)]),
    ("parting-15-for-the-first-metre-too", &[Turn::Hundredths(15, 15)]),
    ("parting-l-for-l-less-1", &[Turn::Hundredths(45, 15)]),
    ("parting-30-at-every-level", &[Turn::Hundredths(30, 0)]),
    ("parting-30-for-every-metre", &[Turn::Hundredths(30, 30)]),
    ("parting-14-for-a-further-metre", &[Turn::Hundredths(30, 14)]),
    ("parting-20-for-a-further-metre", &[Turn::Hundredths(30, 20)]),
    ("parting-both-sides-of-the-deviation", &[Turn::Hundredths(60, 30)]),
    ("parting-in-micrometres", &[Turn::Hundredths(300, 150)]),
    ("parting-linear-within-a-metre", &[Turn::Linear]),
    ("parting-hundredths-cut-in-floating-point", &[Turn::CutInFloatingPoint]),
];

#[test]
fn every_wrong_turn_shows_in_its_vector() {
    turns::shows(TURNS, Turn::None, Turn::answer);
}

#[test]
fn without_a_wrong_turn_the_answers_are_the_same() {
    for vector in all::<Vector>() {
        let seen = vector.work_out().map(u64::from).map_err(|refusal| refusal.number());
        assert_eq!(Turn::None.answer(&vector), seen, "{}", vector.name);
    }
}

#[test]
fn every_parting_vector_has_a_wrong_turn() {
    turns::has_all::<Vector, _>(TURNS, "parting-");
}
