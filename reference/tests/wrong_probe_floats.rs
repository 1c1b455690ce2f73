//! Wrong ways to take a probe's floats, one by itself or three in a set: each must show in the answer of
//! the vector that is named after it.

mod conversions;
mod turns;

use reference::conformance::vectors::probe::{Asked, Vector};
use reference::laboratory;
use reference::probe::{Reading, Set};
use reference::thermal::Density15;

use conversions::{
    cut, cut_to_whole, half_down, half_to_even, in_hundredths, limit_of_3600, limited,
    minus_zero_refused, negative_as_0, not_times_ten, of_text, product_rounded, rounded_up, rule,
    shortest_text, sound, tenfold, to_whole, up_to_whole, Tenths, Way,
};

/// The tenths of one float or three, or the refusal.
type Seen = Result<Vec<u64>, u32>;

fn double(float: f32) -> f64 {
    f64::from(float)
}

/// The tenths of a number that has been brought to so many parts of a tenth first.
fn by_parts(float: f32, parts: f64) -> Tenths {
    sound(float, ((parts * tenfold(float)).round() / parts).round())
}

fn half_to_odd(float: f32) -> Tenths {
    let tenths = tenfold(float);
    let half = tenths.fract() == 0.5;
    sound(float, if half { 2.0 * (tenths / 2.0).floor() + 1.0 } else { tenths.round() })
}

fn printed(float: f32) -> Tenths {
    sound(float, format!("{float:.1}").replace('.', "").parse().unwrap_or(0.0))
}

const ROUNDING: &[(&str, &[Way])] = &[
    ("parting-half-to-even", &[half_to_even]),
    ("parting-half-to-even-large", &[half_to_even]),
    ("parting-half-going-down", &[half_down]),
    ("parting-half-going-down-large", &[half_down]),
    ("parting-half-going-to-odd", &[half_to_odd]),
    ("parting-printf-with-one-decimal", &[printed]),
    ("parting-cut", &[cut]),
    ("parting-cut-just-past-a-half", &[cut]),
    ("parting-cut-just-short-of-a-tenth", &[cut]),
    ("parting-rounded-up", &[rounded_up]),
    ("parting-rounded-up-from-hardly-anything", &[rounded_up]),
    ("parting-whole-numbers", &[to_whole]),
    ("parting-whole-numbers-cut", &[cut_to_whole]),
    ("parting-whole-numbers-rounded-up", &[up_to_whole]),
    ("parting-hundredths-first", &[|n| by_parts(n, 10.0)]),
    ("parting-hundredths-first-at-a-level", &[|n| by_parts(n, 10.0)]),
    ("parting-thousandths-first", &[|n| by_parts(n, 100.0)]),
    ("parting-six-decimals-first", &[|n| by_parts(n, 100_000.0)]),
    ("parting-in-hundredths", &[in_hundredths]),
    ("parting-not-times-ten", &[not_times_ten]),
    ("parting-tenths-cut-to-halves", &[|n| sound(n, 5.0 * (2.0 * double(n)).floor())]),
];

/// A sum of 32 bits cut to whole tenths.
fn product_and_half(float: f32) -> Tenths {
    sound(float, (10.0 * float + 0.5).floor().into())
}

fn whole_and_rest(float: f32) -> Tenths {
    sound(float, tenfold(float.trunc()) + double((10.0 * float.fract()).round()))
}

fn twentieth_first(float: f32) -> Tenths {
    sound(float, (10.0 * (float + 0.05)).floor().into())
}

const FLOATING_POINT: &[(&str, &[Way])] = &[
    ("parting-product-and-half-added", &[product_and_half]),
    ("parting-product-and-half-added-at-a-density", &[product_and_half]),
    ("parting-half-added-just-short-of-it", &[product_and_half]),
    ("parting-half-added-to-an-odd-product", &[product_and_half]),
    ("parting-product-rounded", &[product_rounded]),
    ("parting-product-rounded-large", &[product_rounded]),
    ("parting-product-rounded-of-the-largest", &[product_rounded]),
    ("parting-product-half-to-even", &[|n| sound(n, (10.0 * n).round_ties_even().into())]),
    ("parting-product-cut", &[|n| sound(n, (10.0 * n).floor().into())]),
    ("parting-product-of-whole-and-rest", &[whole_and_rest]),
    ("parting-product-of-whole-and-rest-past-1", &[whole_and_rest]),
    (
        "parting-eightfold-and-twofold-added",
        &[|n| sound(n, (8.0 * n + 2.0 * n + 0.5).floor().into())],
    ),
    ("parting-divided-by-a-tenth", &[|n| sound(n, (n / 0.1).round().into())]),
    ("parting-a-twentieth-added-first", &[twentieth_first]),
    ("parting-a-twentieth-added-first-at-a-level", &[twentieth_first]),
    ("parting-fused-product-and-half", &[|n| sound(n, n.mul_add(10.0, 0.5).floor().into())]),
];

/// A decimal of so many digits.
fn digits(float: f32, count: usize) -> Tenths {
    rule(float)?;
    Ok(of_text(&format!("{float:.*e}", count - 1)))
}

/// Text has an exponent below 0.0001, which is not looked at.
fn without_exponent(float: f32) -> Tenths {
    if float >= 1e-4 {
        return shortest_text(float);
    }
    rule(float)?;
    let text = format!("{float:e}");
    let (decimal, _) = text.split_once('e').expect("an exponent");
    Ok(of_text(&format!("{decimal}e0")))
}

const TEXT: &[(&str, &[Way])] = &[
    ("parting-shortest-text", &[shortest_text]),
    ("parting-shortest-text-at-a-density", &[shortest_text]),
    ("parting-shortest-text-at-a-level", &[shortest_text]),
    ("parting-six-digits", &[|n| digits(n, 6)]),
    ("parting-seven-digits", &[|n| digits(n, 7)]),
    ("parting-eight-digits", &[|n| digits(n, 8)]),
    ("parting-text-without-its-exponent", &[without_exponent]),
];

/// Exponent and significand of a float that is not denormal.
fn parts(float: f32) -> (u32, u64) {
    let bits = float.to_bits();
    ((bits >> 23) & 255, u64::from((1 << 23) | (bits & 0x7f_ffff)))
}

fn without_leading_bit(float: f32) -> Tenths {
    let leading = f32::from_bits(float.to_bits() & 0x7f80_0000);
    sound(float, tenfold(float - leading).round())
}

fn without_last_bits(float: f32) -> Tenths {
    rule(f32::from_bits(float.to_bits() & !0xff))
}

/// 65,536 parts, made whole in a way.
fn fixed(float: f32, whole: fn(f64) -> f64) -> Tenths {
    sound(float, ((10.0 * whole(65_536.0 * double(float)) + 32_768.0) / 65_536.0).floor())
}

fn turned_round(float: f32) -> Tenths {
    rule(f32::from_bits(float.to_bits().swap_bytes()))
}

/// Shifts in a word of 64 bits, by the lowest bits of their count; a sum past the word is not met.
fn shifted(float: f32, lowest: u32) -> Tenths {
    unsigned(float)?;
    let (exponent, significand) = parts(float);
    let product = 10 * significand;
    let tenths = if exponent < 150 {
        let count = (150 - exponent) & lowest;
        let half = 1_u64.checked_shl(count).unwrap_or(0) / 2;
        (product + half).checked_shr(count).unwrap_or(0)
    } else {
        product.checked_shl((exponent - 150) & lowest).unwrap_or(0)
    };
    limited(tenths as f64)
}

/// The tenths cut to so many bits before they are compared.
fn in_bits(float: f32, bits: i32) -> Tenths {
    unsigned(float)?;
    limited(tenfold(float).round() % 2_f64.powi(bits))
}

fn product_in_24_bits(float: f32) -> Tenths {
    let (exponent, significand) = parts(float);
    let product = (10 * significand % (1 << 24)) as f64;
    sound(float, (product * 2_f64.powi(exponent as i32 - 150)).round())
}

const BITS: &[(&str, &[Way])] = &[
    ("parting-leading-bit-left-out", &[without_leading_bit]),
    ("parting-exponent-one-too-high", &[|n| sound(n, (2.0 * tenfold(n)).round())]),
    ("parting-exponent-one-too-low", &[|n| sound(n, (tenfold(n) / 2.0).round())]),
    ("parting-last-bits-left-out", &[without_last_bits]),
    ("parting-sixteen-bits-behind-the-point-cut", &[|n| fixed(n, f64::floor)]),
    ("parting-sixteen-bits-behind-the-point-rounded", &[|n| fixed(n, f64::round)]),
    ("parting-bytes-turned-round", &[turned_round]),
    ("parting-shift-by-32-taken-for-none", &[|n| shifted(n, 31)]),
    ("parting-shift-by-33-taken-for-1", &[|n| shifted(n, 31)]),
    ("parting-shift-by-64-taken-for-none", &[|n| shifted(n, 63)]),
    ("parting-shift-by-149-taken-for-21", &[|n| shifted(n, 63)]),
    ("parting-tenths-in-8-bits", &[|n| in_bits(n, 8)]),
    ("parting-tenths-in-15-bits", &[|n| in_bits(n, 15)]),
    ("parting-tenths-in-16-bits", &[|n| in_bits(n, 16)]),
    ("parting-significand-times-ten-in-24-bits", &[product_in_24_bits]),
    ("parting-tenths-in-floats", &[|n| sound(n, double(tenfold(n).round() as f32))]),
];

/// 31 alone.
fn unsigned(float: f32) -> Result<(), u32> {
    if float < 0.0 || !float.is_finite() {
        return Err(31);
    }
    Ok(())
}

/// 31 where the tenths, made whole in a way, are below zero.
fn negative_after(float: f32, whole: fn(f64) -> f64) -> Tenths {
    let tenths = whole(tenfold(float));
    if tenths < 0.0 || !float.is_finite() {
        return Err(31);
    }
    limited(tenths)
}

fn half_up(tenths: f64) -> f64 {
    (tenths + 0.5).floor()
}

/// An answer for some floats, and the rule for all others.
fn where_it(is: bool, answer: Tenths, float: f32) -> Tenths {
    if is {
        answer
    } else {
        rule(float)
    }
}

const OF_31: &[(&str, &[Way])] = &[
    ("parting-minus-zero-refused", &[minus_zero_refused]),
    ("parting-negative-rounded-to-zero", &[|n| negative_after(n, half_up)]),
    ("parting-negative-rounded-to-zero-at-0.04", &[|n| negative_after(n, half_up)]),
    ("parting-half-going-up-to-zero", &[|n| negative_after(n, half_up)]),
    ("parting-negative-denormal-taken-for-zero", &[|n| where_it(n.is_subnormal(), Ok(0), n)]),
    ("parting-sign-left-out", &[|n| rule(n.abs())]),
    ("parting-negative-cut-to-zero", &[|n| negative_after(n, f64::trunc)]),
    ("parting-negative-taken-for-0", &[negative_as_0]),
    ("parting-negative-in-32-bits-by-32", &[|n| where_it(n < 0.0, Err(32), n)]),
    ("parting-infinity-by-32", &[|n| where_it(n.is_infinite(), Err(32), n)]),
    ("parting-infinity-as-a-number", &[|n| where_it(n.is_infinite(), Err(32), n)]),
    ("parting-minus-infinity-by-32", &[|n| where_it(n.is_infinite(), Err(32), n)]),
    ("parting-not-a-number-taken-for-0", &[|n| where_it(n.is_nan(), Ok(0), n)]),
    ("parting-not-a-number-by-32", &[|n| where_it(n.is_nan(), Err(32), n)]),
    ("parting-not-a-number-with-sign-taken-for-0", &[|n| where_it(n.is_nan(), Ok(0), n)]),
    (
        "parting-only-one-not-a-number-known",
        &[|n| where_it(n.is_nan() && n.to_bits() != 0x7fc0_0000, Err(32), n)],
    ),
    (
        "parting-signalling-not-known",
        &[|n| where_it(n.is_nan() && n.to_bits() & 0x40_0000 == 0, Err(32), n)],
    ),
    ("parting-denormals-refused", &[|n| where_it(n.is_subnormal(), Err(31), n)]),
    ("parting-zero-refused", &[|n| where_it(n == 0.0, Err(31), n)]),
    ("parting-largest-by-31", &[|n| where_it(n == f32::MAX, Err(31), n)]),
];

/// 32 for these floats alone.
fn too_large(is: bool, float: f32) -> Tenths {
    unsigned(float)?;
    if is {
        return Err(32);
    }
    Ok(tenfold(float).round() as u64)
}

fn cut_to_the_limit(float: f32) -> Tenths {
    unsigned(float)?;
    Ok(tenfold(float).round().min(99_999_999.0) as u64)
}

const OF_32: &[(&str, &[Way])] = &[
    ("parting-limit-as-a-float", &[|n| too_large(n > 9_999_999.9, n)]),
    ("parting-limit-of-99999999-mm", &[|n| too_large(double(n) > 99_999_999.0, n)]),
    ("parting-limit-of-99999999-mm-as-a-float", &[|n| too_large(n > 1e8, n)]),
    ("parting-limit-not-tested", &[|n| too_large(false, n)]),
    ("parting-largest-refused", &[|n| too_large(n >= 9_999_999.0, n)]),
    ("parting-limit-of-2-to-23", &[|n| too_large(n > 8_388_608.0, n)]),
    ("parting-limit-of-2-to-22", &[|n| too_large(n > 4_194_304.0, n)]),
    ("parting-limit-of-3600-mm", &[limit_of_3600]),
    ("parting-limit-of-the-fields", &[|n| too_large(n > 90.0, n)]),
    ("parting-product-in-32-bits", &[|n| in_bits(n, 32)]),
    ("parting-product-in-32-bits-far-above", &[|n| in_bits(n, 32)]),
    ("parting-product-in-64-bits", &[|n| in_bits(n, 64)]),
    ("parting-large-shift-by-32-taken-for-none", &[|n| shifted(n, 31)]),
    ("parting-large-shift-by-64-taken-for-none", &[|n| shifted(n, 63)]),
    ("parting-large-shift-pushes-all-bits-out", &[|n| shifted(n, 255)]),
    ("parting-too-large-cut-to-the-limit", &[cut_to_the_limit]),
    ("parting-31-for-32", &[|n| rule(n).map_err(|_| 31)]),
];

/// A way to take a set: level, temperature and density.
type OfSet = fn([f32; 3]) -> Seen;

/// Those of a set that are tested, in this order; others may be any number.
fn in_order(set: [f32; 3], order: &[usize]) -> Seen {
    let mut tenths = set.map(|float| rule(float).unwrap_or(0));
    for place in order {
        tenths[*place] = rule(set[*place])?;
    }
    Ok(tenths.to_vec())
}

/// A refusal tested of all three before the other.
fn any_first(set: [f32; 3], refusal: u32) -> Seen {
    if set.iter().any(|float| rule(*float) == Err(refusal)) {
        return Err(refusal);
    }
    in_order(set, &[0, 1, 2])
}

/// The tenths of a set changed, or refused, behind the rule.
fn behind(set: [f32; 3], change: fn([u64; 3]) -> Result<[u64; 3], u32>) -> Seen {
    let [level, temperature, density] = set.map(rule);
    change([level?, temperature?, density?]).map(|tenths| tenths.to_vec())
}

fn brought_from_20(density: u64) -> u64 {
    let Density15(density) = laboratory::density_at_15(density as u32, 200).expect("a field");
    density.into()
}

const SETS: &[(&str, &[OfSet])] = &[
    ("parting-any-31-before-32", &[|set| any_first(set, 31)]),
    ("parting-any-31-before-32-in-the-density", &[|set| any_first(set, 31)]),
    ("parting-any-31-before-32-from-end-to-end", &[|set| any_first(set, 31)]),
    ("parting-any-32-before-31", &[|set| any_first(set, 32)]),
    ("parting-temperature-first", &[|set| in_order(set, &[1, 0, 2])]),
    ("parting-density-first", &[|set| in_order(set, &[2, 0, 1])]),
    ("parting-density-before-temperature", &[|set| in_order(set, &[0, 2, 1])]),
    ("parting-last-fault-given", &[|set| in_order(set, &[2, 1, 0])]),
    ("parting-level-alone-tested", &[|set| in_order(set, &[0])]),
    ("parting-density-not-tested", &[|set| in_order(set, &[0, 1])]),
    ("parting-temperature-and-density-exchanged", &[|[l, t, d]| in_order([l, d, t], &[0, 1, 2])]),
    ("parting-level-and-temperature-exchanged", &[|[l, t, d]| in_order([t, l, d], &[0, 1, 2])]),
    ("parting-temperature-in-kelvin", &[|set| behind(set, |[l, t, d]| Ok([l, t + 2_732, d]))]),
    ("parting-density-at-20", &[|set| behind(set, |[l, t, d]| Ok([l, t, brought_from_20(d)]))]),
    (
        "parting-refused-where-it-is-out-of-range",
        &[|set| behind(set, |tenths| if tenths[1] > 900 { Err(18) } else { Ok(tenths) })],
    ),
    (
        "parting-level-0-refused-by-16",
        &[|set| behind(set, |tenths| if tenths[0] == 0 { Err(16) } else { Ok(tenths) })],
    ),
];

fn one(way: Way, vector: &Vector) -> Seen {
    match vector.asked {
        Asked::One(Reading::Level(n) | Reading::Temperature(n) | Reading::Density(n)) => {
            way(n).map(|tenths| vec![tenths])
        }
        Asked::Three(_) => panic!("{} is no float alone", vector.name),
    }
}

fn three(way: OfSet, vector: &Vector) -> Seen {
    match vector.asked {
        Asked::Three(Set { level, temperature, density }) => way([level, temperature, density]),
        Asked::One(_) => panic!("{} is no set", vector.name),
    }
}

const FLOATS: [&[(&str, &[Way])]; 6] = [ROUNDING, FLOATING_POINT, TEXT, BITS, OF_31, OF_32];

#[test]
fn every_wrong_way_shows_in_its_vector() {
    for ways in FLOATS {
        turns::shows(ways, rule as Way, one);
    }
    turns::shows(SETS, |set| in_order(set, &[0, 1, 2]), three);
}

/// What floating point, text, 31 or 32 goes wrong with is not every float.
#[test]
fn ways_are_right_elsewhere() {
    for (name, ways) in [FLOATING_POINT, TEXT, OF_31, OF_32].concat() {
        assert!(ways.iter().all(|way| way(60.0) == Ok(600)), "{name}");
    }
}

#[test]
fn every_parting_vector_has_a_wrong_way() {
    let named = |ways: &[(&'static str, &[Way])]| {
        ways.iter().map(|(name, _)| (*name, &[()][..])).collect::<Vec<_>>()
    };
    let mut all: Vec<(&str, &[()])> = FLOATS.into_iter().flat_map(named).collect();
    all.extend(SETS.iter().map(|(name, _)| (*name, &[()][..])));
    turns::has_all::<Vector, ()>(&all, "parting-");
}
