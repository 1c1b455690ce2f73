//! Ways from a probe's float to tenths that are not the rule's, for the tests that take wrong ways. Ten,
//! a hundred and more times a float of 32 bits is a float of 64 without loss.

use reference::probe::Reading;
use reference::refusal::Refusal;

/// The tenths, or the number of the refusal.
pub type Tenths = Result<u64, u32>;

/// A way to take a float.
pub type Way = fn(f32) -> Tenths;

pub fn rule(float: f32) -> Tenths {
    Reading::Level(float).tenths().map(u64::from).map_err(Refusal::number)
}

/// Ten times a float.
pub fn tenfold(float: f32) -> f64 {
    10.0 * f64::from(float)
}

/// These tenths where the rule has any.
pub fn sound(float: f32, tenths: f64) -> Tenths {
    rule(float)?;
    limited(tenths)
}

pub fn limited(tenths: f64) -> Tenths {
    if tenths > 99_999_999.0 {
        Err(32)
    } else {
        Ok(tenths as u64)
    }
}

pub fn cut(float: f32) -> Tenths {
    sound(float, tenfold(float).floor())
}

pub fn rounded_up(float: f32) -> Tenths {
    sound(float, tenfold(float).ceil())
}

pub fn half_to_even(float: f32) -> Tenths {
    sound(float, tenfold(float).round_ties_even())
}

pub fn half_down(float: f32) -> Tenths {
    sound(float, (tenfold(float) - 0.5).ceil())
}

pub fn to_whole(float: f32) -> Tenths {
    sound(float, tenfold(float.round()))
}

pub fn cut_to_whole(float: f32) -> Tenths {
    sound(float, tenfold(float.floor()))
}

pub fn up_to_whole(float: f32) -> Tenths {
    sound(float, tenfold(float.ceil()))
}

pub fn not_times_ten(float: f32) -> Tenths {
    sound(float, f64::from(float).round())
}

pub fn in_hundredths(float: f32) -> Tenths {
    sound(float, (10.0 * tenfold(float)).round())
}

pub fn product_rounded(float: f32) -> Tenths {
    sound(float, (10.0 * float).round().into())
}

pub fn minus_zero_refused(float: f32) -> Tenths {
    if float.is_sign_negative() {
        return Err(31);
    }
    rule(float)
}

pub fn negative_as_0(float: f32) -> Tenths {
    if float < 0.0 {
        return Ok(0);
    }
    rule(float)
}

pub fn limit_of_3600(float: f32) -> Tenths {
    if float > 3_600.0 {
        return rule(float).and(Err(32));
    }
    rule(float)
}

/// The shortest decimal that tells the float.
pub fn shortest_text(float: f32) -> Tenths {
    rule(float)?;
    Ok(of_text(&format!("{float:e}")))
}

/// The tenths of a decimal with an exponent.
pub fn of_text(text: &str) -> u64 {
    let (decimal, exponent) = text.split_once('e').expect("an exponent");
    let (units, fraction) = decimal.split_once('.').unwrap_or((decimal, ""));
    let digits: u128 = format!("{units}{fraction}").parse().expect("digits");
    let power = exponent.parse::<i32>().expect("a number") - fraction.len() as i32 + 1;
    let tens = 10_u128.pow(power.unsigned_abs().min(30));
    let tenths = if power < 0 { (digits + tens / 2) / tens } else { digits * tens };
    tenths as u64
}
