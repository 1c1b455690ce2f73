//! Temperatures that 26 turns away, reports far from every density, and both at once.

use super::{Group, Vector};

/// A report that is accepted from 20 °C to 90 °C.
const SOUND: u32 = 9_300;

pub fn groups() -> Vec<Group<Vector>> {
    vec![
        Group { about: "26: temperatures outside 200 to 900", vectors: of_26() },
        Group { about: "27: reports far from every density", vectors: of_27() },
        Group { about: "26 before 27", vectors: order() },
    ]
}

fn of_26() -> Vec<Vector> {
    let at = |name: &str, temperature| {
        Vector::new(format!("refusal-26-temperature-{name}"), SOUND, temperature)
    };
    vec![
        at("199", 199),
        at("901", 901),
        at("0", 0),
        at("1", 1),
        at("in-whole-degrees", 50),
        at("15-degrees", 150),
        at("below-15-degrees", 149),
        at("in-hundredths", 5_000),
        at("in-16-bits", 65_536 + 500),
        at("2147483648", 1 << 31),
        at("in-31-bits", (1 << 31) + 500),
        at("4294967295", u32::MAX),
    ]
}

fn of_27() -> Vec<Vector> {
    let at = |name: &str, reported| {
        let name = format!("refusal-27-report-{name}");
        [200, 500, 900].map(|temperature| {
            Vector::new(format!("{name}-at-{temperature}"), reported, temperature)
        })
    };
    [
        at("0", 0),
        at("1", 1),
        at("in-whole-kilograms", SOUND / 10),
        at("in-hundredths", 10 * SOUND),
        at("in-16-bits", 65_536 + SOUND),
        // 10¹⁰ times as much, in 64 bits, is about 10¹⁰ times 9,300.
        at("in-64-bits", 1_844_674_407 + SOUND),
        at("2147483648", 1 << 31),
        at("in-31-bits", (1 << 31) + SOUND),
        at("that-is-negative-in-32-bits", u32::MAX - (SOUND - 1)),
        at("4294967294", u32::MAX - 1),
        at("4294967295", u32::MAX),
    ]
    .into_iter()
    .flatten()
    .collect()
}

/// Reports at 199 and 901 lie 2 at least from every density, with E as it is there and as it is at 200
/// and 900. At 4,294,967,295 the six terms make E vast, so that 0 and 4,294,967,295 lie far from all.
fn order() -> Vec<Vector> {
    let at = |reported, temperature| {
        Vector::new(
            format!("order-26-before-27-{reported}-at-{temperature}"),
            reported,
            temperature,
        )
    };
    vec![
        at(0, 199),
        at(8_963, 199),
        at(9_869, 199),
        at(8_469, 901),
        at(9_389, 901),
        at(u32::MAX, 901),
        at(0, 0),
        at(u32::MAX, 0),
        at(0, u32::MAX),
        at(u32::MAX, u32::MAX),
    ]
}
