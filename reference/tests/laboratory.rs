//! The density at 15 °C of a laboratory's report: printed densities, the edges of 26 and 27, ties, and
//! every report at every temperature held to the definition.

use reference::laboratory::{density_at_15, Column};
use reference::refusal::Refusal;
use reference::thermal::{contraction, density_at, Density15};

const DENSITIES: std::ops::RangeInclusive<u32> = 9_000..=9_900;
const TEMPERATURES: std::ops::RangeInclusive<u32> = 200..=900;

/// The density field, or the number of the refusal.
fn ask(reported: u32, temperature: u32) -> Result<u32, u32> {
    match density_at_15(reported, temperature) {
        Ok(Density15(density)) => Ok(density),
        Err(refusal) => Err(refusal.number()),
    }
}

/// R(r × E(d) / 10¹⁰) for every r, at a temperature.
fn densities_at(temperature: u32) -> Vec<u32> {
    let at = |r: u32| {
        let twice = 2 * u128::from(r) * u128::from(contraction(Density15(r), temperature - 150));
        ((twice + 10_000_000_000) / 20_000_000_000) as u32
    };
    DENSITIES.map(at).collect()
}

/// Whether an answer is the smallest of the nearest, or 27 where even the nearest differs by more
/// than 1.
fn is_right(densities: &[u32], reported: u32, answer: Result<Density15, Refusal>) -> bool {
    let apart = |density: &u32| density.abs_diff(reported);
    match answer {
        Ok(Density15(density)) => {
            let (below, rest) = densities.split_at((density - 9_000) as usize);
            let least = apart(&rest[0]);
            least <= 1
                && below.iter().all(|other| apart(other) > least)
                && rest.iter().all(|other| apart(other) >= least)
        }
        Err(Refusal::LaboratoryDensity) => densities.iter().all(|other| apart(other) > 1),
        Err(_) => false,
    }
}

#[test]
fn densities_printed_in_the_standard() {
    for (reported, temperature, density) in [
        (9_300, 500, 9_540),
        (9_400, 500, 9_640),
        (9_300, 510, 9_547),
        (9_400, 510, 9_647),
        (9_330, 503, 9_572),
        (9_460, 402, 9_632),
    ] {
        assert_eq!(ask(reported, temperature), Ok(density), "{reported} at {temperature}");
    }
}

#[test]
fn the_edges_at_20_degrees() {
    for (reported, answer) in [
        (8_963, Err(27)),
        (8_964, Ok(9_000)),
        (8_965, Ok(9_000)),
        (8_966, Ok(9_001)),
        (9_865, Ok(9_899)),
        (9_866, Ok(9_900)),
        (9_867, Ok(9_900)),
        (9_868, Err(27)),
    ] {
        assert_eq!(ask(reported, 200), answer, "{reported}");
    }
}

#[test]
fn the_smaller_of_two_that_are_equally_near() {
    assert_eq!([9_207, 9_208].map(|r| density_at(Density15(r), 50)), [9_172, 9_174]);
    assert_eq!(
        [9_172, 9_173, 9_174].map(|reported| ask(reported, 200)),
        [9_207, 9_207, 9_208].map(Ok)
    );
}

#[test]
fn the_lightest_and_the_densest() {
    for (temperature, ends) in [(200, [8_965, 9_866]), (900, [8_472, 9_387])] {
        assert_eq!([9_000, 9_900].map(|r| density_at(Density15(r), temperature - 150)), ends);
        assert_eq!(ends.map(|reported| ask(reported, temperature)), [Ok(9_000), Ok(9_900)]);
    }
}

#[test]
fn a_temperature_out_of_range() {
    for temperature in [0, 20, 149, 150, 199, 901, 65_736, 1 << 31, u32::MAX] {
        for reported in [0, 8_963, 9_300, 9_868, u32::MAX] {
            assert_eq!(ask(reported, temperature), Err(26), "{reported} at {temperature}");
        }
    }
}

#[test]
fn a_density_out_of_range() {
    for temperature in [200, 500, 900] {
        for reported in [0, 930, 8_470, 9_868, 65_536 + 9_300, 1 << 31, u32::MAX - 9_299, u32::MAX]
        {
            assert_eq!(ask(reported, temperature), Err(27), "{reported} at {temperature}");
        }
    }
}

#[test]
fn a_step_of_the_field_is_a_step_of_1_or_2() {
    for temperature in TEMPERATURES {
        for pair in densities_at(temperature).windows(2) {
            assert!([1, 2].contains(&(pair[1] - pair[0])), "{pair:?} at {temperature}");
        }
    }
}

#[test]
fn every_report_at_every_temperature() {
    for temperature in TEMPERATURES {
        let densities = densities_at(temperature);
        let column = Column::at(temperature).unwrap();
        for reported in densities[0] - 9..=densities[900] + 9 {
            let answer = column.look_up(reported);
            assert!(is_right(&densities, reported, answer), "{reported} at {temperature}");
        }
        let reported = densities[temperature as usize % 901];
        assert_eq!(density_at_15(reported, temperature), column.look_up(reported));
    }
}
