//! Single operations: the figures of the rack card, the refusals of each in their order.

use reference::car::Car;
use reference::operations::{self, HandedIn};
use reference::refusal::Refusal;
use reference::table::Row;
use reference::thermal::Density20;
use reference::train::Train;

/// The table of the paper's sheet.
fn tables() -> Vec<HandedIn> {
    let rows = [(0, 0), (1_000, 20_000), (2_000, 50_000), (3_000, 70_000)];
    let rows = rows.map(|(level, capacity)| Row { level, capacity }).to_vec();
    vec![HandedIn { car_type: 1, announced: 4, rows }]
}

#[test]
fn the_card() {
    assert_eq!(operations::coefficient(9_500), Ok(718_937));
    assert_eq!(operations::contraction(9_500, 600), Ok(9_673_552_332));
    assert_eq!(operations::density_at_20(9_500), Ok(Density20(9_466)));
    assert_eq!(operations::density_at_20_of_grade(1, 9_584), Ok(Density20(9_550)));
    assert_eq!(operations::density_at_20_of_grade(1, 9_585), Err(Refusal::Density20));
    assert_eq!(operations::volume(&tables(), 1, 10, 0), Ok(2_000));
    assert_eq!(operations::volume(&tables(), 1, 30_000, 0), Ok(7_000_000));
    assert_eq!(operations::volume(&tables(), 1, 30_001, 0), Err(Refusal::Level));
}

#[test]
fn the_first_refusal_in_the_listed_order() {
    assert_eq!(operations::contraction(8_999, 199), Err(Refusal::Temperature));
    assert_eq!(operations::contraction(8_999, 900), Err(Refusal::Density15));
    assert_eq!(operations::density_at_20_of_grade(0, 0), Err(Refusal::GradeOrStick));
    assert_eq!(operations::density_at_20_of_grade(4, 9_901), Err(Refusal::Density15));
    assert_eq!(operations::oil_share_of_grade(5, 101, 0), Err(Refusal::GradeOrStick));
    assert_eq!(operations::oil_share_of_grade(2, 30, 13), Err(Refusal::WaterOrImpurities));
    assert_eq!(operations::oil_share_of_grade(2, 30, 12), Ok(9_958));
    assert_eq!(operations::oil_share(100, 100), Ok(9_800));
    assert_eq!(operations::oil_share(0, 101), Err(Refusal::WaterOrImpurities));
    assert_eq!(operations::volume(&tables(), 2, 0, 9), Err(Refusal::Type));
    assert_eq!(operations::volume(&tables(), 1, 0, 9), Err(Refusal::Level));
    assert_eq!(operations::volume(&tables(), 1, 90, 9), Err(Refusal::WaterLevel));
}

#[test]
fn tables_line_by_line() {
    let five: Vec<HandedIn> =
        (1..=5).map(|car_type| HandedIn { car_type, ..tables()[0].clone() }).collect();
    assert!(operations::check_tables(&five[..4]).is_ok());
    assert_eq!(operations::check_tables(&five).unwrap_err(), Refusal::TableHead);
    let mut two = five[..2].to_vec();
    two[0].rows[3].level = 2_000;
    two[1].car_type = 1;
    assert_eq!(operations::check_tables(&two).unwrap_err(), Refusal::TableRow);
    let car = Car::default();
    assert_eq!(operations::work_out(&two, &car), Err(Refusal::TableRow));
    assert_eq!(operations::enter(&mut Train::default(), &two, &car), Err(Refusal::TableRow));
}

#[test]
fn one_line_written_and_read() {
    let mut buffer = [b'.'; 21];
    assert_eq!(operations::write_line(&mut buffer, b'R', &[0, 99_999_999]), Some(20));
    assert_eq!(&buffer, b"R        0 99999999\n.");
    assert_eq!(operations::read_line(&buffer), Ok((b'R', vec![0, 99_999_999])));
    assert_eq!(operations::write_line(&mut buffer[..19], b'X', &[1, 2]), None);
    assert_eq!(operations::write_line(&mut buffer, b'X', &[1, 100_000_000]), None);
    assert_eq!(&buffer, b"R        0 99999999\n.");
    for (text, refusal) in [
        (&b""[..], Refusal::LineMissing),
        (b"A", Refusal::LineMissing),
        (b"G", Refusal::LineMissing),
        (b"\n", Refusal::Letter),
        (b"A        1\n", Refusal::Letter),
        (b"G        1\n", Refusal::Letter),
        (b"E       1\n", Refusal::LineLength),
        (b"E       01\n", Refusal::Field),
    ] {
        assert_eq!(operations::read_line(text), Err(refusal));
    }
}

#[test]
fn a_grade_s_line_is_written_and_not_read() {
    let mut buffer = [b'.'; 39];
    assert_eq!(operations::fields(b'G'), Some(4));
    assert_eq!(operations::write_line(&mut buffer[..37], b'G', &[3, 1, 32_229, 32_003]), None);
    assert_eq!(operations::write_line(&mut buffer, b'G', &[3, 1, 32_229, 100_000_000]), None);
    assert_eq!(buffer, [b'.'; 39]);
    assert_eq!(operations::write_line(&mut buffer, b'G', &[3, 1, 32_229, 32_003]), Some(38));
    assert_eq!(&buffer, b"G        3        1    32229    32003\n.");
    assert_eq!(operations::read_line(&buffer), Err(Refusal::Letter));
}
