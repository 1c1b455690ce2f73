//! Worked examples of the standards, as far as the roundings of the sheet allow.

use reference::mass;
use reference::rounding::nearest;
use reference::table::{Row, Tables};
use reference::thermal::{self, Density15, Stick, ONE};

fn table(rows: &[(u32, u32)]) -> Tables {
    let mut tables = Tables::new();
    tables.begin(1, rows.len() as u32).unwrap();
    for &(level, capacity) in rows {
        tables.add(Row { level, capacity }).unwrap();
    }
    tables
}

/// GOST R 8.787, annex Д: the car of type 85.
#[test]
fn annex_car() {
    let tables = table(&[(0, 0), (100, 435), (2900, 72_959), (2910, 73_080)]);
    let table = tables.find(1).unwrap();
    // 73,007 dm³ of liquid, 435 dm³ of water.
    assert_eq!(table.capacity(29_040), 7_300_740);
    assert_eq!(table.capacity(1_000), 43_500);

    // 0.0007063 per °C and 937.6 kg/m³ at 52.3 °C.
    let density = Density15(9632);
    assert_eq!(thermal::coefficient(density), 706_284);
    assert_eq!(thermal::exponent(706_284, 373), 268_996_148);
    assert_eq!(thermal::contraction(density, 373), 9_734_589_575);
    assert_eq!(nearest(9632 * 9_734_589_575, ONE), 9376);

    // The annex puts 17 °C for 52.3 °C here; these are the volumes by its formula.
    assert_eq!(thermal::volume_at_temperature(7_257_240, Stick::Steel, 523), 7_268_960);
    assert_eq!(thermal::volume_at_temperature(7_257_240, Stick::Aluminium, 523), 7_271_422);
    assert_eq!(mass::volume_at_15(7_268_960, density, 523), 7_076_034);
    assert_eq!(mass::gross(7_076_034, density), 68_156);
    assert_eq!(mass::net(68_156, 100, 100), 66_793);

    // 66.675 t net of the annex's own 68.036 t gross.
    assert_eq!(mass::net(68_036, 100, 100), 66_675);
}

/// GOST R 8.787, 11.2.3: 70,801 dm³ at 280.6 cm in a car of type 62.
#[test]
fn interpolation() {
    let tables = table(&[(0, 0), (2800, 70_705), (2810, 70_865)]);
    assert_eq!(tables.find(1).unwrap().capacity(28_060), 7_080_100);
}

/// GOST R 8.787, annexes Б and Д: densities measured at a temperature and at 15 °C. Each density
/// at 15 °C, brought to the temperature of the measurement, gives the density measured.
#[test]
fn densities() {
    let printed = [
        (9300, 500, 9540),
        (9400, 500, 9640),
        (9300, 510, 9547),
        (9400, 510, 9647),
        (9330, 503, 9572),
        (9460, 402, 9632),
    ];
    for (measured, temperature, at_15) in printed {
        let contraction = thermal::contraction(Density15(at_15), temperature - 150);
        assert_eq!(nearest(u64::from(at_15) * contraction, ONE), measured);
    }
}

/// GOST 8.346: a lying cylinder of 3,000 mm by 10,300 mm, in rows of 1 cm.
#[test]
fn cylinder() {
    let capacity = |level: u32| {
        let angle = (1.0 - 2.0 * f64::from(level) / 3000.0).acos();
        let volume = 9.0 * 10_300.0 / 4.0 * (angle - (2.0 * angle).sin() / 2.0);
        volume.round() as u32
    };
    let rows: Vec<(u32, u32)> = (0..=300).map(|row| (10 * row, capacity(10 * row))).collect();
    assert_eq!(rows[1..=5].iter().map(|row| row.1).collect::<Vec<_>>(), [24, 67, 123, 190, 265]);
    assert_eq!(rows.iter().map(|row| row.1).sum::<u32>(), 10_957_361);
    let tables = table(&rows);
    let table = tables.find(1).unwrap();
    assert_eq!(table.last_level(), 3000);
    assert_eq!(table.capacity(30_000), 7_280_600);
    assert_eq!(table.capacity(29_950), 7_279_450);
}
