//! One dipped car worked out alone by the proved code and the reference.

use std::hint::black_box;

use outside::slices::Slices;
use outside::{FIELDS, FIGURES};
use reference::car::{Car, Figures};
use reference::operations::{self, HandedIn};

use crate::{calls, given};

/// Prints a line for each car.
pub fn compare_all() {
    calls::head(
        "Nanoseconds for one dipped car worked out alone, whose tables are tested in each call.",
        ["car", "answer"],
    );
    let (small, own) = (given::small_table(), given::car(1));
    // more water and impurities than 20 accepts of grade 1, then as much as it does, in 0.01 %
    let impure = Car { grade: 1, ..own };
    let pure = Car { water: 30, impurities: 10, ..impure };
    compare("grade 3, small table", &small, own);
    compare("grade 1, small table", &small, pure);
    compare("refused at its water level, 1,500 mm", &small, Car { water_level: 1_500, ..own });
    compare("grade 1, refused at its water", &small, impure);
    let last = Car { car_type: 4, ..own };
    compare("grade 3, four full, on the last", &given::four_full_tables(), last);
}

/// Prints the line of a car.
fn compare(name: &str, tables: &[HandedIn], car: Car) {
    let (slices, fields) = (Slices::new(tables), <[u32; FIELDS]>::from(car));
    let mut figures = [0; FIGURES];
    let answer = outside::work_out(slices.lent(), &fields, &mut figures);
    let expected = operations::work_out(tables, &car);
    let handed = (calls::number(&expected), expected.map_or([0; FIGURES], numbers));
    assert_eq!((answer, figures), handed, "{name}: answers differ");
    calls::line(
        name,
        answer,
        &mut || {
            let (tables, fields) = black_box((slices.lent(), &fields));
            black_box(outside::work_out(tables, fields, black_box(&mut figures)));
        },
        &mut || {
            let (tables, car) = black_box((tables, &car));
            black_box(operations::work_out(tables, car)).ok();
        },
    );
}

/// Figures as the proved code writes them.
pub fn numbers(figures: Figures) -> [u32; FIGURES] {
    let Figures { number, level, volume, volume_at_15, gross, net } = figures;
    [number, level, volume, volume_at_15, gross, net]
}
