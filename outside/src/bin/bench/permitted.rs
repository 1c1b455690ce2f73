//! The permitted error of one car by the proved code and the reference.

use std::hint::black_box;

use outside::slices::Slices;
use outside::{ERRORS, FIELDS, PERMITTED};
use reference::car::Car;
use reference::operations::{self, HandedIn};
use reference::permitted::Errors;

use crate::{calls, given};

/// Errors that a permitted one is worked out with.
pub const GIVEN: [u32; ERRORS] = [5_000, 1_600, 500, 5, 5, 30];

/// Prints a line for a small table and for four full ones.
pub fn compare_all() {
    calls::head(
        "Nanoseconds for the permitted error of one car, whose tables are tested in each call.",
        ["tables", "rows"],
    );
    let own = given::car(1);
    compare("small, the rules' own", &given::small_table(), own);
    let last = Car { car_type: 4, ..own };
    compare("four full ones, the car on the last", &given::four_full_tables(), last);
}

/// Prints the line of a car that is accepted.
fn compare(name: &str, tables: &[HandedIn], car: Car) {
    let (slices, fields) = (Slices::new(tables), <[u32; FIELDS]>::from(car));
    let errors = Errors::from(GIVEN);
    let mut figures = [0; PERMITTED];
    assert_eq!(outside::permitted_error(slices.lent(), &fields, &GIVEN, &mut figures), 0);
    let expected = operations::permitted_error(tables, &car, &errors).expect("an accepted car");
    assert_eq!(u64::from(figures[6]), expected.limit, "{name}: answers differ");

    let rows: usize = tables.iter().map(|table| table.rows.len()).sum();
    calls::line(
        name,
        rows,
        &mut || {
            let (tables, fields) = (black_box(slices.lent()), black_box(&fields));
            black_box(outside::permitted_error(tables, fields, &GIVEN, black_box(&mut figures)));
        },
        &mut || {
            let (tables, car) = (black_box(tables), black_box(&car));
            black_box(operations::permitted_error(tables, car, black_box(&errors))).ok();
        },
    );
}
