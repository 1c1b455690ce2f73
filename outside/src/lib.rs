//! The proved code, linked from `target/staticlib/librack.a`, behind safe functions, and the
//! program that is tuned by hand for the benchmark.
//!
//! Each hands back what `include/rack.h` says of it, and takes slices of any length.

pub mod floats;
mod merge;
pub mod probe;
pub mod random;
pub mod slices;
pub mod stick;
pub mod train;
pub mod tuned;

pub use merge::merge_sheets;
pub use probe::{
    permitted_error_probe, reading_tenths, set_tenths, train_enter_probe, work_out_probe,
    PROBE_FIELDS, SET,
};

/// Handed back where a lent slice has not the length that is asked for.
pub const BAD_LENGTH: u32 = 1_000;
/// Handed back where a byte is no letter.
pub const BAD_LETTER: u32 = 1_001;

/// Lengths of lent slices: a line's numbers, readings, readings of the tape, a stick's figures, types and
/// rows of tables, levels and capacities, a car's figures, its given errors, its figures with the
/// permitted error, a train.
pub const FIELDS: usize = 14;
pub const READINGS: usize = 4;
pub const TAPE_READINGS: usize = 20;
pub const STICK: usize = 4;
pub const TABLES: usize = 4;
pub const PLACES: usize = 1_600;
pub const FIGURES: usize = 6;
pub const ERRORS: usize = 6;
pub const PERMITTED: usize = 8;
pub const TRAIN: usize = 266;

/// Places of a train. The totals stand first, in five places each: those of all cars, then those of
/// each grade, from 1 to 4.
pub const TRAIN_ACCEPTED: usize = 0;
pub const TRAIN_GROSS: usize = 1;
pub const TRAIN_GROSS_HIGH: usize = 2;
pub const TRAIN_NET: usize = 3;
pub const TRAIN_NET_HIGH: usize = 4;
/// How many cars it holds, and the first place of each row of sixty: their numbers, grades, and gross
/// and net masses in kg.
pub const TRAIN_HELD: usize = 25;
pub const TRAIN_NUMBERS: usize = 26;
pub const TRAIN_GRADES: usize = 86;
pub const TRAIN_GROSSES: usize = 146;
pub const TRAIN_NETS: usize = 206;

/// Tables handed in: their number, types, rows, and places of levels and capacities.
#[derive(Clone, Copy, Debug)]
pub struct Tables<'a> {
    pub count: u32,
    pub types: &'a [u32],
    pub rows: &'a [u32],
    pub levels: &'a [u32],
    pub capacities: &'a [u32],
}

/// A slice is handed over as its address and its length.
mod exported {
    extern "C" {
        pub fn rack_answer_sheet(
            text: *const u8,
            text_len: usize,
            out: *mut u8,
            out_len: usize,
            number: *mut u32,
        ) -> usize;
        pub fn rack_read_line(
            text: *const u8,
            text_len: usize,
            letter: *mut u8,
            numbers: *mut u32,
            numbers_len: usize,
        ) -> u32;
        pub fn rack_write_line(
            letter: u8,
            numbers: *const u32,
            numbers_len: usize,
            out: *mut u8,
            out_len: usize,
            length: *mut usize,
        ) -> u32;
        pub fn rack_mean_level(
            count: u32,
            readings: *const u32,
            readings_len: usize,
            level: *mut u64,
        ) -> u32;
        pub fn rack_tape_allowance(level: u64, allowance: *mut u32) -> u32;
        pub fn rack_stick_against_tape(
            stick: u64,
            count: u32,
            readings: *const u32,
            readings_len: usize,
            figures: *mut u32,
            figures_len: usize,
        ) -> u32;
        pub fn rack_check_tables(
            count: u32,
            types: *const u32,
            types_len: usize,
            rows: *const u32,
            rows_len: usize,
            levels: *const u32,
            levels_len: usize,
            capacities: *const u32,
            capacities_len: usize,
        ) -> u32;
        pub fn rack_checked_volume(
            count: u32,
            types: *const u32,
            types_len: usize,
            rows: *const u32,
            rows_len: usize,
            levels: *const u32,
            levels_len: usize,
            capacities: *const u32,
            capacities_len: usize,
            car_type: u32,
            level: u64,
            water_level: u32,
            volume: *mut u32,
        ) -> u32;
        pub fn rack_expansion_of(density: u32, expansion: *mut u32) -> u32;
        pub fn rack_factor_of(density: u32, temperature: u32, factor: *mut u64) -> u32;
        pub fn rack_density_at_20(density: u32, density_20: *mut u32) -> u32;
        pub fn rack_density_at_20_of_grade(grade: u32, density: u32, density_20: *mut u32) -> u32;
        pub fn rack_density_at_15(reported: u32, temperature: u32, density: *mut u32) -> u32;
        pub fn rack_oil_share(grade: u32, water: u32, impurities: u32, share: *mut u32) -> u32;
        pub fn rack_oil_share_any_grade(water: u32, impurities: u32, share: *mut u32) -> u32;
        pub fn rack_work_out(
            count: u32,
            types: *const u32,
            types_len: usize,
            rows: *const u32,
            rows_len: usize,
            levels: *const u32,
            levels_len: usize,
            capacities: *const u32,
            capacities_len: usize,
            car: *const u32,
            car_len: usize,
            figures: *mut u32,
            figures_len: usize,
        ) -> u32;
        pub fn rack_permitted_error(
            count: u32,
            types: *const u32,
            types_len: usize,
            rows: *const u32,
            rows_len: usize,
            levels: *const u32,
            levels_len: usize,
            capacities: *const u32,
            capacities_len: usize,
            car: *const u32,
            car_len: usize,
            errors: *const u32,
            errors_len: usize,
            figures: *mut u32,
            figures_len: usize,
        ) -> u32;
        pub fn rack_train_empty(train: *mut u32, train_len: usize) -> u32;
        pub fn rack_train_enter(
            train: *mut u32,
            train_len: usize,
            count: u32,
            types: *const u32,
            types_len: usize,
            rows: *const u32,
            rows_len: usize,
            levels: *const u32,
            levels_len: usize,
            capacities: *const u32,
            capacities_len: usize,
            car: *const u32,
            car_len: usize,
            figures: *mut u32,
            figures_len: usize,
        ) -> u32;
        pub fn rack_train_strike(train: *mut u32, train_len: usize, number: u32) -> u32;
    }
}

// SAFETY of every call below: each slice is valid for its length, and a place that is lent to be
// written is not reachable by any other name during the call.

/// Answers a sheet. Returns the length written to `answer` and the number handed back, in the
/// manner of [`reference::answer_sheet`].
pub fn answer_sheet(sheet: &[u8], answer: &mut [u8]) -> (usize, u32) {
    // No refusal has this number, so that a number that was never written shows.
    let mut number = u32::MAX;
    let length = unsafe {
        exported::rack_answer_sheet(
            sheet.as_ptr(),
            sheet.len(),
            answer.as_mut_ptr(),
            answer.len(),
            &mut number,
        )
    };
    (length, number)
}

pub fn read_line(text: &[u8], letter: &mut u8, numbers: &mut [u32]) -> u32 {
    unsafe {
        exported::rack_read_line(
            text.as_ptr(),
            text.len(),
            letter,
            numbers.as_mut_ptr(),
            numbers.len(),
        )
    }
}

pub fn write_line(letter: u8, numbers: &[u32], out: &mut [u8], length: &mut usize) -> u32 {
    unsafe {
        exported::rack_write_line(
            letter,
            numbers.as_ptr(),
            numbers.len(),
            out.as_mut_ptr(),
            out.len(),
            length,
        )
    }
}

pub fn mean_level(count: u32, readings: &[u32], level: &mut u64) -> u32 {
    unsafe { exported::rack_mean_level(count, readings.as_ptr(), readings.len(), level) }
}

pub fn tape_allowance(level: u64, allowance: &mut u32) -> u32 {
    unsafe { exported::rack_tape_allowance(level, allowance) }
}

pub fn stick_against_tape(stick: u64, count: u32, readings: &[u32], figures: &mut [u32]) -> u32 {
    unsafe {
        exported::rack_stick_against_tape(
            stick,
            count,
            readings.as_ptr(),
            readings.len(),
            figures.as_mut_ptr(),
            figures.len(),
        )
    }
}

pub fn check_tables(tables: Tables) -> u32 {
    unsafe {
        exported::rack_check_tables(
            tables.count,
            tables.types.as_ptr(),
            tables.types.len(),
            tables.rows.as_ptr(),
            tables.rows.len(),
            tables.levels.as_ptr(),
            tables.levels.len(),
            tables.capacities.as_ptr(),
            tables.capacities.len(),
        )
    }
}

pub fn checked_volume(
    tables: Tables,
    car_type: u32,
    level: u64,
    water_level: u32,
    volume: &mut u32,
) -> u32 {
    unsafe {
        exported::rack_checked_volume(
            tables.count,
            tables.types.as_ptr(),
            tables.types.len(),
            tables.rows.as_ptr(),
            tables.rows.len(),
            tables.levels.as_ptr(),
            tables.levels.len(),
            tables.capacities.as_ptr(),
            tables.capacities.len(),
            car_type,
            level,
            water_level,
            volume,
        )
    }
}

pub fn expansion_of(density: u32, expansion: &mut u32) -> u32 {
    unsafe { exported::rack_expansion_of(density, expansion) }
}

pub fn factor_of(density: u32, temperature: u32, factor: &mut u64) -> u32 {
    unsafe { exported::rack_factor_of(density, temperature, factor) }
}

pub fn density_at_20(density: u32, density_20: &mut u32) -> u32 {
    unsafe { exported::rack_density_at_20(density, density_20) }
}

pub fn density_at_20_of_grade(grade: u32, density: u32, density_20: &mut u32) -> u32 {
    unsafe { exported::rack_density_at_20_of_grade(grade, density, density_20) }
}

pub fn density_at_15(reported: u32, temperature: u32, density: &mut u32) -> u32 {
    unsafe { exported::rack_density_at_15(reported, temperature, density) }
}

pub fn oil_share(grade: u32, water: u32, impurities: u32, share: &mut u32) -> u32 {
    unsafe { exported::rack_oil_share(grade, water, impurities, share) }
}

pub fn oil_share_any_grade(water: u32, impurities: u32, share: &mut u32) -> u32 {
    unsafe { exported::rack_oil_share_any_grade(water, impurities, share) }
}

pub fn work_out(tables: Tables, car: &[u32], figures: &mut [u32]) -> u32 {
    unsafe {
        exported::rack_work_out(
            tables.count,
            tables.types.as_ptr(),
            tables.types.len(),
            tables.rows.as_ptr(),
            tables.rows.len(),
            tables.levels.as_ptr(),
            tables.levels.len(),
            tables.capacities.as_ptr(),
            tables.capacities.len(),
            car.as_ptr(),
            car.len(),
            figures.as_mut_ptr(),
            figures.len(),
        )
    }
}

pub fn permitted_error(tables: Tables, car: &[u32], errors: &[u32], figures: &mut [u32]) -> u32 {
    unsafe {
        exported::rack_permitted_error(
            tables.count,
            tables.types.as_ptr(),
            tables.types.len(),
            tables.rows.as_ptr(),
            tables.rows.len(),
            tables.levels.as_ptr(),
            tables.levels.len(),
            tables.capacities.as_ptr(),
            tables.capacities.len(),
            car.as_ptr(),
            car.len(),
            errors.as_ptr(),
            errors.len(),
            figures.as_mut_ptr(),
            figures.len(),
        )
    }
}

pub fn train_empty(train: &mut [u32]) -> u32 {
    unsafe { exported::rack_train_empty(train.as_mut_ptr(), train.len()) }
}

pub fn train_enter(train: &mut [u32], tables: Tables, car: &[u32], figures: &mut [u32]) -> u32 {
    unsafe {
        exported::rack_train_enter(
            train.as_mut_ptr(),
            train.len(),
            tables.count,
            tables.types.as_ptr(),
            tables.types.len(),
            tables.rows.as_ptr(),
            tables.rows.len(),
            tables.levels.as_ptr(),
            tables.levels.len(),
            tables.capacities.as_ptr(),
            tables.capacities.len(),
            car.as_ptr(),
            car.len(),
            figures.as_mut_ptr(),
            figures.len(),
        )
    }
}

pub fn train_strike(train: &mut [u32], number: u32) -> u32 {
    unsafe { exported::rack_train_strike(train.as_mut_ptr(), train.len(), number) }
}
