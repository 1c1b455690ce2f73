//! The operations of the portable probe, behind safe functions: readings in tenths, and its car alone, with
//! its permitted error and in a train.

use reference::probe::Set;

use crate::Tables;

/// Numbers of a probe's car beside its set, and tenths of a set.
pub const PROBE_FIELDS: usize = 7;
pub const SET: usize = 3;

/// A slice is handed over as its address and its length.
mod exported {
    extern "C" {
        pub fn rack_reading_tenths(reading: f32, tenths: *mut u32) -> u32;
        pub fn rack_set_tenths(
            level: f32,
            temperature: f32,
            density: f32,
            tenths: *mut u32,
            tenths_len: usize,
        ) -> u32;
        pub fn rack_work_out_probe(
            count: u32,
            types: *const u32,
            types_len: usize,
            rows: *const u32,
            rows_len: usize,
            levels: *const u32,
            levels_len: usize,
            capacities: *const u32,
            capacities_len: usize,
            car: *const u32,
            car_len: usize,
            level: f32,
            temperature: f32,
            density: f32,
            figures: *mut u32,
            figures_len: usize,
        ) -> u32;
        pub fn rack_permitted_error_probe(
            count: u32,
            types: *const u32,
            types_len: usize,
            rows: *const u32,
            rows_len: usize,
            levels: *const u32,
            levels_len: usize,
            capacities: *const u32,
            capacities_len: usize,
            car: *const u32,
            car_len: usize,
            level: f32,
            temperature: f32,
            density: f32,
            errors: *const u32,
            errors_len: usize,
            figures: *mut u32,
            figures_len: usize,
        ) -> u32;
        pub fn rack_train_enter_probe(
            train: *mut u32,
            train_len: usize,
            count: u32,
            types: *const u32,
            types_len: usize,
            rows: *const u32,
            rows_len: usize,
            levels: *const u32,
            levels_len: usize,
            capacities: *const u32,
            capacities_len: usize,
            car: *const u32,
            car_len: usize,
            level: f32,
            temperature: f32,
            density: f32,
            figures: *mut u32,
            figures_len: usize,
        ) -> u32;
    }
}

// SAFETY of every call below: each slice is valid for its length, and a place that is lent to be
// written is not reachable by any other name during the call.

pub fn reading_tenths(reading: f32, tenths: &mut u32) -> u32 {
    unsafe { exported::rack_reading_tenths(reading, tenths) }
}

pub fn set_tenths(set: Set, tenths: &mut [u32]) -> u32 {
    let Set { level, temperature, density } = set;
    unsafe {
        exported::rack_set_tenths(level, temperature, density, tenths.as_mut_ptr(), tenths.len())
    }
}

pub fn work_out_probe(tables: Tables, car: &[u32], set: Set, figures: &mut [u32]) -> u32 {
    unsafe {
        exported::rack_work_out_probe(
            tables.count,
            tables.types.as_ptr(),
            tables.types.len(),
            tables.rows.as_ptr(),
            tables.rows.len(),
            tables.levels.as_ptr(),
            tables.levels.len(),
            tables.capacities.as_ptr(),
            tables.capacities.len(),
            car.as_ptr(),
            car.len(),
            set.level,
            set.temperature,
            set.density,
            figures.as_mut_ptr(),
            figures.len(),
        )
    }
}

pub fn permitted_error_probe(
    tables: Tables,
    car: &[u32],
    set: Set,
    errors: &[u32],
    figures: &mut [u32],
) -> u32 {
    unsafe {
        exported::rack_permitted_error_probe(
            tables.count,
            tables.types.as_ptr(),
            tables.types.len(),
            tables.rows.as_ptr(),
            tables.rows.len(),
            tables.levels.as_ptr(),
            tables.levels.len(),
            tables.capacities.as_ptr(),
            tables.capacities.len(),
            car.as_ptr(),
            car.len(),
            set.level,
            set.temperature,
            set.density,
            errors.as_ptr(),
            errors.len(),
            figures.as_mut_ptr(),
            figures.len(),
        )
    }
}

pub fn train_enter_probe(
    train: &mut [u32],
    tables: Tables,
    car: &[u32],
    set: Set,
    figures: &mut [u32],
) -> u32 {
    unsafe {
        exported::rack_train_enter_probe(
            train.as_mut_ptr(),
            train.len(),
            tables.count,
            tables.types.as_ptr(),
            tables.types.len(),
            tables.rows.as_ptr(),
            tables.rows.len(),
            tables.levels.as_ptr(),
            tables.levels.len(),
            tables.capacities.as_ptr(),
            tables.capacities.len(),
            car.as_ptr(),
            car.len(),
            set.level,
            set.temperature,
            set.density,
            figures.as_mut_ptr(),
            figures.len(),
        )
    }
}
