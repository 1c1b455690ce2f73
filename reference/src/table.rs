//! Capacity tables: building them row by row, and the capacity at a level (step 2).

use crate::level::{self, in_tenths};
use crate::refusal::Refusal;
use crate::rounding::nearest;

/// Tables of a sheet, at most.
pub const TABLES: usize = 4;
/// Rows of a table, at most.
pub const ROWS: usize = 400;

const TYPES: std::ops::RangeInclusive<u32> = 1..=9_999;
const ROW_COUNTS: std::ops::RangeInclusive<u32> = 2..=ROWS as u32;
const LARGEST_CAPACITY: u32 = 200_000;

/// A row: level in mm, capacity in dm³ at 20 °C.
#[derive(Clone, Copy, Debug, Default, PartialEq, Eq)]
pub struct Row {
    pub level: u32,
    pub capacity: u32,
}

/// The type of a table and the places of its rows.
#[derive(Clone, Copy, Debug, Default)]
struct Head {
    car_type: u32,
    start: usize,
    end: usize,
}

/// Up to four tables. The rows of all of them stand one after another.
#[derive(Clone, Debug)]
pub struct Tables {
    heads: [Head; TABLES],
    rows: [Row; TABLES * ROWS],
    tables: usize,
}

impl Default for Tables {
    fn default() -> Self {
        Self::new()
    }
}

impl Tables {
    /// No tables.
    pub const fn new() -> Self {
        Self {
            heads: [Head { car_type: 0, start: 0, end: 0 }; TABLES],
            rows: [Row { level: 0, capacity: 0 }; TABLES * ROWS],
            tables: 0,
        }
    }

    /// How many tables there are.
    pub fn count(&self) -> usize {
        self.tables
    }

    /// The types of the tables, in their order.
    pub fn types(&self) -> impl Iterator<Item = u32> + '_ {
        self.heads[..self.tables].iter().map(|head| head.car_type)
    }

    /// Begins a table, to which that many rows are to be added.
    pub fn begin(&mut self, car_type: u32, rows: u32) -> Result<(), Refusal> {
        let taken = self.find(car_type).is_some();
        let full = self.tables == TABLES;
        if !TYPES.contains(&car_type) || taken || !ROW_COUNTS.contains(&rows) || full {
            return Err(Refusal::TableHead);
        }
        let start = self.tables.checked_sub(1).map_or(0, |last| self.heads[last].end);
        self.heads[self.tables] = Head { car_type, start, end: start };
        self.tables += 1;
        Ok(())
    }

    /// Adds a row to the table begun last.
    ///
    /// # Panics
    ///
    /// If no table was begun, or if rows are added past the room of all tables.
    pub fn add(&mut self, row: Row) -> Result<(), Refusal> {
        let Head { start, end, .. } = &mut self.heads[self.tables - 1];
        let in_order = match self.rows[*start..*end].last() {
            None => row == Row { level: 0, capacity: 0 },
            Some(before) => row.level > before.level && row.capacity > before.capacity,
        };
        if !in_order || row.level > level::HIGHEST || row.capacity > LARGEST_CAPACITY {
            return Err(Refusal::TableRow);
        }
        self.rows[*end] = row;
        *end += 1;
        Ok(())
    }

    /// The table of a type.
    pub fn find(&self, car_type: u32) -> Option<Table<'_>> {
        self.heads[..self.tables]
            .iter()
            .find(|head| head.car_type == car_type)
            .map(|head| Table { rows: &self.rows[head.start..head.end] })
    }
}

/// One table, its rows rising from 0 and 0.
#[derive(Clone, Copy, Debug)]
pub struct Table<'a> {
    rows: &'a [Row],
}

impl<'a> Table<'a> {
    /// The rows, from 0 and 0 on.
    pub fn rows(&self) -> &'a [Row] {
        self.rows
    }

    /// The level of the last row, in mm.
    pub fn last_level(&self) -> u32 {
        self.rows.last().map_or(0, |row| row.level)
    }

    /// The capacity at a level in 0.1 mm that the table reaches, linear between rows, in 0.01 dm³.
    ///
    /// # Panics
    ///
    /// If the table does not reach the level.
    pub fn capacity(&self, level: u64) -> u64 {
        let above = self.place(level);
        let upper = self.rows[above];
        if in_tenths(upper.level) == level {
            return 100 * u64::from(upper.capacity);
        }
        let lower = self.rows[above - 1];
        let rise = u64::from(upper.capacity - lower.capacity) * (level - in_tenths(lower.level));
        100 * u64::from(lower.capacity) + nearest(100 * rise, in_tenths(upper.level - lower.level))
    }

    /// The steps of level, in mm, and capacity, in dm³, between the rows around a level in 0.1 mm
    /// that the table reaches; on a row, from the row below it.
    ///
    /// # Panics
    ///
    /// If the level is 0, or the table does not reach it.
    pub fn steps(&self, level: u64) -> Row {
        let place = self.place(level);
        let (low, high) = (self.rows[place - 1], self.rows[place]);
        let level = high.level - low.level;
        let capacity = high.capacity - low.capacity;
        Row { level, capacity }
    }

    /// The place of the first row that reaches a level in 0.1 mm, or one past the last.
    fn place(&self, level: u64) -> usize {
        self.rows.partition_point(|row| in_tenths(row.level) < level)
    }
}
