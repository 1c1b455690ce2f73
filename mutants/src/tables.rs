//! Tables that are handed in without a sheet, as the rewritten copy takes them.

use reference::operations::HandedIn;

use crate::hooks;
use crate::turned::refusal::Refusal;
use crate::turned::table::{Row, Tables};

/// The tables, or refusal 7 or 8; where that is left untested, without the table that gives it.
pub fn turned(handed_in: &[HandedIn]) -> Result<Tables, Refusal> {
    let mut tables = Tables::new();
    for (place, table) in handed_in.iter().enumerate() {
        match add(&mut tables, table) {
            Err(refusal) if hooks::skipped(refusal.number()) => {
                return turned(&[&handed_in[..place], &handed_in[place + 1..]].concat());
            }
            added => added?,
        }
    }
    Ok(tables)
}

fn add(tables: &mut Tables, table: &HandedIn) -> Result<(), Refusal> {
    tables.begin(table.car_type, table.announced)?;
    for row in &table.rows[..table.announced as usize] {
        tables.add(Row { level: row.level, capacity: row.capacity })?;
    }
    Ok(())
}
