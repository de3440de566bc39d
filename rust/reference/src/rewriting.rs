//! Rewriting a rota into a flat table.

use std::collections::HashMap;

use crate::hours::HoursRef;
use crate::rota::{self, Rota};
use crate::set;
use crate::table::{self, DerivedRole, Table};
use crate::{END, Refusal};

/// What a rewriting into an output area gives.
#[derive(Clone, Copy, Debug, PartialEq, Eq)]
pub struct Written {
    pub derived: u32,
    pub rows: u32,
    pub length: usize,
}

impl Written {
    pub fn of(table: &Table) -> Written {
        let (derived, rows) = (table.derived.len() as u32, table.rows.len() as u32);
        Written { derived, rows, length: table::size(derived.into(), rows.into()) as usize }
    }
}

/// Sorts, drops repeats, and gives each two neighbouring values.
fn neighbours(mut values: Vec<u32>) -> Vec<(u32, u32)> {
    values.sort();
    values.dedup();
    values.windows(2).map(|two| (two[0], two[1])).collect()
}

/// The eras, cut by every begin and end, whether the hours are used or not.
pub fn eras(rota: &Rota) -> Vec<(u32, u32)> {
    let cuts = rota.hours.iter().flat_map(|hours| [hours.begin, hours.end]);
    neighbours([0, END].into_iter().chain(cuts).collect())
}

/// The cells, cut by every offset and offset + length.
pub fn cells(rota: &Rota) -> Vec<(u32, u32)> {
    let pairs = rota.hours.iter().flat_map(|hours| &hours.pairs);
    let cuts = pairs.flat_map(|pair| [u32::from(pair.offset), pair.end()]);
    neighbours([0, u32::from(rota.cycle)].into_iter().chain(cuts).collect())
}

/// The first minute of the era whose remainder lies in the cell, if there is one.
pub fn first_minute(cycle: u32, era: (u32, u32), cell: (u32, u32)) -> Option<u32> {
    let phase = era.0 % cycle;
    let wait = if phase < cell.0 {
        cell.0 - phase
    } else if phase < cell.1 {
        0
    } else {
        cycle - phase + cell.0
    };
    let minute = era.0 + wait;
    (minute < era.1).then_some(minute)
}

/// An era with a cell, and which hours hold in it; all its minutes agree.
pub struct Field {
    pub era: (u32, u32),
    pub cell: (u32, u32),
    pub held: u64,
}

/// All fields that have a minute, eras first, then cells.
pub fn fields(rota: &Rota) -> Vec<Field> {
    let cycle = u32::from(rota.cycle);
    let cells = cells(rota);
    let mut fields = Vec::new();
    for era in eras(rota) {
        for &cell in &cells {
            if let Some(t) = first_minute(cycle, era, cell) {
                let held = rota.hours.iter().enumerate().fold(0, |held, (number, hours)| {
                    if hours.hold(cycle, t) { set::with(held, number as u32) } else { held }
                });
                fields.push(Field { era, cell, held });
            }
        }
    }
    fields
}

/// The table of a rota.
pub fn table(rota: &Rota) -> Table {
    joined(unjoined(rota))
}

/// The table with neighbouring rows that touch made one, in runs of any length.
pub fn joined(table: Table) -> Table {
    let mut rows: Vec<table::Row> = Vec::new();
    for row in table.rows {
        match rows.last_mut() {
            Some(before) if touch(before, &row) => before.length += row.length,
            _ => rows.push(row),
        }
    }
    Table { rows, ..table }
}

/// Whether two rows are of one derived role and one era, and the second begins at the phase where
/// the first ends.
pub fn touch(before: &table::Row, row: &table::Row) -> bool {
    before.derived == row.derived
        && (before.begin, before.end) == (row.begin, row.end)
        && before.cell_end() == u32::from(row.offset)
}

/// The table before rows are joined: a row for each field that a role keeps.
pub fn unjoined(rota: &Rota) -> Table {
    let fields = fields(rota);
    let hold = |hours: HoursRef, held: u64| match hours {
        HoursRef::Always => true,
        HoursRef::Numbered(number) => set::has(held, number.into()),
    };
    let mut derived = Vec::new();
    let mut rows = Vec::new();
    for (role, &enabled) in rota.roles.iter().enumerate() {
        let source = role as u8;
        let of_role = |rows: &[rota::Row]| -> Vec<rota::Row> {
            rows.iter().copied().filter(|row| row.role == source).collect()
        };
        let (user_rows, permission_rows) =
            (of_role(&rota.user_rows), of_role(&rota.permission_rows));
        let numbers = |rows: &[rota::Row], held: u64| {
            rows.iter()
                .filter(|row| hold(row.hours, held))
                .fold(0, |numbers, row| set::with(numbers, row.number.into()))
        };
        // Another role never shares a derived role, so each role numbers its own.
        let mut known: HashMap<(u64, u64), u32> = HashMap::new();
        for field in fields.iter().filter(|field| hold(enabled, field.held)) {
            let users = numbers(&user_rows, field.held);
            let permissions = numbers(&permission_rows, field.held);
            if users == 0 || permissions == 0 {
                continue;
            }
            let number = *known.entry((users, permissions)).or_insert_with(|| {
                derived.push(DerivedRole { source, users, permissions });
                derived.len() as u32 - 1
            });
            rows.push(table::Row {
                derived: number,
                begin: field.era.0,
                end: field.era.1,
                offset: field.cell.0 as u16,
                length: (field.cell.1 - field.cell.0) as u16,
            });
        }
    }
    Table {
        cycle: rota.cycle,
        users: rota.users,
        permissions: rota.permissions,
        roles: rota.roles.len() as u16,
        derived,
        rows,
    }
}

/// Rewrites the bytes of a rota into an area; a refusal leaves the area as it was,
/// and so does a success past the length that it gives.
pub fn rewrite(bytes: &[u8], area: &mut [u8]) -> Result<Written, Refusal> {
    let table = table(&Rota::parse(bytes)?);
    let out = table.encode();
    let place = area.get_mut(..out.len()).ok_or(20u32)?;
    place.copy_from_slice(&out);
    Ok(Written::of(&table))
}

/// How large the table of a rota's bytes is; an area has no part in it.
pub fn size(bytes: &[u8]) -> Result<Written, Refusal> {
    Ok(Written::of(&table(&Rota::parse(bytes)?)))
}
