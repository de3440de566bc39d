//! Rewriting a rota: its whole table, made once, and then what each area gets.

use reference::Refusal;
use reference::rewriting;
use reference::rota::Rota;
use reference::table::Table;

use crate::ffi::rewriting::Rewritten;

/// The table of a rota's bytes, and what it is before rows that touch are joined.
pub struct Whole {
    pub derived: u32,
    pub rows: u32,
    pub bytes: Vec<u8>,
    pub table: Table,
    pub unjoined: Table,
}

pub fn whole(rota: &[u8]) -> Result<Whole, Refusal> {
    let unjoined = rewriting::unjoined(&Rota::parse(rota)?);
    let table = rewriting::joined(unjoined.clone());
    let (derived, rows) = (table.derived.len() as u32, table.rows.len() as u32);
    Ok(Whole { derived, rows, bytes: table.encode(), table, unjoined })
}

fn refused(refusal: Refusal) -> Rewritten {
    Rewritten { refusal, ..Rewritten::default() }
}

/// The rota's refusal, or what the table comes to.
pub fn size(whole: &Result<Whole, Refusal>) -> Rewritten {
    match whole {
        Err(refusal) => refused(*refusal),
        Ok(whole) => Rewritten {
            refusal: 0,
            derived: whole.derived,
            rows: whole.rows,
            length: whole.bytes.len() as u64,
        },
    }
}

/// The rota's refusal, or 20, or the table at the area's start; all other bytes stay.
pub fn rewrite(whole: &Result<Whole, Refusal>, area: &mut [u8]) -> Rewritten {
    if let Ok(Whole { bytes, .. }) = whole {
        match area.get_mut(..bytes.len()) {
            None => return refused(20),
            Some(place) => place.copy_from_slice(bytes),
        }
    }
    size(whole)
}
