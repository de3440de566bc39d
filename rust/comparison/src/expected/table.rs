//! Reading a table, its next use and its board; asking it is as for a rota.

use reference::Refusal;
use reference::table::Table;

use crate::ffi::table::{Board, NextUse, TableRead};

pub use super::rota::{holders, page, question};

pub fn read(table: &Result<Table, Refusal>) -> TableRead {
    match table {
        Ok(table) => TableRead {
            refusal: 0,
            cycle: table.cycle.into(),
            users: table.users.into(),
            permissions: table.permissions.into(),
            roles: table.roles.into(),
            derived: table.derived.len() as u32,
            rows: table.rows.len() as u32,
        },
        Err(refusal) => TableRead { refusal: *refusal, ..TableRead::default() },
    }
}

fn accepted(table: &Result<Table, Refusal>) -> Result<&Table, Refusal> {
    table.as_ref().map_err(|&refusal| refusal)
}

pub fn next_use(table: &Result<Table, Refusal>, user: u32, permission: u32, m: u32) -> NextUse {
    match accepted(table).and_then(|table| table.next_use(user, permission, m)) {
        Ok(None) => NextUse::default(),
        Ok(Some(minute)) => NextUse { refusal: 0, found: 1, minute },
        Err(refusal) => NextUse { refusal, ..NextUse::default() },
    }
}

pub fn board(table: &Result<Table, Refusal>, t: u32) -> Board {
    match accepted(table).and_then(|table| table.board(t)) {
        Ok(board) => Board { refusal: 0, rows: board.rows, rights: board.permissions },
        Err(refusal) => Board { refusal, rows: 0, rights: [0; 64] },
    }
}
