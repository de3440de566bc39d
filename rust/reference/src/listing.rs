//! The text of a table, and what the listing program prints.

use std::fmt::Write;

use crate::Refusal;
use crate::rewriting::rewrite;
use crate::table::Table;

/// Most bytes that the program takes.
const INPUT_LIMIT: usize = 8_192;
/// Room for the table that it prints.
const AREA_SIZE: usize = 65_536;

/// One line for the table, one for each derived role, one for each row.
pub fn text(table: &Table) -> String {
    let mut out = String::new();
    let mut line = |text: std::fmt::Arguments| writeln!(out, "{text}").expect("a string grows");
    line(format_args!("table {} {} {}", table.cycle, table.derived.len(), table.rows.len()));
    for (number, entry) in table.derived.iter().enumerate() {
        line(format_args!(
            "role {number} {} {:016x} {:016x}",
            entry.source, entry.users, entry.permissions
        ));
    }
    for row in &table.rows {
        line(format_args!(
            "row {} {} {} {} {}",
            row.derived, row.begin, row.end, row.offset, row.length
        ));
    }
    out
}

/// All that the program prints for an input.
pub fn program(input: &[u8]) -> String {
    match rewritten(input) {
        Ok(table) => text(&table),
        Err(number) => format!("refused {number}\n"),
    }
}

fn rewritten(input: &[u8]) -> Result<Table, Refusal> {
    if input.len() > INPUT_LIMIT {
        return Err(9);
    }
    let mut area = vec![0; AREA_SIZE];
    let written = rewrite(input, &mut area)?;
    Table::parse(&area[..written.length])
}
