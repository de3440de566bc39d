//! Tables, well formed and damaged.

use reference::rota::Rota;
use reference::table::{DerivedRole, Row, Table};
use reference::{END, rewriting, set};

use super::rota::sizes;
use super::{any_fault, distinct, minute, put, span};
use crate::random::Random;

/// A set that is not empty, of numbers below `limit`, which is not 0.
pub(super) fn some_set(random: &mut Random, limit: u32) -> u64 {
    let numbers = match random.below(3) {
        0 => random.bits(),
        1 => random.bits() & random.bits() & random.bits(),
        _ => 0,
    };
    set::with(numbers & set::below(limit), random.below(limit))
}

/// The rows of one source role, in an order that a reader accepts.
fn role_rows(random: &mut Random, cycle: u16, entries: &[u32], rows: &mut Vec<Row>) {
    let mut edges = Vec::new();
    for _ in 0..random.between(1, 3) {
        let (begin, end) = span(random, cycle);
        edges.extend([begin, end]);
    }
    edges.sort();
    edges.dedup();
    for era in edges.windows(2) {
        if random.one_in(4) {
            continue;
        }
        // Cells may touch or leave gaps.
        let most = (u32::from(cycle) + 1).min(6);
        let cuts_count = random.between(2, most.max(2)) as usize;
        let cuts = distinct(random, cuts_count, u32::from(cycle));
        for cell in cuts.windows(2) {
            if random.one_in(3) {
                continue;
            }
            rows.push(Row {
                derived: random.pick(entries),
                begin: era[0],
                end: era[1],
                offset: cell[0] as u16,
                length: (cell[1] - cell[0]) as u16,
            });
        }
    }
}

/// A well-formed table that no rewriting would make: entries repeat or have no row,
/// numbers follow no order of rows, eras of different roles overlap.
pub fn table(random: &mut Random) -> Table {
    let sizes = sizes(random);
    table_of(random, sizes.cycle, sizes.users, sizes.permissions, sizes.roles, 12)
}

/// A table of at most 4 entries and few rows.
pub fn small_table(random: &mut Random) -> Table {
    loop {
        let cycle = random.between(3, 12) as u16;
        let (users, permissions) = (random.between(1, 4), random.between(1, 3));
        let roles = random.between(1, 3);
        let table = table_of(random, cycle, users, permissions, roles, 4);
        if !table.derived.is_empty() && (2..=8).contains(&table.rows.len()) {
            return table;
        }
    }
}

fn table_of(
    random: &mut Random,
    cycle: u16,
    users: u32,
    permissions: u32,
    roles: u32,
    most_entries: u32,
) -> Table {
    let mut derived = Vec::new();
    let mut rows = Vec::new();
    if users > 0 && permissions > 0 && roles > 0 {
        let mut sources: Vec<u8> =
            (0..random.between(0, most_entries)).map(|_| random.below(roles) as u8).collect();
        sources.sort();
        for &source in &sources {
            let entry = match derived.last() {
                Some(&DerivedRole { source: before, users, permissions })
                    if before == source && random.one_in(3) =>
                {
                    DerivedRole { source, users, permissions }
                }
                _ => DerivedRole {
                    source,
                    users: some_set(random, users),
                    permissions: some_set(random, permissions),
                },
            };
            derived.push(entry);
        }
        sources.dedup();
        for source in sources {
            let entries: Vec<u32> = (0..derived.len() as u32)
                .filter(|&i| derived[i as usize].source == source)
                .collect();
            role_rows(random, cycle, &entries, &mut rows);
        }
    }
    Table {
        cycle,
        users: users as u8,
        permissions: permissions as u8,
        roles: roles as u16,
        derived,
        rows,
    }
}

/// The table of a rota, as it is rewritten, or before rows that touch are joined, as a sender may
/// have it.
pub fn table_of_rota(random: &mut Random, rota: &Rota) -> Table {
    let unjoined = rewriting::unjoined(rota);
    if random.one_in(2) { unjoined } else { rewriting::joined(unjoined) }
}

/// A minute at which a table's answers may change.
pub fn table_minute(random: &mut Random, table: &Table) -> u32 {
    if table.rows.is_empty() {
        return minute(random, table.cycle, &[], &[]);
    }
    let row = random.pick(&table.rows);
    let cuts = [u32::from(row.offset), row.cell_end()];
    minute(random, table.cycle, &[(row.begin, row.end)], &cuts)
}

/// Breaks one rule of a table's bytes, which `table` describes as they were at first.
fn table_fault(random: &mut Random, table: &Table, bytes: &mut Vec<u8>) {
    let (derived, rows) = (table.derived.len() as u64, table.rows.len() as u64);
    match random.below(20) {
        0 => put(bytes, 0, 2, random.pick(&[0, 1, 3, 256, 258, 65_535])),
        1 => {
            let cycle = u64::from(table.cycle);
            put(bytes, 2, 2, random.pick(&[0, 1, 40_320, 40_321, 65_535, cycle - 1, cycle + 1]));
        }
        2 => {
            let users = u64::from(table.users);
            put(bytes, 4, 1, random.pick(&[0, 64, 65, 255, users.saturating_sub(1)]));
        }
        3 => {
            let permissions = u64::from(table.permissions);
            put(bytes, 5, 1, random.pick(&[0, 64, 65, 255, permissions.saturating_sub(1)]));
        }
        4 => {
            let roles = u64::from(table.roles);
            put(bytes, 6, 2, random.pick(&[0, 32, 33, 256, 257, 65_535, roles.saturating_sub(1)]));
        }
        5 => {
            let (derived, rows) = huge_counts(random, derived, rows);
            put(bytes, 8, 4, derived);
            put(bytes, 12, 4, rows);
        }
        6 => put(bytes, 8, 4, random.pick(&[0, derived + 1, 1 << 24, u64::from(u32::MAX)])),
        7 => put(bytes, 12, 4, random.pick(&[0, rows + 1, 1 << 28, u64::from(u32::MAX)])),
        8..=11 if derived > 0 => {
            let i = random.below(derived as u32) as usize;
            let entry = &table.derived[i];
            let at = 16 + 17 * i;
            match random.below(4) {
                0 => {
                    let source = u64::from(entry.source);
                    let roles = u64::from(table.roles);
                    let value = random.pick(&[0, source.saturating_sub(1), roles, 255, roles - 1]);
                    put(bytes, at, 1, value);
                }
                1 => put(bytes, at + 1, 8, other_set(random, entry.users, table.users)),
                2 => put(bytes, at + 9, 8, other_set(random, entry.permissions, table.permissions)),
                _ => {
                    let whole = random.bytes(17);
                    for (k, byte) in whole.into_iter().enumerate() {
                        put(bytes, at + k, 1, byte.into());
                    }
                }
            }
        }
        12..=18 if rows > 0 => {
            let i = random.below(rows as u32) as usize;
            table_row_fault(random, table, i, bytes);
        }
        _ => any_fault(random, bytes),
    }
}

/// A set that is empty, or has a number at or over the limit.
fn other_set(random: &mut Random, numbers: u64, limit: u8) -> u64 {
    let over = set::with(numbers, limit.into());
    random.pick(&[0, over, numbers | 1 << 63, u64::MAX, set::below(limit.into())])
}

fn table_row_fault(random: &mut Random, table: &Table, i: usize, bytes: &mut [u8]) {
    let row = &table.rows[i];
    let at = 16 + 17 * table.derived.len() + 16 * i;
    let (begin, end) = (u64::from(row.begin), u64::from(row.end));
    let (offset, length) = (u64::from(row.offset), u64::from(row.length));
    let max = u64::from(u32::MAX);
    match random.below(10) {
        0 => {
            let derived = table.derived.len() as u64;
            put(bytes, at, 4, random.pick(&[0, derived - 1, derived, 256, max]));
        }
        1 => put(bytes, at + 4, 4, random.pick(&[0, end, end - 1, begin + 1, max])),
        2 => {
            let limit = u64::from(END);
            put(bytes, at + 8, 4, random.pick(&[begin, end + 1, limit, limit + 1, max]));
        }
        3 => put(bytes, at + 12, 2, random.pick(&[0, offset + 1, 40_320, 65_535])),
        4 => put(bytes, at + 14, 2, random.pick(&[0, length + 1, 40_320, 65_535])),
        // In 16 bits these two sums would wrap to 0 and to 1.
        5 => {
            put(bytes, at + 12, 2, 65_535);
            put(bytes, at + 14, 2, random.pick(&[1, 2]));
        }
        // The same as the row before, with the next offset moved about.
        6 | 7 if i > 0 => {
            let before = &table.rows[i - 1];
            let touching = u64::from(before.cell_end());
            put(bytes, at + 4, 4, before.begin.into());
            put(bytes, at + 8, 4, before.end.into());
            put(bytes, at + 12, 2, random.pick(&[touching, touching - 1, touching + 1]));
            put(bytes, at + 14, 2, 1);
        }
        // An era that starts at the end of the one before, or a minute earlier.
        8 if i > 0 => {
            let end = u64::from(table.rows[i - 1].end);
            put(bytes, at + 4, 4, random.pick(&[end, end - 1]));
            put(bytes, at + 8, 4, u64::from(END));
        }
        // Two rows in the other order.
        _ if i > 0 => {
            let here = at..at + 16;
            if here.end <= bytes.len() {
                let (first, second) = bytes.split_at_mut(at);
                first[at - 16..].swap_with_slice(&mut second[..16]);
            }
        }
        _ => put(bytes, at, 8, random.bits()),
    }
}

/// Counts near 2^32, most with a table size that equals that of the true counts in 32 bits.
pub fn huge_counts(random: &mut Random, derived: u64, rows: u64) -> (u64, u64) {
    let max = u64::from(u32::MAX);
    // 16 rows × 2^28 are 2^32 bytes more.
    let rows_more = rows + u64::from(random.between(1, 15)) * (1 << 28);
    // 16 entries have the size of 17 rows: more of the one, fewer of the other.
    let shift = u64::from(random.between(1, 1 << 27));
    let balanced = ((derived + 16 * shift) & max, rows.wrapping_sub(17 * shift) & max);
    let near = max - u64::from(random.below(16));
    let choices =
        [(derived, rows_more), balanced, balanced, (near, near), (near, 0), (0, near), (max, max)];
    let (derived, rows) = random.pick(&choices);
    (derived & max, rows & max)
}

/// The bytes of a table with one or more faults.
pub fn damaged_table(random: &mut Random, table: &Table) -> Vec<u8> {
    let mut bytes = table.encode();
    for _ in 0..random.pick(&[1, 1, 2, 3, 5]) {
        table_fault(random, table, &mut bytes);
    }
    bytes
}
