//! Rotas and tables in which users are handed on, from hours to hours and from role to role: they
//! hold something throughout, or but for a minute. Cycles and most eras are short.

use std::ops::Range;

use reference::hours::{Hours, HoursRef, Pair};
use reference::rota::{ANY_ORDER, Rota, Row};
use reference::table::{self, DerivedRole, Table};
use reference::{END, set};

use super::table::some_set;
use super::tidy::maybe_tidy;
use super::{LIMITS, distinct, table_of_rota};
use crate::random::Random;

/// Mostly so short that a few cycles can be gone through minute by minute.
fn short_cycle(random: &mut Random) -> u16 {
    match random.below(16) {
        0..=2 => random.between(1, 2) as u16,
        3 => random.pick(&[60, 1_440, 40_320]),
        _ => random.between(3, 12) as u16,
    }
}

/// Dates at which all minutes are cut, with 0 and E: at most so many, near the first minutes, near the last,
/// or anywhere, most of them less than a cycle apart.
fn dates(random: &mut Random, cycle: u16, count: u32) -> Vec<u32> {
    let cycle = u32::from(cycle);
    let anywhere = random.below(END);
    let mut date = random.pick(&[0, 0, END - 8 * cycle, anywhere]);
    let mut dates = vec![0, END];
    for _ in 0..random.between(0, count) {
        let most = if random.one_in(4) { 3 * cycle } else { cycle };
        date += random.between(1, most);
        dates.push(date);
    }
    dates.retain(|&date| date <= END);
    dates.sort();
    dates.dedup();
    dates
}

/// The cycle in a few cells that touch; with a hole, one of them is that minute alone.
fn cells(random: &mut Random, cycle: u16, hole: Option<u16>) -> Vec<Range<u16>> {
    let most = u32::from(cycle).min(5);
    let count = random.between(0, most) as usize;
    let mut cuts = distinct(random, count, u32::from(cycle));
    cuts.extend([0, u32::from(cycle)]);
    cuts.extend(hole.into_iter().flat_map(|hole| [u32::from(hole), u32::from(hole) + 1]));
    cuts.sort();
    cuts.dedup();
    cuts.windows(2).map(|two| two[0] as u16..two[1] as u16).collect()
}

/// The one minute of each cycle at which something is closed: the first, the last, or another.
fn hole(random: &mut Random, cycle: u16) -> Option<u16> {
    let any = random.below(cycle.into()) as u16;
    let is_whole = random.one_in(2);
    (!is_whole).then(|| random.pick(&[0, cycle - 1, any]))
}

/// Hours that take turns in each era, so that some of them hold at each minute. In some rotas not
/// at one minute of the cycle, in all eras or in one; in some not at the first minute of an era.
fn relay_hours(random: &mut Random, cycle: u16) -> Vec<Hours> {
    let (dates, hole) = (dates(random, cycle, 4), hole(random, cycle));
    let mut all = Vec::new();
    let is_late = random.one_in(4);
    let only_era = random.below(2 * dates.len() as u32) as usize;
    for (era, two) in dates.windows(2).enumerate() {
        let begin = if is_late && two[1] - two[0] > 1 { two[0] + 1 } else { two[0] };
        let hole = hole.filter(|_| only_era >= dates.len() || only_era == era);
        // Neighbouring cells are of different records, since the pairs of one do not touch.
        let mut records: [Vec<Pair>; 3] = Default::default();
        let (mut last, turns) = (0, random.between(1, 2));
        for cell in cells(random, cycle, hole) {
            last = (last + random.between(1, turns) as usize) % 3;
            if Some(cell.start) != hole {
                let pair = Pair { offset: cell.start, length: cell.end - cell.start };
                records[last].push(pair);
            }
        }
        for pairs in records.into_iter().filter(|pairs| !pairs.is_empty()) {
            // What lasts longer than its era overlaps the next.
            let longer = if random.one_in(4) { random.below(cycle.into()) } else { 0 };
            all.push(Hours { begin, end: (two[1] + longer).min(END), pairs });
        }
    }
    all
}

/// A rota in which each user has nearly all of the hours, by one role or by several. The hours are
/// those of the users' rows, of the permissions' rows, or of the roles.
pub fn relay_rota(random: &mut Random) -> Rota {
    let cycle = short_cycle(random);
    let hours = relay_hours(random, cycle);
    let (users, permissions) = (random.between(1, 4) as u8, random.between(1, 3) as u8);
    let count = hours.len() as u8;
    let by = random.below(3);
    // A role for each record, or few roles.
    let role_count = if by == 2 { count } else { random.between(1, 3) as u8 };
    let role_of: Vec<u8> = (0..count)
        .map(|record| if by == 2 { record } else { random.below(role_count.into()) as u8 })
        .collect();
    let seldom = random.pick(&[0, 5, 12, 40]);
    let is_dropped = |random: &mut Random| seldom > 0 && random.one_in(seldom);
    let (mut user_rows, mut permission_rows) = (Vec::new(), Vec::new());
    for record in 0..count {
        let (role, given) = (role_of[usize::from(record)], HoursRef::Numbered(record));
        let timed = |is_timed: bool| if is_timed { given } else { HoursRef::Always };
        for user in 0..users {
            if !is_dropped(random) {
                user_rows.push(Row::new(user, role, timed(by == 0)));
            }
        }
        let permission = random.below(permissions.into()) as u8;
        if !is_dropped(random) {
            permission_rows.push(Row::new(permission, role, timed(by == 1)));
        }
    }
    let roles = (0..role_count)
        .map(|role| if by == 2 { HoursRef::Numbered(role) } else { HoursRef::Always })
        .collect();
    let rota = Rota {
        format: ANY_ORDER,
        cycle,
        hours,
        users,
        permissions,
        roles,
        user_rows,
        permission_rows,
    };
    maybe_tidy(random, rota)
}

/// The table of such a rota, with eras of single roles divided further, so that eras of different
/// roles overlap freely; some without a row here and there.
pub fn relay_table(random: &mut Random) -> Table {
    let rota = relay_rota(random);
    let mut table = table_of_rota(random, &rota);
    let source = |row: &table::Row| table.derived[row.derived as usize].source;
    let mut rows: Vec<table::Row> = Vec::new();
    for of_role in table.rows.chunk_by(|a, b| source(a) == source(b)) {
        let dates = dates(random, table.cycle, 6);
        for of_era in of_role.chunk_by(|a, b| a.begin == b.begin) {
            let (first, last) = (of_era[0].begin, of_era[0].end);
            let within = dates.iter().copied().filter(|&date| first < date && date < last);
            let borders: Vec<u32> = [first].into_iter().chain(within).chain([last]).collect();
            for two in borders.windows(2) {
                rows.extend(of_era.iter().map(|row| table::Row {
                    begin: two[0],
                    end: two[1],
                    ..*row
                }));
            }
        }
    }
    let seldom = random.pick(&[0, 0, 20]);
    rows.retain(|_| seldom == 0 || !random.one_in(seldom));
    table.rows = rows;
    table
}

/// A table of roles that have nothing to do with each other: each has eras of its own, and in each
/// of them cells of its own, nearly all with a row, and entries with nearly all users.
pub fn dense_table(random: &mut Random) -> Table {
    let cycle = short_cycle(random);
    let (users, roles) = (random.between(1, 6), random.between(1, 4));
    dense_table_of(random, cycle, users, 1, roles)
}

/// The same with many roles, users and permissions, so that at most minutes several roles give
/// somebody permissions.
pub fn crowded_table(random: &mut Random) -> Table {
    let cycle = short_cycle(random);
    let [users, permissions] = [(); 2].map(|()| random.pick(&[1, 5, 20, 63, 64]));
    let roles = random.pick(&[2, 6, 31, 32]);
    dense_table_of(random, cycle, users, permissions, roles)
}

/// A table whose roles have many rows on average, so that these are searched and not passed. Some
/// roles have few, or none.
pub fn many_rows_table(random: &mut Random) -> Table {
    let cycle = random.pick(&[30, 100, 10_080, 40_320]);
    let [users, permissions] = [(); 2].map(|()| random.pick(&[1, 5, 64]));
    let roles = random.pick(&[1, 2, 5, 32]);
    let (mut derived, mut rows) = (Vec::new(), Vec::new());
    for role in 0..roles {
        let first = derived.len() as u32;
        derived.extend(entries(random, role as u8, users, permissions));
        let cuts = random.pick(&[0, 2, 29, 29, 30]);
        for two in dates(random, cycle, 4).windows(2) {
            for cell in distinct(random, cuts, cycle.into()).windows(2) {
                if random.one_in(8) {
                    continue;
                }
                rows.push(table::Row {
                    derived: random.between(first, derived.len() as u32 - 1),
                    begin: two[0],
                    end: two[1],
                    offset: cell[0] as u16,
                    length: (cell[1] - cell[0]) as u16,
                });
            }
        }
    }
    let (users, permissions) = (users as u8, permissions as u8);
    Table { cycle, users, permissions, roles: roles as u16, derived, rows }
}

/// Some derived roles of a role, with nearly all users.
fn entries(random: &mut Random, source: u8, users: u32, permissions: u32) -> Vec<DerivedRole> {
    let count = random.between(1, 3);
    let entry = |_| {
        let most = (random.bits() | random.bits()) & set::below(users);
        let users = set::with(most, random.below(users));
        let permissions = if permissions == 1 { 1 } else { some_set(random, permissions) };
        DerivedRole { source, users, permissions }
    };
    (0..count).map(entry).collect()
}

fn dense_table_of(
    random: &mut Random,
    cycle: u16,
    users: u32,
    permissions: u32,
    roles: u32,
) -> Table {
    let (mut derived, mut rows) = (Vec::new(), Vec::new());
    for role in 0..roles {
        let first = derived.len() as u32;
        derived.extend(entries(random, role as u8, users, permissions));
        let seldom = random.pick(&[0, 3, 10]);
        for two in dates(random, cycle, 6).windows(2) {
            let hole = hole(random, cycle);
            for cell in cells(random, cycle, hole) {
                if Some(cell.start) == hole || (seldom > 0 && random.one_in(seldom)) {
                    continue;
                }
                rows.push(table::Row {
                    derived: random.between(first, derived.len() as u32 - 1),
                    begin: two[0],
                    end: two[1],
                    offset: cell.start,
                    length: cell.end - cell.start,
                });
            }
        }
    }
    Table {
        cycle,
        users: users as u8,
        permissions: permissions as u8,
        roles: roles as u16,
        derived,
        rows,
    }
}

const _: () = assert!(LIMITS.hours >= 5 * 3 && LIMITS.roles >= 5 * 3);
