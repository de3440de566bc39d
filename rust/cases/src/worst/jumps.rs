//! Rotas and tables in which everyone stays open through all 400 years, made to take long for an
//! advance over all of them.

use reference::END;
use reference::hours::{Hours, HoursRef, Pair};
use reference::rota::{ANY_ORDER, Rota, Row};
use reference::table::{self, DerivedRole, Table};

use super::{Cut, most_sets, reference};
use crate::generate::{LIMITS, Sets, fine_rota};
use crate::random::Random;

/// Records 30 and 31 of `turns`.
const TURNS: [u8; 2] = [30, 31];

/// When the hours begin that do not take turns.
#[derive(Clone, Copy, Debug, PartialEq, Eq)]
pub enum Begins {
    /// One after the other, and then all of them end: the most eras.
    Later,
    /// All at minute 0: each of them is there to be used until it ends.
    AtOnce,
}

/// 32 records with 256 pairs and hardly an edge in common: 61 or 31 eras and 512 cells. The last
/// two take turns: each pauses only while the other holds. The others last long and hold for most
/// of the cycle, one within the other.
fn turns(begins: Begins) -> Vec<Hours> {
    const SINGLE: u32 = 30;
    const TURN_PAIRS: usize = 113;
    let last = 2 * LIMITS.pairs;
    let place = |slot: u32| (u32::from(LIMITS.cycle) * slot / last) as u16;
    let pair = |from: u32, to: u32| Pair { offset: place(from), length: place(to) - place(from) };
    let later = if begins == Begins::Later { SINGLE } else { 0 };
    let era = END / (later + SINGLE + 1);
    let (first_slot, last_slot) = (|i: u32| 1 + 8 * i, |i: u32| last - 1 - 8 * i);
    let mut hours: Vec<Hours> = (0..SINGLE)
        .map(|i| Hours {
            begin: if begins == Begins::Later { (i + 1) * era } else { 0 },
            end: (later + SINGLE - i) * era,
            pairs: vec![pair(first_slot(i), last_slot(i))],
        })
        .collect();
    let is_taken =
        |slot: &u32| (0..SINGLE).any(|i| *slot == first_slot(i) || *slot == last_slot(i));
    let free: Vec<u32> = (0..=last).filter(|slot| !is_taken(slot)).collect();
    for from in [0, 2] {
        let pairs = (0..TURN_PAIRS).map(|i| 4 * i + from);
        let pairs = pairs.map(|at| pair(free[at], free[(at + 3).min(free.len() - 1)])).collect();
        hours.push(Hours { begin: 0, end: END, pairs });
    }
    hours
}

/// Everyone is handed from one role to another and back at each turn, and each role has one
/// permission or another. Half of the users, and all roles, have the same by other hours, which are
/// looked at first.
pub fn handed_on(begins: Begins) -> Rota {
    handed_on_by(turns(begins), true)
}

/// The same without other hours: each role has gaps in every cycle.
pub fn handed_on_with_gaps() -> Rota {
    handed_on_by(turns(Begins::Later), false)
}

fn handed_on_by(hours: Vec<Hours>, others: bool) -> Rota {
    let timed = HoursRef::Numbered;
    let other = |i: u32| timed((i % 30) as u8);
    // 8 rows for each user, in the two roles by turns.
    let user_row = |i: u32| {
        let (user, nth) = (i % 64, i / 64);
        let (role, turn) = (2 * (user % 16) + nth % 2, TURNS[nth as usize % 2]);
        let hours = if others && nth < 6 && user < 32 { other(user + nth) } else { timed(turn) };
        Row::new(user as u8, role as u8, hours)
    };
    // 16 rows for each role.
    let permission_row = |i: u32| {
        let (role, nth) = (i % 32, i / 32);
        let hours =
            if others && nth < 14 { other(role + nth) } else { timed(TURNS[nth as usize % 2]) };
        Row::new((role + 2 * nth) as u8 % 64, role as u8, hours)
    };
    Rota {
        format: ANY_ORDER,
        cycle: LIMITS.cycle,
        hours,
        users: LIMITS.users as u8,
        permissions: LIMITS.permissions as u8,
        roles: vec![HoursRef::Always; LIMITS.roles as usize],
        user_rows: (0..LIMITS.user_rows).map(user_row).collect(),
        permission_rows: (0..LIMITS.permission_rows).map(permission_row).collect(),
    }
}

/// Before rows are joined its table has the most that there can be, 1,067,040. Each role has two
/// users of its own, so that all roles count at every minute.
pub fn every_role_counts() -> Rota {
    let row = |i: u32| Row::new((i % 64) as u8, (i % 64 / 2) as u8, HoursRef::Always);
    let fine = fine_rota(&mut Random::new(2), 32, 8, 32, Sets::Same);
    Rota { user_rows: (0..LIMITS.user_rows).map(row).collect(), ..fine }
}

/// Most sets of hours, where everyone has a row for all minutes: the last of their rows. So has
/// each role, among those of its permissions.
pub fn all_stay() -> Cut {
    let mut cut = most_sets();
    for row in cut.user_rows.iter_mut().chain(&mut cut.permission_rows) {
        if row.hours == HoursRef::Always {
            row.hours = HoursRef::Numbered(0);
        }
    }
    for (number, row) in (0..).zip(cut.user_rows.iter_mut().rev().take(64)) {
        *row = Row::new(number, number / 2, HoursRef::Always);
    }
    for (role, row) in (0..).zip(cut.permission_rows.iter_mut().rev().take(32)) {
        *row = Row::new(role, role, HoursRef::Always);
    }
    cut
}

/// A neighbour of a rota: a few rows have other hours, another role or number, records change dates,
/// or a pair begins or ends elsewhere. It is accepted like the rota.
pub fn changed(rota: &Rota, random: &mut Random) -> Rota {
    let mut rota = rota.clone();
    for _ in 0..random.pick(&[1, 1, 2, 4, 16]) {
        change(&mut rota, random);
    }
    rota
}

fn change(rota: &mut Rota, random: &mut Random) {
    let (hours, roles) = (rota.hours.len() as u32, rota.roles.len() as u32);
    let record = random.below(hours) as usize;
    let cycle = rota.cycle;
    match random.below(8) {
        0 => {
            let other = random.below(hours) as usize;
            let (begin, end) = (rota.hours[other].begin, rota.hours[other].end);
            let one = &mut rota.hours[record];
            let (begin, end) = random.pick(&[(begin, one.end), (one.begin, end), (begin, end)]);
            if begin < end {
                (one.begin, one.end) = (begin, end);
            }
        }
        1 | 2 => {
            // Between its neighbours, which it does not touch.
            let pairs = &mut rota.hours[record].pairs;
            let i = random.below(pairs.len() as u32) as usize;
            let low = if i > 0 { pairs[i - 1].end() + 1 } else { 0 };
            let high = pairs.get(i + 1).map_or(cycle.into(), |next| u32::from(next.offset) - 1);
            let (from, to) = (u32::from(pairs[i].offset), pairs[i].end());
            let (from, to) = match random.below(2) {
                0 => (random.between(low, to - 1), to),
                _ => (from, random.between(from + 1, high)),
            };
            pairs[i] = Pair { offset: from as u16, length: (to - from) as u16 };
        }
        kind => {
            let rows = if kind % 2 == 0 { &mut rota.user_rows } else { &mut rota.permission_rows };
            let row = random.below(rows.len() as u32) as usize;
            match random.below(6) {
                0 => rows[row].role = random.below(roles) as u8,
                1 => rows[row].number = random.below(LIMITS.users) as u8,
                _ => rows[row].hours = reference(random, hours),
            }
        }
    }
}

/// All of these rotas by name.
pub fn rotas() -> Vec<(&'static str, Rota)> {
    vec![
        ("handed on, most eras", handed_on(Begins::Later)),
        ("handed on, most ends", handed_on(Begins::AtOnce)),
        ("handed on, with gaps", handed_on_with_gaps()),
        ("every role counts", every_role_counts()),
        ("all stay", all_stay().rota()),
    ]
}

/// Where the rows of a table find their derived roles.
#[derive(Clone, Copy, Debug, PartialEq, Eq)]
pub enum Entries {
    /// Each role has two, which take turns, so that no two rows that touch have the same.
    Few,
    /// Each row has one of its own, in no order.
    Scattered,
}

/// A table that no rewriting makes. Role 0 begins another era with each cycle, so that no cycle
/// can be passed over, up to `end`. Each other role has rows of one minute: for every minute of the cycle, or
/// for every other one, where `by_turns` two roles hand their users to each other and back. Each
/// role, or each two, has users of its own, so that all of them count at every minute.
pub fn every_minute(cycle: u16, by_turns: bool, entries: Entries, end: u32) -> Table {
    let length = u32::from(cycle);
    let entry = |role: u32| {
        let users = if by_turns { 15 << (4 * role.div_ceil(2)) } else { 3 << (2 * role) };
        DerivedRole { source: role as u8, users, permissions: 1 }
    };
    let mut derived = vec![entry(0)];
    let mut rows: Vec<table::Row> = (0..end.div_ceil(length))
        .map(|turn| table::Row {
            derived: 0,
            begin: turn * length,
            end: end.min((turn + 1) * length),
            offset: 0,
            length: cycle,
        })
        .collect();
    let roles = if by_turns { LIMITS.roles - 1 } else { LIMITS.roles };
    for role in 1..roles {
        let first = derived.len() as u32;
        let count = if entries == Entries::Few { 2 } else { length };
        derived.extend((0..count).map(|_| entry(role)));
        let step = if by_turns { 2 } else { 1 };
        rows.extend((role as u16 % step..cycle).step_by(step.into()).map(|offset| table::Row {
            // The step has no divisor in common with the cycle, and is not small.
            derived: first + (u64::from(offset) * 12_289 % u64::from(count)) as u32,
            begin: 0,
            end: END,
            offset,
            length: 1,
        }));
    }
    Table { cycle, users: 64, permissions: 1, roles: roles as u16, derived, rows }
}

/// Such tables within 32 MB, by name.
pub fn tables() -> Vec<(&'static str, Table)> {
    vec![
        ("every minute, short cycle", every_minute(120, false, Entries::Few, END)),
        ("every minute", every_minute(LIMITS.cycle, false, Entries::Few, END)),
        ("every minute, scattered", every_minute(31_000, false, Entries::Scattered, END)),
        ("by turns", every_minute(LIMITS.cycle, true, Entries::Few, END)),
        ("by turns, scattered", every_minute(LIMITS.cycle, true, Entries::Scattered, END)),
    ]
}
