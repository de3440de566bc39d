//! Rotas, well formed and damaged.

use reference::hours::{Hours, HoursRef};
use reference::rota::{ANY_ORDER, Rota, Row};

use super::tidy::{maybe_tidy, order_fault};
use super::{any_fault, count, cycle, hours, hours_fault, minute, put, room};
use crate::random::Random;

/// How much of each part a rota is to have.
#[derive(Clone, Copy, Debug)]
pub struct Sizes {
    pub cycle: u16,
    pub hours: u32,
    /// Pairs of all records together; fewer where the cycle has no room.
    pub pairs: u32,
    pub users: u32,
    pub permissions: u32,
    pub roles: u32,
    /// Rows exist only where there are users (or permissions) and roles.
    pub user_rows: u32,
    pub permission_rows: u32,
}

/// Everything at its limit.
pub const LIMITS: Sizes = Sizes {
    cycle: 40_320,
    hours: 32,
    pairs: 256,
    users: 64,
    permissions: 64,
    roles: 32,
    user_rows: 512,
    permission_rows: 512,
};

fn hours_ref(random: &mut Random, count: usize) -> HoursRef {
    if count == 0 || random.one_in(3) {
        HoursRef::Always
    } else {
        HoursRef::Numbered(random.below(count as u32) as u8)
    }
}

/// A random well-formed rota of those sizes, in format 1.
pub fn rota_of(random: &mut Random, sizes: &Sizes) -> Rota {
    let mut left = sizes.pairs;
    let mut all_hours = Vec::new();
    for i in 0..sizes.hours {
        // Keep one pair for each record to come; the last record takes what is left.
        let to_come = sizes.hours - i - 1;
        let most = left.saturating_sub(to_come).min(room(sizes.cycle)).max(1);
        let share = (2 * left / (to_come + 1)).clamp(1, most);
        let pairs = if to_come == 0 { most } else { random.between(1, share) };
        left = left.saturating_sub(pairs);
        all_hours.push(hours(random, sizes.cycle, pairs));
    }
    let roles: Vec<HoursRef> =
        (0..sizes.roles).map(|_| hours_ref(random, all_hours.len())).collect();
    let mut rows = |numbers: u32, rows: u32| -> Vec<Row> {
        let rows = if numbers == 0 || sizes.roles == 0 { 0 } else { rows };
        (0..rows)
            .map(|_| Row {
                number: random.below(numbers) as u8,
                role: random.below(sizes.roles) as u8,
                hours: hours_ref(random, all_hours.len()),
            })
            .collect()
    };
    let mut user_rows = rows(sizes.users, sizes.user_rows);
    let permission_rows = rows(sizes.permissions, sizes.permission_rows);
    // Rows may repeat.
    if user_rows.len() > 1 && random.one_in(4) {
        user_rows[0] = *user_rows.last().expect("two rows");
    }
    Rota {
        format: ANY_ORDER,
        cycle: sizes.cycle,
        hours: all_hours,
        users: sizes.users as u8,
        permissions: sizes.permissions as u8,
        roles,
        user_rows,
        permission_rows,
    }
}

/// Random sizes, each count at either limit often enough.
pub fn sizes(random: &mut Random) -> Sizes {
    let hours = count(random, 32);
    Sizes {
        cycle: cycle(random),
        hours,
        pairs: if random.one_in(8) { 256 } else { random.between(hours, (4 * hours).min(256)) },
        users: count(random, 64),
        permissions: count(random, 64),
        roles: count(random, 32),
        user_rows: count(random, 512),
        permission_rows: count(random, 512),
    }
}

/// A rota of any size, in either format.
pub fn rota(random: &mut Random) -> Rota {
    let sizes = sizes(random);
    let rota = rota_of(random, &sizes);
    maybe_tidy(random, rota)
}

/// A rota of any size with at least one of everything and several rows for each role, so that
/// most of them grant something.
pub fn granting_rota(random: &mut Random) -> Rota {
    let sizes = sizes(random);
    let roles = if random.one_in(4) { sizes.roles.max(1) } else { random.between(1, 3) };
    let hours = sizes.hours.max(1);
    let sizes = Sizes {
        hours,
        pairs: sizes.pairs.max(hours),
        users: sizes.users.max(1),
        permissions: sizes.permissions.max(1),
        roles,
        user_rows: sizes.user_rows.max(3 * roles),
        permission_rows: sizes.permission_rows.max(3 * roles),
        ..sizes
    };
    let rota = rota_of(random, &sizes);
    maybe_tidy(random, rota)
}

/// A rota with few of everything, and at least one of everything.
pub fn small_rota(random: &mut Random) -> Rota {
    let hours = random.between(1, 3);
    let sizes = Sizes {
        cycle: random.between(3, 12) as u16,
        hours,
        pairs: hours + random.below(3),
        users: random.between(1, 4),
        permissions: random.between(1, 3),
        roles: random.between(1, 3),
        user_rows: random.between(1, 5),
        permission_rows: random.between(1, 4),
    };
    let rota = rota_of(random, &sizes);
    maybe_tidy(random, rota)
}

/// The rota with one to three more hours records that nothing refers to, where there is room.
pub fn with_unused_hours(random: &mut Random, rota: &Rota) -> Rota {
    let mut rota = rota.clone();
    let mut pairs: usize = rota.hours.iter().map(|hours| hours.pairs.len()).sum();
    for _ in 0..random.between(1, 3) {
        if rota.hours.len() < LIMITS.hours as usize && pairs < LIMITS.pairs as usize {
            let most = room(rota.cycle).min(LIMITS.pairs - pairs as u32).min(4);
            let more = random.between(1, most);
            pairs += more as usize;
            rota.hours.push(hours(random, rota.cycle, more));
        }
    }
    rota
}

/// A small rota in which rows touch often: most of its hours do nothing but cut, and last for no
/// longer than a cycle, so that eras leave cells out.
pub fn touching_rota(random: &mut Random) -> Rota {
    let mut rota = small_rota(random);
    let cycle = rota.cycle;
    for _ in 0..random.between(1, 4) {
        let pairs = random.between(1, room(cycle).min(3));
        let begin = random.below(3 * u32::from(cycle));
        let end = begin + random.between(1, cycle.into());
        rota.hours.push(Hours { begin, end, ..hours(random, cycle, pairs) });
    }
    rota
}

/// Sizes at the limits with one or more counts 0 or the cycle 1; `which` is a set of bits.
pub fn edge_sizes(which: u32) -> Sizes {
    let zero = |bit: u32, value: u32| if which & (1 << bit) != 0 { 0 } else { value };
    Sizes {
        cycle: if which & 1 != 0 { 1 } else { LIMITS.cycle },
        hours: zero(1, LIMITS.hours),
        pairs: LIMITS.pairs,
        users: zero(2, LIMITS.users),
        permissions: zero(3, LIMITS.permissions),
        roles: zero(4, LIMITS.roles),
        user_rows: zero(5, LIMITS.user_rows),
        permission_rows: zero(6, LIMITS.permission_rows),
    }
}

/// How many values `edge_sizes` takes.
pub const EDGE_SIZES: u32 = 1 << 7;

/// A minute at which a rota's answers may change.
pub fn rota_minute(random: &mut Random, rota: &Rota) -> u32 {
    let spans: Vec<(u32, u32)> = rota.hours.iter().map(|hours| (hours.begin, hours.end)).collect();
    let pairs = rota.hours.iter().flat_map(|hours| &hours.pairs);
    let cuts: Vec<u32> = pairs.flat_map(|pair| [u32::from(pair.offset), pair.end()]).collect();
    minute(random, rota.cycle, &spans, &cuts)
}

/// Where the roles of a rota's bytes begin, its user rows and its permission rows.
pub(super) fn places(rota: &Rota) -> [usize; 3] {
    let roles_at = 12 + rota.hours.iter().map(Hours::size).sum::<usize>();
    let user_rows_at = roles_at + rota.roles.len();
    [roles_at, user_rows_at, user_rows_at + 3 * rota.user_rows.len()]
}

/// Breaks one rule of a rota's bytes, which `rota` describes as they were at first.
fn rota_fault(random: &mut Random, rota: &Rota, bytes: &mut Vec<u8>) {
    let mut starts = Vec::new();
    let mut at = 12;
    for record in &rota.hours {
        starts.push(at);
        at += record.size();
    }
    let [roles_at, user_rows_at, permission_rows_at] = places(rota);
    let hours = rota.hours.len() as u64;
    let near = |random: &mut Random, value: usize, limit: u64| {
        let value = value as u64;
        random.pick(&[0, value + 1, value.saturating_sub(1), limit, limit + 1, 255])
    };
    match random.below(24) {
        // 1 and 3 are the other format; in 8 bits 257 would wrap to 1, and 259 to 3.
        0 => put(bytes, 0, 2, random.pick(&[0, 1, 2, 3, 3, 4, 256, 257, 259, 65_535])),
        1 => {
            let cycle = u64::from(rota.cycle);
            put(bytes, 2, 2, random.pick(&[0, 1, 40_320, 40_321, 65_535, cycle - 1, cycle + 1]));
        }
        2 => put(bytes, 4, 1, near(random, rota.hours.len(), 32)),
        3 => put(bytes, 5, 1, near(random, rota.users.into(), 64)),
        4 => put(bytes, 6, 1, near(random, rota.permissions.into(), 64)),
        5 => put(bytes, 7, 1, near(random, rota.roles.len(), 32)),
        6 => put(bytes, 8, 2, near(random, rota.user_rows.len(), 512)),
        7 => put(bytes, 10, 2, near(random, rota.permission_rows.len(), 512)),
        8..=13 if hours > 0 => {
            let i = random.below(hours as u32) as usize;
            hours_fault(random, &rota.hours[i], starts[i], bytes);
        }
        14 if !rota.roles.is_empty() => {
            let at = roles_at + random.below(rota.roles.len() as u32) as usize;
            put(bytes, at, 1, random.pick(&[hours, 32, 254]));
        }
        15 | 16 if !rota.user_rows.is_empty() => {
            let at = user_rows_at + 3 * random.below(rota.user_rows.len() as u32) as usize;
            row_fault(random, at, rota.users, rota, bytes);
        }
        17 | 18 if !rota.permission_rows.is_empty() => {
            let rows = rota.permission_rows.len() as u32;
            let at = permission_rows_at + 3 * random.below(rows) as usize;
            row_fault(random, at, rota.permissions, rota, bytes);
        }
        19 | 20 => order_fault(random, user_rows_at, rota.user_rows.len(), bytes),
        21 | 22 => order_fault(random, permission_rows_at, rota.permission_rows.len(), bytes),
        _ => any_fault(random, bytes),
    }
}

pub(super) fn row_fault(random: &mut Random, at: usize, limit: u8, rota: &Rota, bytes: &mut [u8]) {
    let hours = rota.hours.len() as u64;
    match random.below(3) {
        0 => put(bytes, at, 1, random.pick(&[u64::from(limit), 64, 255])),
        1 => put(bytes, at + 1, 1, random.pick(&[rota.roles.len() as u64, 32, 255])),
        _ => put(bytes, at + 2, 1, random.pick(&[hours, 32, 254])),
    }
}

/// The bytes of a rota with one or more faults, so that the order of refusals shows.
pub fn damaged_rota(random: &mut Random, rota: &Rota) -> Vec<u8> {
    let mut bytes = rota.encode();
    for _ in 0..random.pick(&[1, 1, 2, 3, 5]) {
        rota_fault(random, rota, &mut bytes);
    }
    bytes
}
