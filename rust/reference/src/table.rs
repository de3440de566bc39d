//! Flat tables: derived roles whose users and permissions never change, and rows that say when.

use crate::bytes::{u16_at, u32_at, u64_at};
use crate::edges::Edges;
use crate::policy::{self, Policy, question};
use crate::set;
use crate::{CYCLE_LIMIT, END, Refusal};

const FORMAT: u16 = 2;
pub const HEADER_SIZE: usize = 16;
pub const ENTRY_SIZE: usize = 17;
pub const ROW_SIZE: usize = 16;
const USER_LIMIT: u8 = 64;
const PERMISSION_LIMIT: u8 = 64;
const ROLE_LIMIT: u16 = 32;

#[derive(Clone, Copy, Debug, PartialEq, Eq, Hash)]
pub struct DerivedRole {
    pub source: u8,
    pub users: u64,
    pub permissions: u64,
}

#[derive(Clone, Copy, Debug, PartialEq, Eq)]
pub struct Row {
    pub derived: u32,
    pub begin: u32,
    pub end: u32,
    pub offset: u16,
    pub length: u16,
}

#[derive(Clone, Debug, PartialEq, Eq)]
pub struct Table {
    pub cycle: u16,
    pub users: u8,
    pub permissions: u8,
    pub roles: u16,
    pub derived: Vec<DerivedRole>,
    pub rows: Vec<Row>,
}

/// The staff board of one minute.
#[derive(Clone, Debug, PartialEq, Eq)]
pub struct Board {
    /// How many rows enable their derived role.
    pub rows: u32,
    /// What each user number may use: nothing where there is no such user.
    pub permissions: [u64; 64],
}

impl Row {
    /// offset + length, as a number that does not wrap.
    #[inline]
    pub fn cell_end(&self) -> u32 {
        u32::from(self.offset) + u32::from(self.length)
    }

    pub fn enables(&self, cycle: u16, t: u32) -> bool {
        let phase = t % u32::from(cycle);
        self.begin <= t
            && t < self.end
            && u32::from(self.offset) <= phase
            && phase < self.cell_end()
    }
}

impl Table {
    /// Reads the bytes of a whole table, no more and no less.
    pub fn parse(bytes: &[u8]) -> Result<Table, Refusal> {
        if bytes.len() < HEADER_SIZE {
            return Err(21);
        }
        if u16_at(bytes, 0) != FORMAT {
            return Err(22);
        }
        let cycle = u16_at(bytes, 2);
        if cycle == 0 || cycle > CYCLE_LIMIT {
            return Err(23);
        }
        let (users, permissions, roles) = (bytes[4], bytes[5], u16_at(bytes, 6));
        if users > USER_LIMIT || permissions > PERMISSION_LIMIT || roles > ROLE_LIMIT {
            return Err(24);
        }
        let (derived_count, row_count) = (u32_at(bytes, 8), u32_at(bytes, 12));
        // Both counts may be near 2^32 here, so the sum takes more than 32 bits.
        if bytes.len() as u64 != size(derived_count.into(), row_count.into()) {
            return Err(25);
        }
        let (entry_bytes, row_bytes) =
            bytes[HEADER_SIZE..].split_at(derived_count as usize * ENTRY_SIZE);

        let mut derived: Vec<DerivedRole> = Vec::new();
        for entry in entry_bytes.chunks_exact(ENTRY_SIZE) {
            let entry = DerivedRole {
                source: entry[0],
                users: u64_at(entry, 1),
                permissions: u64_at(entry, 9),
            };
            let fits = |numbers: u64, limit: u8| numbers & !set::below(limit.into()) == 0;
            if u16::from(entry.source) >= roles
                || derived.last().is_some_and(|before| entry.source < before.source)
                || entry.users == 0
                || entry.permissions == 0
                || !fits(entry.users, users)
                || !fits(entry.permissions, permissions)
            {
                return Err(26);
            }
            derived.push(entry);
        }

        let mut rows: Vec<Row> = Vec::new();
        for row in row_bytes.chunks_exact(ROW_SIZE) {
            let row = Row {
                derived: u32_at(row, 0),
                begin: u32_at(row, 4),
                end: u32_at(row, 8),
                offset: u16_at(row, 12),
                length: u16_at(row, 14),
            };
            if row.derived >= derived_count
                || row.begin >= row.end
                || row.end > END
                || row.length == 0
                || row.cell_end() > u32::from(cycle)
            {
                return Err(27);
            }
            if rows.last().is_some_and(|before| !follows(&derived, before, &row)) {
                return Err(28);
            }
            rows.push(row);
        }
        Ok(Table { cycle, users, permissions, roles, derived, rows })
    }

    pub fn encode(&self) -> Vec<u8> {
        let mut out = Vec::new();
        out.extend(FORMAT.to_le_bytes());
        out.extend(self.cycle.to_le_bytes());
        out.push(self.users);
        out.push(self.permissions);
        out.extend(self.roles.to_le_bytes());
        out.extend((self.derived.len() as u32).to_le_bytes());
        out.extend((self.rows.len() as u32).to_le_bytes());
        for entry in &self.derived {
            out.push(entry.source);
            out.extend(entry.users.to_le_bytes());
            out.extend(entry.permissions.to_le_bytes());
        }
        for row in &self.rows {
            out.extend(row.derived.to_le_bytes());
            out.extend(row.begin.to_le_bytes());
            out.extend(row.end.to_le_bytes());
            out.extend(row.offset.to_le_bytes());
            out.extend(row.length.to_le_bytes());
        }
        out
    }

    /// The first minute from `m` on at which `user` may use `permission`. Each row that grants it is
    /// looked through minute by minute, for no longer than a cycle.
    pub fn next_use(&self, user: u32, permission: u32, m: u32) -> Result<Option<u32>, Refusal> {
        question(self, user, permission, m)?;
        let grants = |row: &&Row| {
            let entry = &self.derived[row.derived as usize];
            set::has(entry.users, user) && set::has(entry.permissions, permission)
        };
        let first = |row: &Row| {
            let mut minutes = (m.max(row.begin)..row.end).take(self.cycle.into());
            minutes.find(|&t| row.enables(self.cycle, t))
        };
        Ok(self.rows.iter().filter(grants).filter_map(first).min())
    }

    /// The board of `t`: each user, permission and enabled derived role is looked at.
    pub fn board(&self, t: u32) -> Result<Board, Refusal> {
        if t >= END {
            return Err(33);
        }
        let enabled: Vec<&DerivedRole> = self.enabled(t).collect();
        let may = |user, permission| {
            enabled
                .iter()
                .any(|entry| set::has(entry.users, user) && set::has(entry.permissions, permission))
        };
        let mut permissions = [0; 64];
        for (user, own) in (0..self.users()).zip(&mut permissions) {
            for permission in (0..self.permissions()).filter(|&permission| may(user, permission)) {
                *own = set::with(*own, permission);
            }
        }
        Ok(Board { rows: enabled.len() as u32, permissions })
    }

    /// The derived roles that are enabled at `t`, once for each row that enables them.
    fn enabled(&self, t: u32) -> impl Iterator<Item = &DerivedRole> {
        self.rows
            .iter()
            .filter(move |row| row.enables(self.cycle, t))
            .map(|row| &self.derived[row.derived as usize])
    }
}

/// Bytes of a table with that many derived roles and rows.
pub fn size(derived: u64, rows: u64) -> u64 {
    HEADER_SIZE as u64 + ENTRY_SIZE as u64 * derived + ROW_SIZE as u64 * rows
}

/// Whether `row` may come right after `before`.
fn follows(derived: &[DerivedRole], before: &Row, row: &Row) -> bool {
    let source = |row: &Row| derived[row.derived as usize].source;
    if source(row) != source(before) {
        return source(row) > source(before);
    }
    let same_era = row.begin == before.begin && row.end == before.end;
    (same_era && u32::from(row.offset) >= before.cell_end()) || row.begin >= before.end
}

impl Policy for Table {
    fn users(&self) -> u32 {
        self.users.into()
    }

    fn permissions(&self) -> u32 {
        self.permissions.into()
    }

    fn answer(&self, user: u32, permission: u32, t: u32) -> Option<u8> {
        self.enabled(t)
            .filter(|entry| set::has(entry.users, user) && set::has(entry.permissions, permission))
            .map(|entry| entry.source)
            .min()
    }

    fn holders(&self, t: u32) -> u64 {
        self.enabled(t)
            .filter(|entry| entry.permissions != 0)
            .fold(0, |holders, entry| holders | entry.users)
    }

    fn staying(&self, open: u64, now: u32, m: u32) -> u64 {
        policy::staying(self, || Edges::of_table(self), open, now, m)
    }
}
