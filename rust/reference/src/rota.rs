//! Rotas: who has which role when, and what each role permits when.

use crate::bytes::u16_at;
use crate::edges::Edges;
use crate::hours::{Hours, HoursRef};
use crate::policy::{self, Policy};
use crate::set;
use crate::{CYCLE_LIMIT, Refusal};

/// The format in which rows come in any order and may repeat.
pub const ANY_ORDER: u16 = 1;
/// The format in which the rows of each kind strictly ascend: a tidy rota.
pub const TIDY: u16 = 3;
const HEADER_SIZE: usize = 12;
const HOURS_LIMIT: u8 = 32;
const USER_LIMIT: u8 = 64;
const PERMISSION_LIMIT: u8 = 64;
const ROLE_LIMIT: u8 = 32;
const ROW_LIMIT: u16 = 512;

/// Joins a user, or a permission, with a role.
#[derive(Clone, Copy, Debug, PartialEq, Eq)]
pub struct Row {
    /// The user, or the permission.
    pub number: u8,
    pub role: u8,
    pub hours: HoursRef,
}

impl Row {
    pub fn new(number: u8, role: u8, hours: HoursRef) -> Row {
        Row { number, role, hours }
    }

    /// By what rows ascend: the role, then the number, then the hours as their byte, so that always
    /// comes last. It is not the order of the bytes.
    pub fn place(&self) -> (u8, u8, u8) {
        (self.role, self.number, self.hours.to_byte())
    }
}

#[derive(Clone, Debug, PartialEq, Eq)]
pub struct Rota {
    pub format: u16,
    pub cycle: u16,
    pub hours: Vec<Hours>,
    pub users: u8,
    pub permissions: u8,
    /// For each role, the hours in which it is enabled.
    pub roles: Vec<HoursRef>,
    pub user_rows: Vec<Row>,
    pub permission_rows: Vec<Row>,
}

impl Rota {
    pub fn parse(bytes: &[u8]) -> Result<Rota, Refusal> {
        if bytes.len() < HEADER_SIZE {
            return Err(1);
        }
        let format = u16_at(bytes, 0);
        if format != ANY_ORDER && format != TIDY {
            return Err(2);
        }
        let cycle = u16_at(bytes, 2);
        if cycle == 0 || cycle > CYCLE_LIMIT {
            return Err(3);
        }
        let (hours_count, users, permissions, role_count) =
            (bytes[4], bytes[5], bytes[6], bytes[7]);
        let (user_row_count, permission_row_count) = (u16_at(bytes, 8), u16_at(bytes, 10));
        if hours_count > HOURS_LIMIT
            || users > USER_LIMIT
            || permissions > PERMISSION_LIMIT
            || role_count > ROLE_LIMIT
            || user_row_count > ROW_LIMIT
            || permission_row_count > ROW_LIMIT
        {
            return Err(4);
        }

        let mut at = HEADER_SIZE;
        let mut total = 0;
        let mut hours = Vec::new();
        for _ in 0..hours_count {
            let record = Hours::parse(bytes, at, u32::from(cycle), total)?;
            at += record.size();
            total += record.pairs.len() as u32;
            hours.push(record);
        }

        let rest = &bytes[at..];
        let role_size = usize::from(role_count);
        let user_size = 3 * usize::from(user_row_count);
        let permission_size = 3 * usize::from(permission_row_count);
        if rest.len() != role_size + user_size + permission_size {
            return Err(9);
        }
        let (role_bytes, rest) = rest.split_at(role_size);
        let (user_bytes, permission_bytes) = rest.split_at(user_size);

        let roles = role_bytes
            .iter()
            .map(|&byte| HoursRef::from_byte(byte, hours.len()))
            .collect::<Option<Vec<_>>>()
            .ok_or(10u32)?;
        // Each row in turn: first whether its numbers are there, then whether it is above the one
        // before.
        let rows = |bytes: &[u8], limit: u8, out_of_range: Refusal| {
            let mut rows: Vec<Row> = Vec::new();
            for row in bytes.chunks_exact(3) {
                let reference = HoursRef::from_byte(row[2], hours.len()).ok_or(out_of_range)?;
                let row = Row::new(row[0], row[1], reference);
                if row.number >= limit || row.role >= role_count {
                    return Err(out_of_range);
                }
                let is_above = rows.last().is_none_or(|before| before.place() < row.place());
                if format == TIDY && !is_above {
                    return Err(52);
                }
                rows.push(row);
            }
            Ok(rows)
        };
        let user_rows = rows(user_bytes, users, 11)?;
        let permission_rows = rows(permission_bytes, permissions, 12)?;
        Ok(Rota { format, cycle, hours, users, permissions, roles, user_rows, permission_rows })
    }

    pub fn encode(&self) -> Vec<u8> {
        let mut out = Vec::new();
        out.extend(self.format.to_le_bytes());
        out.extend(self.cycle.to_le_bytes());
        out.push(self.hours.len() as u8);
        out.push(self.users);
        out.push(self.permissions);
        out.push(self.roles.len() as u8);
        out.extend((self.user_rows.len() as u16).to_le_bytes());
        out.extend((self.permission_rows.len() as u16).to_le_bytes());
        for record in &self.hours {
            record.encode(&mut out);
        }
        out.extend(self.roles.iter().map(|hours| hours.to_byte()));
        for row in self.user_rows.iter().chain(&self.permission_rows) {
            out.extend([row.number, row.role, row.hours.to_byte()]);
        }
        out
    }

    fn hold(&self, hours: HoursRef, t: u32) -> bool {
        hours.hold(&self.hours, u32::from(self.cycle), t)
    }

    pub fn role_is_enabled(&self, role: u8, t: u32) -> bool {
        self.hold(self.roles[usize::from(role)], t)
    }

    /// The users, or the permissions, that the rows give a role at `t`.
    fn numbers_at(&self, rows: &[Row], role: u8, t: u32) -> u64 {
        rows.iter()
            .filter(|row| row.role == role && self.hold(row.hours, t))
            .fold(0, |numbers, row| set::with(numbers, u32::from(row.number)))
    }

    pub fn users_of_role(&self, role: u8, t: u32) -> u64 {
        self.numbers_at(&self.user_rows, role, t)
    }

    pub fn permissions_of_role(&self, role: u8, t: u32) -> u64 {
        self.numbers_at(&self.permission_rows, role, t)
    }
}

impl Policy for Rota {
    fn users(&self) -> u32 {
        self.users.into()
    }

    fn permissions(&self) -> u32 {
        self.permissions.into()
    }

    fn answer(&self, user: u32, permission: u32, t: u32) -> Option<u8> {
        let joined = |rows: &[Row], number: u32, role: u8| {
            rows.iter().any(|row| {
                u32::from(row.number) == number && row.role == role && self.hold(row.hours, t)
            })
        };
        (0..self.roles.len() as u8).find(|&role| {
            self.role_is_enabled(role, t)
                && joined(&self.user_rows, user, role)
                && joined(&self.permission_rows, permission, role)
        })
    }

    fn holders(&self, t: u32) -> u64 {
        (0..self.roles.len() as u8)
            .filter(|&role| self.role_is_enabled(role, t) && self.permissions_of_role(role, t) != 0)
            .fold(0, |holders, role| holders | self.users_of_role(role, t))
    }

    fn staying(&self, open: u64, now: u32, m: u32) -> u64 {
        policy::staying(self, || Edges::of_rota(self), open, now, m)
    }
}
