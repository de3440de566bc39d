//! Rotas in their bytes.

use reference::bytes::{u16_at, u32_at};
use reference::policy::Policy;
use reference::{CYCLE_LIMIT, END, Refusal};

use crate::{ensure, sweep};

/// Most pairs of all records together.
const PAIR_LIMIT: usize = 256;

/// The hours that hold: bit h for the record h, and bit 63 for always. A reference is below 32
/// or 255, so its low six bits find the right one.
type Held = u64;
const ALWAYS: Held = 1 << 63;

/// Whether the hours that a byte refers to hold.
#[inline]
fn holds(held: Held, reference: u8) -> bool {
    held >> (reference & 63) & 1 != 0
}

/// The hours that a byte refers to, alone.
#[inline]
fn only(reference: u8) -> Held {
    1 << (reference & 63)
}

/// A user or a permission, a role, an hours reference.
pub type Row = [u8; 3];

#[inline]
fn offset(pair: &[u8; 4]) -> u32 {
    u16_at(pair, 0).into()
}

/// offset + length.
#[inline]
fn end(pair: &[u8; 4]) -> u32 {
    offset(pair) + u32::from(u16_at(pair, 2))
}

/// An hours record in its bytes.
pub struct Record<'a> {
    pub begin: u32,
    pub end: u32,
    pairs: &'a [[u8; 4]],
}

impl<'a> Record<'a> {
    /// Takes the record at the front of `bytes`, and judges it; at most `room` pairs are left.
    fn judge(bytes: &mut &'a [u8], cycle: u32, room: usize) -> Result<Record<'a>, Refusal> {
        let (head, rest) = bytes.split_first_chunk::<10>().ok_or(5u32)?;
        let (begin, finish) = (u32_at(head, 0), u32_at(head, 4));
        let count = usize::from(u16_at(head, 8));
        ensure(begin < finish && finish <= END, 6)?;
        ensure(0 < count && count <= room, 7)?;
        let (pairs, rest) = rest.split_at_checked(4 * count).ok_or(5u32)?;
        let (pairs, _) = pairs.as_chunks();
        let mut least = 0;
        for pair in pairs {
            let (first, past) = (offset(pair), end(pair));
            ensure(least <= first && first < past && past <= cycle, 8)?;
            // The next pair starts later than this one's end.
            least = past + 1;
        }
        *bytes = rest;
        Ok(Record { begin, end: finish, pairs })
    }

    fn holds(&self, t: u32, phase: u32) -> bool {
        if t < self.begin || self.end <= t {
            return false;
        }
        let after = self.pairs.partition_point(|pair| offset(pair) <= phase);
        after > 0 && phase < end(&self.pairs[after - 1])
    }

    /// Whether it holds at `t`, and to before which minute that surely stays so.
    fn holds_until(&self, cycle: u32, t: u32, phase: u32) -> (bool, u32) {
        if t < self.begin {
            return (false, self.begin);
        }
        if self.end <= t {
            return (false, END);
        }
        let after = self.pairs.partition_point(|pair| offset(pair) <= phase);
        let now = self.pairs[..after].last().map(end).filter(|&past| phase < past);
        let next = self.pairs.get(after).map_or(cycle, offset);
        (now.is_some(), self.end.min(t + now.unwrap_or(next) - phase))
    }

    /// Each pair's offset and offset + length.
    pub fn pairs(&self) -> impl Iterator<Item = (u32, u32)> + use<'a> {
        self.pairs.iter().map(|pair| (offset(pair), end(pair)))
    }
}

pub struct Rota<'a> {
    /// Whether it is of format 3, and its rows ascend.
    pub is_tidy: bool,
    pub cycle: u32,
    pub hours: u8,
    pub users: u8,
    pub permissions: u8,
    /// The bytes of all hours records.
    records: &'a [u8],
    /// For each role its hours reference.
    pub roles: &'a [u8],
    pub user_rows: &'a [Row],
    pub permission_rows: &'a [Row],
}

impl<'a> Rota<'a> {
    pub fn read(bytes: &'a [u8]) -> Result<Rota<'a>, Refusal> {
        let (head, body) = bytes.split_first_chunk::<12>().ok_or(1u32)?;
        let format = u16_at(head, 0);
        ensure(format == 1 || format == 3, 2)?;
        let cycle = u16_at(head, 2);
        ensure(0 < cycle && cycle <= CYCLE_LIMIT, 3)?;
        let &[_, _, _, _, hours, users, permissions, roles, ..] = head;
        let (user_rows, permission_rows) = (u16_at(head, 8), u16_at(head, 10));
        let few = hours <= 32 && users <= 64 && permissions <= 64 && roles <= 32;
        ensure(few && user_rows <= 512 && permission_rows <= 512, 4)?;

        let cycle = cycle.into();
        let (mut rest, mut room) = (body, PAIR_LIMIT);
        for _ in 0..hours {
            room -= Record::judge(&mut rest, cycle, room)?.pairs.len();
        }
        let records = &body[..body.len() - rest.len()];

        let row_bytes = 3 * (usize::from(user_rows) + usize::from(permission_rows));
        ensure(rest.len() == usize::from(roles) + row_bytes, 9)?;
        let (role_hours, rows) = rest.split_at(roles.into());
        // 255 becomes 0, and no other number that is out of range passes.
        let known = |reference: u8| reference.wrapping_add(1) <= hours;
        ensure(role_hours.iter().all(|&reference| known(reference)), 10)?;
        let (rows, _) = rows.as_chunks();
        let (user_rows, permission_rows) = rows.split_at(user_rows.into());
        let limits = |numbers: u8| [numbers, roles, hours + 1];
        let is_tidy = format == 3;
        if is_tidy {
            judge_tidy(user_rows, limits(users), 11)?;
            judge_tidy(permission_rows, limits(permissions), 12)?;
        } else {
            ensure(all_below(user_rows, limits(users)), 11)?;
            ensure(all_below(permission_rows, limits(permissions)), 12)?;
        }
        Ok(Rota {
            is_tidy,
            cycle,
            hours,
            users,
            permissions,
            records,
            roles: role_hours,
            user_rows,
            permission_rows,
        })
    }

    /// The hours records, which were judged before.
    pub fn records(&self) -> impl Iterator<Item = Record<'a>> {
        let mut rest = self.records;
        std::iter::from_fn(move || {
            let (head, body) = rest.split_first_chunk::<10>()?;
            let (pairs, after) = body.split_at(4 * usize::from(u16_at(head, 8)));
            rest = after;
            let (pairs, _) = pairs.as_chunks();
            Some(Record { begin: u32_at(head, 0), end: u32_at(head, 4), pairs })
        })
    }

    fn held(&self, t: u32) -> Held {
        let phase = t % self.cycle;
        (0..).zip(self.records()).fold(ALWAYS, |held, (number, record)| {
            held | Held::from(record.holds(t, phase)) << number
        })
    }

    /// The set of roles that are enabled.
    fn enabled(&self, held: Held) -> u32 {
        (0..)
            .zip(self.roles)
            .fold(0, |roles, (role, &hours)| roles | u32::from(holds(held, hours)) << role)
    }
}

/// What is added to a row's bytes before they are compared with limits: 255 becomes 0.
const ADDED: Row = [0, 0, 1];

/// Whether a row's number, role, and hours reference with 1 added are below these.
#[inline]
fn is_below(row: &Row, limits: Row) -> bool {
    (0..3).all(|i| row[i].wrapping_add(ADDED[i]) < limits[i])
}

/// Whether each row is. Sixteen rows at a time, so that whole vectors of bytes are compared.
fn all_below(rows: &[Row], limits: Row) -> bool {
    let (chunks, rest) = rows.as_chunks::<16>();
    let is_below = |row: &Row| is_below(row, limits);
    if chunks.is_empty() {
        return rest.iter().all(is_below);
    }
    let (added, limits) = ([ADDED; 16], [limits; 16]);
    let none_over = |chunk: &[Row; 16]| {
        let bytes = chunk.as_flattened().iter().zip(added.as_flattened());
        let over = bytes.zip(limits.as_flattened()).fold(0u8, |over, ((byte, added), limit)| {
            over | u8::from(byte.wrapping_add(*added) >= *limit)
        });
        over == 0
    };
    chunks.iter().all(none_over) && rest.iter().all(is_below)
}

/// By what rows ascend: role, number, hours.
#[inline]
pub fn key(&[number, role, hours]: &Row) -> u32 {
    u32::from_be_bytes([0, role, number, hours])
}

/// Whether each row is above the one before. Sixteen rows at a time are compared with those after
/// them, as whole vectors of bytes.
pub fn ascend(mut rows: &[Row]) -> bool {
    const STEP: usize = 16;
    const BYTES: usize = 3 * STEP;
    // A comparison counts where it begins at a number. There 16 rows have those after them, and the
    // last a row more, so that whatever is compared lies within the bytes.
    const COUNTS: [Row; STEP] = [[1, 0, 0]; STEP];
    while let Some((window, _)) = rows.split_first_chunk::<{ STEP + 2 }>() {
        let bytes = window.as_flattened();
        let from = |first: usize| bytes[first..first + BYTES].iter();
        let here = from(0).zip(from(1)).zip(from(2));
        let next = from(3).zip(from(4)).zip(from(5));
        let falls = here.zip(next).zip(COUNTS.as_flattened()).fold(
            0,
            |falls, ((((number, role), hours), ((number2, role2), hours2)), counts)| {
                let by_number = (number2 > number) | (number2 == number) & (hours2 > hours);
                let is_above = (role2 > role) | (role2 == role) & by_number;
                falls | (u8::from(!is_above) & counts)
            },
        );
        if falls != 0 {
            return false;
        }
        rows = &rows[STEP..];
    }
    rows.windows(2).all(|two| key(&two[0]) < key(&two[1]))
}

/// The rows of a tidy rota: all at once, and where something is wrong, one by one to the first.
fn judge_tidy(rows: &[Row], limits: Row, out_of_range: Refusal) -> Result<(), Refusal> {
    if all_below(rows, limits) && ascend(rows) {
        return Ok(());
    }
    let is_wrong = |i: usize| !is_below(&rows[i], limits) || i > 0 && !ascend(&rows[i - 1..=i]);
    let first = (0..rows.len()).find(|&i| is_wrong(i)).expect("one of them is wrong");
    Err(if is_below(&rows[first], limits) { 52 } else { out_of_range })
}

/// The set of roles of those of the rows that hold.
fn roles_of<'a>(rows: impl Iterator<Item = &'a Row>, held: Held) -> u32 {
    rows.fold(0, |roles, &[_, role, hours]| roles | u32::from(holds(held, hours)) << role)
}

impl Policy for Rota<'_> {
    fn users(&self) -> u32 {
        self.users.into()
    }

    fn permissions(&self) -> u32 {
        self.permissions.into()
    }

    fn answer(&self, user: u32, permission: u32, t: u32) -> Option<u8> {
        let held = self.held(t);
        let mut roles = self.enabled(held);
        for (rows, asked) in [(self.user_rows, user), (self.permission_rows, permission)] {
            let of_asked = rows.iter().filter(|row| u32::from(row[0]) == asked);
            roles &= roles_of(of_asked, held);
            if roles == 0 {
                return None;
            }
        }
        Some(roles.trailing_zeros() as u8)
    }

    fn staying(&self, open: u64, now: u32, m: u32) -> u64 {
        let mut by_minute = ByMinute::new(self);
        sweep::staying(self.cycle, open, now + 1, m + 1, |t, open| by_minute.held(t, open))
    }

    fn holders(&self, t: u32) -> u64 {
        let held = self.held(t);
        let granting = self.enabled(held) & roles_of(self.permission_rows.iter(), held);
        if granting == 0 {
            return 0;
        }
        self.user_rows.iter().fold(0, |users, &[user, role, hours]| {
            let grants = granting >> role & 1 != 0;
            users | u64::from(grants & holds(held, hours)) << user
        })
    }
}

/// A rota laid out for many minutes, each later than the one before.
struct ByMinute<'a> {
    cycle: u32,
    records: [Record<'a>; 32],
    count: usize,
    /// The hours that hold, and for each record to before which minute that is known.
    held: Held,
    known: [u32; 32],
    /// For each role its hours reference, and the hours of its permissions.
    roles: &'a [u8],
    permitted: [Held; 32],
    /// Role and hours of each user's rows, user by user; those for always come first.
    user_rows: [[u8; 2]; 512],
    /// Where the rows of each user begin, and where the last ones end.
    starts: [u16; 65],
}

impl<'a> ByMinute<'a> {
    fn new(rota: &Rota<'a>) -> ByMinute<'a> {
        let mut records = rota.records();
        let none = || Record { begin: 0, end: 0, pairs: &[] };
        let mut all = ByMinute {
            cycle: rota.cycle,
            records: std::array::from_fn(|_| records.next().unwrap_or_else(none)),
            count: rota.hours.into(),
            held: ALWAYS,
            known: [0; 32],
            roles: rota.roles,
            permitted: [0; 32],
            user_rows: [[0; 2]; 512],
            starts: [0; 65],
        };
        for &[_, role, hours] in rota.permission_rows {
            all.permitted[usize::from(role)] |= only(hours);
        }
        for &[user, ..] in rota.user_rows {
            all.starts[usize::from(user) + 1] += 1;
        }
        for user in 0..64 {
            all.starts[user + 1] += all.starts[user];
        }
        let mut places = all.starts;
        for is_always in [true, false] {
            let rows = rota.user_rows.iter().filter(|row| (row[2] == 255) == is_always);
            for &[user, role, hours] in rows {
                let place = &mut places[usize::from(user)];
                all.user_rows[usize::from(*place)] = [role, hours];
                *place += 1;
            }
        }
        all
    }

    /// Who of `open` holds a permission at `t`.
    fn held(&mut self, t: u32, open: u64) -> sweep::Held {
        self.look_up(t);
        // For each role that grants something, records by which it does.
        let (mut granting, mut by) = (0u32, [0; 32]);
        for (role, (&hours, permitted)) in self.roles.iter().zip(self.permitted).enumerate() {
            let permitted = permitted & self.held;
            if permitted != 0 && holds(self.held, hours) {
                granting |= 1 << role;
                by[role] = one_of(only(hours)) | one_of(permitted);
            }
        }
        let (mut users, mut rests_on) = (0, 0);
        for user in members(open) {
            let [first, past] = [self.starts[user], self.starts[user + 1]].map(usize::from);
            let gives =
                |&&[role, hours]: &&[u8; 2]| granting >> role & 1 != 0 && holds(self.held, hours);
            if let Some(&[role, hours]) = self.user_rows[first..past].iter().find(gives) {
                users |= 1 << user;
                rests_on |= by[usize::from(role)] | one_of(only(hours));
            }
        }
        let (mut until, mut era) = (END, END);
        for record in members(rests_on) {
            until = until.min(self.known[record]);
            era = era.min(self.records[record].end);
        }
        sweep::Held { users, until, era }
    }

    /// Brings `held` up to date.
    fn look_up(&mut self, t: u32) {
        let phase = t % self.cycle;
        for (i, known) in self.known[..self.count].iter_mut().enumerate().filter(|(_, u)| **u <= t)
        {
            let (holds, until) = self.records[i].holds_until(self.cycle, t, phase);
            self.held = self.held & !(1 << i) | Held::from(holds) << i;
            *known = until;
        }
    }
}

/// One of the records among some hours; none where these hold always.
#[inline]
fn one_of(hours: Held) -> Held {
    if hours & ALWAYS != 0 { 0 } else { hours & hours.wrapping_neg() }
}

/// The members of a set, ascending.
#[inline]
pub fn members(mut set: u64) -> impl Iterator<Item = usize> {
    std::iter::from_fn(move || {
        let lowest = set.trailing_zeros();
        set &= set.wrapping_sub(1);
        (lowest < 64).then_some(lowest as usize)
    })
}
