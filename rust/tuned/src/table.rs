//! Tables in their bytes.

use reference::bytes::{u16_at, u32_at, u64_at};
use reference::policy::Policy;
use reference::set::{below, has};
use reference::table::{Board, Row};
use reference::{CYCLE_LIMIT, END, Refusal};

use crate::rota::Rota;
use crate::{ensure, sweep};

pub const HEADER_SIZE: usize = 16;

/// Source role, users, permissions.
pub type Entry = [u8; 17];

/// Derived role, begin, end, offset, length.
pub type RowBytes = [u8; 16];

#[inline]
fn decode(row: &RowBytes) -> Row {
    Row {
        derived: u32_at(row, 0),
        begin: u32_at(row, 4),
        end: u32_at(row, 8),
        offset: u16_at(row, 12),
        length: u16_at(row, 14),
    }
}

#[inline]
pub fn encode(row: &Row) -> RowBytes {
    let mut bytes = [0; size_of::<RowBytes>()];
    bytes[..4].copy_from_slice(&row.derived.to_le_bytes());
    bytes[4..8].copy_from_slice(&row.begin.to_le_bytes());
    bytes[8..12].copy_from_slice(&row.end.to_le_bytes());
    bytes[12..14].copy_from_slice(&row.offset.to_le_bytes());
    bytes[14..].copy_from_slice(&row.length.to_le_bytes());
    bytes
}

/// Bytes of a table with that many derived roles and rows.
pub fn size(derived: u64, rows: u64) -> u64 {
    HEADER_SIZE as u64 + derived * size_of::<Entry>() as u64 + rows * size_of::<RowBytes>() as u64
}

/// The header of a rota's table.
pub fn header(rota: &Rota, derived: u32, rows: u32) -> [u8; HEADER_SIZE] {
    let mut head = [0; HEADER_SIZE];
    head[..2].copy_from_slice(&2u16.to_le_bytes());
    head[2..4].copy_from_slice(&(rota.cycle as u16).to_le_bytes());
    [head[4], head[5], head[6]] = [rota.users, rota.permissions, rota.roles.len() as u8];
    head[8..12].copy_from_slice(&derived.to_le_bytes());
    head[12..].copy_from_slice(&rows.to_le_bytes());
    head
}

pub fn entry(source: u8, users: u64, permissions: u64) -> Entry {
    let mut entry = [0; size_of::<Entry>()];
    entry[0] = source;
    entry[1..9].copy_from_slice(&users.to_le_bytes());
    entry[9..].copy_from_slice(&permissions.to_le_bytes());
    entry
}

pub struct Table<'a> {
    pub cycle: u32,
    pub users: u8,
    pub permissions: u8,
    pub roles: u8,
    pub entries: &'a [Entry],
    pub rows: &'a [RowBytes],
    /// Where the rows of each source begin; past the last source, where they end.
    starts: [u32; 33],
}

impl<'a> Table<'a> {
    pub fn read(bytes: &'a [u8]) -> Result<Table<'a>, Refusal> {
        let (head, body) = bytes.split_first_chunk::<HEADER_SIZE>().ok_or(21u32)?;
        ensure(u16_at(head, 0) == 2, 22)?;
        let cycle = u16_at(head, 2);
        ensure(0 < cycle && cycle <= CYCLE_LIMIT, 23)?;
        let (users, permissions, roles) = (head[4], head[5], u16_at(head, 6));
        ensure(users <= 64 && permissions <= 64 && roles <= 32, 24)?;
        let (derived, rows) = (u32_at(head, 8), u32_at(head, 12));
        ensure(bytes.len() as u64 == size(derived.into(), rows.into()), 25)?;
        let (entries, rows) = body.split_at(derived as usize * size_of::<Entry>());
        let ((entries, _), (rows, _)) = (entries.as_chunks(), rows.as_chunks());

        let (cycle, roles) = (cycle.into(), roles as u8);
        judge_entries(entries, roles, below(users.into()), below(permissions.into()))?;
        let starts = judge_rows(rows, entries, cycle)?;
        Ok(Table { cycle, users, permissions, roles, entries, rows, starts })
    }

    fn rows_of(&self, source: u8) -> &'a [RowBytes] {
        let source = usize::from(source);
        &self.rows[self.starts[source] as usize..self.starts[source + 1] as usize]
    }

    /// The first minute from `m` on at which `user` may use `permission`.
    pub fn next_use(&self, user: u32, permission: u32, m: u32) -> Result<Option<u32>, Refusal> {
        ensure(m < END, 33)?;
        ensure(user < self.users(), 34)?;
        ensure(permission < self.permissions(), 35)?;
        let mut best = END;
        for source in 0..self.roles {
            let rows = self.rows_of(source);
            let over = rows.partition_point(|row| u32_at(row, 8) <= m);
            for row in &rows[over..] {
                let row = decode(row);
                // Nor do the rows after it begin earlier.
                if best <= row.begin {
                    break;
                }
                if grants(&self.entries[row.derived as usize], user, permission) {
                    let t = first_in(&row, self.cycle, m.max(row.begin));
                    if t < row.end {
                        best = best.min(t);
                    }
                }
            }
        }
        Ok((best < END).then_some(best))
    }

    /// The rows that enable their derived role at `t`, counted, and what each user may use then.
    pub fn board(&self, t: u32) -> Result<Board, Refusal> {
        ensure(t < END, 33)?;
        let mut board = Board { rows: 0, permissions: [0; 64] };
        for entry in self.all_enabled(t) {
            board.rows += 1;
            let (mut users, permissions) = (u64_at(entry, 1), u64_at(entry, 9));
            while users != 0 {
                board.permissions[users.trailing_zeros() as usize] |= permissions;
                users &= users - 1;
            }
        }
        Ok(board)
    }

    /// The entry of a source that is enabled at `t`. There is at most one: the rows of a source
    /// are sorted and no two of them share a minute.
    fn enabled(&self, source: u8, t: u32, phase: u32) -> Option<&'a Entry> {
        let rows = self.rows_of(source);
        let after = rows.partition_point(|row| is_before(row, t, phase));
        let row = decode(rows[..after].last()?);
        let enables = t < row.end && phase < row.cell_end();
        enables.then(|| &self.entries[row.derived as usize])
    }

    /// The entries that are enabled at `t`, by source.
    fn all_enabled(&self, t: u32) -> impl Iterator<Item = &'a Entry> {
        let phase = t % self.cycle;
        (0..self.roles).filter_map(move |source| self.enabled(source, t, phase))
    }
}

/// Whether a row is of an earlier era than `t`, or of that of `t` and does not start after the phase.
#[inline]
fn is_before(row: &RowBytes, t: u32, phase: u32) -> bool {
    let row = decode(row);
    row.end <= t || (row.begin <= t && u32::from(row.offset) <= phase)
}

#[inline]
fn is_in_cell(row: &Row, phase: u32) -> bool {
    u32::from(row.offset) <= phase && phase < row.cell_end()
}

#[inline]
fn grants(entry: &Entry, user: u32, permission: u32) -> bool {
    has(u64_at(entry, 1), user) && has(u64_at(entry, 9), permission)
}

/// The first minute from `from` on whose phase is in the row's cell.
#[inline]
fn first_in(row: &Row, cycle: u32, from: u32) -> u32 {
    let (phase, offset) = (from % cycle, u32::from(row.offset));
    if phase < offset {
        from + (offset - phase)
    } else if phase < row.cell_end() {
        from
    } else {
        from + (cycle - phase) + offset
    }
}

fn judge_entries(
    entries: &[Entry],
    roles: u8,
    all_users: u64,
    all_permissions: u64,
) -> Result<(), Refusal> {
    let mut before = 0;
    for entry in entries {
        let (source, users, permissions) = (entry[0], u64_at(entry, 1), u64_at(entry, 9));
        // One branch for all: an accepted table keeps every rule.
        let sets = (users != 0) & (permissions != 0);
        let known = (users & !all_users) | (permissions & !all_permissions) == 0;
        ensure((before <= source) & (source < roles) & sets & known, 26)?;
        before = source;
    }
    Ok(())
}

/// Where the rows of each source begin. Most rows go on in the era of the row before, which has
/// been judged with it.
fn judge_rows(rows: &[RowBytes], entries: &[Entry], cycle: u32) -> Result<[u32; 33], Refusal> {
    let mut starts = [0; 33];
    let (mut last_source, mut last_era, mut last_cell_end) = (0, None, 0);
    for (i, row) in (0..).zip(rows) {
        let row = decode(row);
        let entry = entries.get(row.derived as usize).ok_or(27u32)?;
        ensure(row.length > 0 && row.cell_end() <= cycle, 27)?;
        let (source, era) = (usize::from(entry[0]), (row.begin, row.end));
        if source == last_source && last_era == Some(era) {
            ensure(last_cell_end <= row.offset.into(), 28)?;
        } else {
            ensure(row.begin < row.end && row.end <= END, 27)?;
            if source == last_source {
                ensure(last_era.is_none_or(|(_, end)| end <= row.begin), 28)?;
            } else {
                ensure(last_source < source, 28)?;
                starts[last_source + 1..=source].fill(i);
                last_source = source;
            }
            last_era = Some(era);
        }
        last_cell_end = row.cell_end();
    }
    starts[last_source + 1..].fill(rows.len() as u32);
    Ok(starts)
}

impl Policy for Table<'_> {
    fn users(&self) -> u32 {
        self.users.into()
    }

    fn permissions(&self) -> u32 {
        self.permissions.into()
    }

    fn answer(&self, user: u32, permission: u32, t: u32) -> Option<u8> {
        self.all_enabled(t).find(|entry| grants(entry, user, permission)).map(|entry| entry[0])
    }

    fn holders(&self, t: u32) -> u64 {
        self.all_enabled(t).fold(0, |holders, entry| holders | u64_at(entry, 1))
    }

    fn staying(&self, open: u64, now: u32, m: u32) -> u64 {
        let mut spans: [Span; 32] = std::array::from_fn(|source| Span::of(self, source as u8));
        sweep::staying(self.cycle, open, now + 1, m + 1, |t, open| {
            self.held(&mut spans[..self.roles.into()], t, open)
        })
    }
}

/// What a source gives at a minute, for minutes of which each is later than the one before.
#[derive(Clone, Copy)]
struct Span<'a> {
    rows: &'a [RowBytes],
    /// How many of the rows come before the minute.
    after: usize,
    users: u64,
    /// It gives them to before this minute.
    until: u32,
    /// The end of the row that gives them.
    end: u32,
}

impl<'a> Span<'a> {
    /// Nothing, and not even for the first minute.
    fn of(table: &Table<'a>, source: u8) -> Span<'a> {
        let rows = table.rows_of(source);
        // Without a row it gives nothing ever.
        let until = if rows.is_empty() { END } else { 0 };
        Span { rows, after: 0, users: 0, until, end: END }
    }

    /// Goes on to `t`, which is not before `until`. Mostly the next row covers it, and then no
    /// other row of the source does.
    #[inline]
    fn go_on(&mut self, table: &Table, t: u32, phase: u32) {
        match self.rows.get(self.after).map(decode) {
            Some(row) if row.begin <= t && t < row.end && is_in_cell(&row, phase) => {
                self.after += 1;
                self.give(table, &row, t, phase);
            }
            _ => self.search(table, t, phase),
        }
    }

    /// The row before `after` covers `t`. Rows of the same derived role that touch go on with it.
    #[inline]
    fn give(&mut self, table: &Table, row: &Row, t: u32, phase: u32) {
        let mut cell_end = row.cell_end();
        while let Some(next) = self.rows.get(self.after).map(decode)
            && (next.derived, next.begin) == (row.derived, row.begin)
            && u32::from(next.offset) == cell_end
        {
            cell_end = next.cell_end();
            self.after += 1;
        }
        self.users = u64_at(&table.entries[row.derived as usize], 1);
        self.until = row.end.min(t + cell_end - phase);
        self.end = row.end;
    }

    fn search(&mut self, table: &Table, t: u32, phase: u32) {
        let (rows, near) = (self.rows, self.after);
        self.after = sweep::partition_near(rows, near, |row| is_before(row, t, phase));
        // The last one of the era of `t`, if there is one.
        let last = rows[..self.after].last().map(decode).filter(|row| t < row.end);
        if let Some(row) = last.filter(|row| phase < row.cell_end()) {
            return self.give(table, &row, t, phase);
        }
        let turn = t + (table.cycle - phase);
        self.users = 0;
        self.until = match (last, rows.get(self.after).map(decode)) {
            (_, Some(next)) if next.begin <= t => next.end.min(t + u32::from(next.offset) - phase),
            (Some(last), _) => last.end.min(turn),
            (None, next) => next.map_or(END, |next| next.begin),
        };
    }
}

impl Table<'_> {
    /// Who of `open` holds a permission at `t`. Once everyone does, no further source matters.
    fn held(&self, spans: &mut [Span], t: u32, open: u64) -> sweep::Held {
        let phase = t % self.cycle;
        let (mut missing, mut until, mut era) = (open, END, END);
        for span in spans {
            if span.until <= t {
                span.go_on(self, t, phase);
            }
            if span.users & missing != 0 {
                missing &= !span.users;
                until = until.min(span.until);
                era = era.min(span.end);
                if missing == 0 {
                    break;
                }
            }
        }
        sweep::Held { users: open & !missing, until, era }
    }
}
