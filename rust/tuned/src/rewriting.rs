//! Rewriting a rota into an area. What a role has in a field depends only on the set of hours that
//! hold there. The distinct ones of these sets are numbered once, by first field, for all roles; a
//! role is then derived over them, and not over fields. Neighbouring fields with the same set are
//! joined before that, for all roles, so that a role passes over fewer of them. A table that has no
//! room is refused at the first role at which that shows.

use std::ops::Range;

use reference::rewriting::Written;
use reference::table::Row;
use reference::{END, Refusal};

use crate::rota::{self, Rota};
use crate::table::{self, Entry, HEADER_SIZE, RowBytes, encode, entry, header};

/// All minutes, or the cycle, divided into eras or cells.
struct Parts {
    /// Where each part begins, and where the last ends.
    cuts: Vec<u32>,
    /// For each part the set of numbered hours that hold throughout, by dates or by pairs.
    held: Vec<u32>,
}

impl Parts {
    /// What lies between neighbouring values of 0, `limit` and both ends of all that is covered:
    /// where hours hold from and to, and their number. What the same hours cover does not touch.
    fn new<I: Iterator<Item = (u32, u32, u32)>>(limit: u32, covered: impl Fn() -> I) -> Parts {
        let mut cuts = Vec::with_capacity(2 + 2 * covered().count());
        cuts.extend([0, limit]);
        cuts.extend(covered().flat_map(|(from, to, _)| [from, to]));
        cuts.sort_unstable();
        cuts.dedup();
        // First what changes at each cut.
        let mut held = vec![0; cuts.len()];
        for (from, to, hours) in covered() {
            for edge in [from, to] {
                held[cuts.partition_point(|&cut| cut < edge)] ^= 1 << hours;
            }
        }
        held.pop();
        let mut before = 0;
        for held in &mut held {
            before ^= *held;
            *held = before;
        }
        Parts { cuts, held }
    }
}

/// Neighbouring fields of one era with the same set of hours. It ends at the phase at which the
/// next one begins, or with its run.
#[derive(Clone, Copy)]
struct Stretch {
    /// The number of the set.
    set: u16,
    /// The phase at which it begins.
    from: u16,
}

/// An era and cells of it, side by side.
struct Run {
    begin: u32,
    end: u32,
    stretches: Range<usize>,
    /// The phase at which the last one ends.
    to: u16,
}

/// The fields of a rota: each era with each of the cells with which it shares a minute.
struct Fields {
    /// The distinct sets of hours, by first field.
    sets: Vec<u32>,
    stretches: Vec<Stretch>,
    /// All fields in their order. Between two runs of one era lie cells that it leaves out.
    runs: Vec<Run>,
}

impl Fields {
    fn new(rota: &Rota) -> Fields {
        let records = || (0..).zip(rota.records());
        let eras =
            Parts::new(END, || records().map(|(hours, record)| (record.begin, record.end, hours)));
        let cells = Parts::new(rota.cycle, || {
            records()
                .flat_map(|(hours, record)| record.pairs().map(move |(from, to)| (from, to, hours)))
        });
        let most = eras.held.len() * cells.held.len();
        let mut sets = Numbering::new(most);
        let mut stretches = Vec::with_capacity(most);
        let mut runs = Vec::with_capacity(eras.held.len() + 1);
        for (dates, &by_dates) in eras.cuts.windows(2).zip(&eras.held) {
            for run in cells_of(&cells.cuts, rota.cycle, dates[0], dates[1]) {
                let first = stretches.len();
                let to = cells.cuts[run.end] as u16;
                let mut last = None;
                for (&from, &by_pairs) in cells.cuts[run.clone()].iter().zip(&cells.held[run]) {
                    let held = by_dates & by_pairs;
                    if last != Some(held) {
                        stretches.push(Stretch { set: sets.number(held), from: from as u16 });
                        last = Some(held);
                    }
                }
                let stretches = first..stretches.len();
                runs.push(Run { begin: dates[0], end: dates[1], stretches, to });
            }
        }
        Fields { sets: sets.keys, stretches, runs }
    }

    fn runs(&self) -> impl Iterator<Item = (&Run, &[Stretch])> {
        self.runs.iter().map(|run| (run, &self.stretches[run.stretches.clone()]))
    }

    /// How many rows a role has by its marks; it may stop once they are more than `limit`. A row
    /// begins where a mark is not 0 and is not that of the stretch before.
    fn rows(&self, marks: &[u16], limit: usize) -> usize {
        let mut rows = 0;
        for (_, stretches) in self.runs() {
            let mut before = 0;
            for stretch in stretches {
                let mark = marks[usize::from(stretch.set)];
                rows += usize::from((mark != 0) & (mark != before));
                before = mark;
            }
            if rows > limit {
                break;
            }
        }
        rows
    }

    /// Puts these rows, each once; `first` is the number of the role's first derived role.
    fn put_rows(&self, marks: &[u16], first: u32, mut put: impl FnMut(&Row)) {
        for (run, stretches) in self.runs() {
            let mut row = |mark: u16, from: u16, to: u16| {
                if mark != 0 {
                    put(&Row {
                        derived: first + u32::from(mark) - 1,
                        begin: run.begin,
                        end: run.end,
                        offset: from,
                        length: to - from,
                    });
                }
            };
            let (mut before, mut from) = (0, 0);
            for stretch in stretches {
                let mark = marks[usize::from(stretch.set)];
                if mark != before {
                    row(before, from, stretch.from);
                    (before, from) = (mark, stretch.from);
                }
            }
            row(before, from, run.to);
        }
    }
}

/// The cells that share a minute with an era, side by side: one run, or two where the remainders of
/// its minutes go past the cycle's end and leave cells out.
fn cells_of(cuts: &[u32], cycle: u32, begin: u32, end: u32) -> impl Iterator<Item = Range<usize>> {
    let all = cuts.len() - 1;
    let phase = begin % cycle;
    let past = phase + (end - begin);
    let first = cuts.partition_point(|&cut| cut <= phase) - 1;
    let runs = if end - begin >= cycle {
        [0..all, 0..0]
    } else if past <= cycle {
        [first..cuts.partition_point(|&cut| cut < past), 0..0]
    } else {
        let again = cuts.partition_point(|&cut| cut + cycle < past);
        if first <= again { [0..all, 0..0] } else { [0..again, first..all] }
    };
    runs.into_iter().filter(|run| !run.is_empty())
}

/// What is numbered. Keys are spread by multiplying, and the high bits count.
trait Key: Copy + PartialEq {
    fn spread(self) -> u64;
}

const ODD: u64 = 0x9e37_79b9_7f4a_7c15;

impl Key for u32 {
    #[inline]
    fn spread(self) -> u64 {
        u64::from(self).wrapping_mul(ODD)
    }
}

impl Key for (u64, u64) {
    #[inline]
    fn spread(self) -> u64 {
        let first = self.0.wrapping_mul(ODD);
        (first ^ first >> 32 ^ self.1).wrapping_mul(ODD)
    }
}

/// Numbers keys in the order in which they are first seen.
struct Numbering<K> {
    keys: Vec<K>,
    /// Keys before these are of an earlier numbering.
    first: usize,
    /// One more than a key's number, at the first free place from the one to which it is spread.
    places: Vec<u16>,
    shift: u32,
}

impl<K: Key> Numbering<K> {
    /// For at most so many keys; there are never more than 33,345 fields.
    fn new(most: usize) -> Self {
        let places = (2 * most).next_power_of_two().max(2);
        Numbering {
            keys: Vec::with_capacity(most),
            first: 0,
            places: vec![0; places],
            shift: 64 - places.ilog2(),
        }
    }

    /// Begins to number anew, after the keys that there are.
    fn begin(&mut self) {
        self.first = self.keys.len();
        self.places.fill(0);
    }

    /// How many have been numbered.
    #[inline]
    fn count(&self) -> usize {
        self.keys.len() - self.first
    }

    #[inline]
    fn number(&mut self, key: K) -> u16 {
        let mut place = (key.spread() >> self.shift) as usize;
        loop {
            match self.places[place] {
                0 => {
                    self.keys.push(key);
                    self.places[place] = self.count() as u16;
                    return self.count() as u16 - 1;
                }
                found if self.keys[self.first + usize::from(found) - 1] == key => return found - 1,
                _ => place = (place + 1) & (self.places.len() - 1),
            }
        }
    }
}

/// A role's users, or its permissions, by the hours of their rows.
#[derive(Clone, Default)]
struct Numbers {
    always: u64,
    /// The hours that have any.
    hours: u32,
    numbered: [u64; 32],
}

impl Numbers {
    fn add(&mut self, &[number, _, hours]: &rota::Row) {
        let numbers = match self.numbered.get_mut(usize::from(hours)) {
            None => &mut self.always,
            Some(numbers) => {
                self.hours |= 1 << hours;
                numbers
            }
        };
        *numbers |= 1 << number;
    }

    /// Whether there are any while these hours hold.
    #[inline]
    fn are_any(&self, held: u32) -> bool {
        (held & self.hours) | u32::from(self.always != 0) != 0
    }
}

/// The union of a role's numbers for every set of hours within the same four: eight of these give
/// that of any set.
struct Unions {
    always: u64,
    by_four: [[u64; 16]; 8],
}

impl Unions {
    fn new() -> Unions {
        Unions { always: 0, by_four: [[0; 16]; 8] }
    }

    /// Takes the numbers of another role; there are so many hours.
    fn fill(&mut self, numbers: &Numbers, hours: u8) {
        self.always = numbers.always;
        for (hour, &more) in numbers.numbered[..hours.into()].iter().enumerate() {
            let unions = &mut self.by_four[hour / 4];
            let (without, with) = unions[..2 << (hour % 4)].split_at_mut(1 << (hour % 4));
            for (with, without) in with.iter_mut().zip(without) {
                *with = *without | more;
            }
        }
    }

    #[inline]
    fn at(&self, held: u32) -> u64 {
        (0..).zip(&self.by_four).fold(self.always, |all, (four, unions)| {
            all | unions[(held >> (4 * four) & 15) as usize]
        })
    }
}

/// All that a rota says of a role.
#[derive(Clone, Default)]
struct Role {
    /// The hours in which it is enabled; none where it always is.
    enabled: u32,
    users: Numbers,
    permissions: Numbers,
}

impl Role {
    /// Whether it is enabled and has users and permissions while these hours hold.
    #[inline]
    fn keeps(&self, held: u32) -> bool {
        (held & self.enabled == self.enabled)
            & self.users.are_any(held)
            & self.permissions.are_any(held)
    }

    /// The hours that make a difference to it.
    fn named(&self) -> u32 {
        self.enabled | self.users.hours | self.permissions.hours
    }
}

fn roles(rota: &Rota) -> Vec<Role> {
    let mut roles = vec![Role::default(); rota.roles.len()];
    for (role, &hours) in roles.iter_mut().zip(rota.roles) {
        role.enabled = 1u32.checked_shl(hours.into()).unwrap_or(0);
    }
    for row in rota.user_rows {
        roles[usize::from(row[1])].users.add(row);
    }
    for row in rota.permission_rows {
        roles[usize::from(row[1])].permissions.add(row);
    }
    roles
}

/// Derives one role after the other.
struct Deriver<'a> {
    sets: &'a [u32],
    hours: u8,
    users: Unions,
    permissions: Unions,
    known: Numbering<(u64, u64)>,
    /// For each of the sets of hours 0 where the role does not keep it, else one more than the
    /// number of its derived role, counted within the role.
    marks: Vec<u16>,
}

/// Where a role's derived roles are among those that are known, and its marks.
struct Found {
    derived: Range<usize>,
    marks: Range<usize>,
}

impl<'a> Deriver<'a> {
    fn new(sets: &'a [u32], hours: u8) -> Self {
        Deriver {
            sets,
            hours,
            users: Unions::new(),
            permissions: Unions::new(),
            known: Numbering::new(sets.len()),
            marks: Vec::new(),
        }
    }

    /// Drops what was found for the roles before.
    fn forget(&mut self) {
        self.known.keys.clear();
        self.marks.clear();
    }

    /// What a role has; none where it has more than so many derived roles.
    fn derive(&mut self, role: &Role, most: usize) -> Option<Found> {
        self.users.fill(&role.users, self.hours);
        self.permissions.fill(&role.permissions, self.hours);
        self.known.begin();
        let (start, named) = (self.marks.len(), role.named());
        self.marks.resize(start + self.sets.len(), 0);
        // Neighbours often differ only in hours that the role does not name.
        let mut last = None;
        for (place, &held) in self.marks[start..].iter_mut().zip(self.sets) {
            let held = held & named;
            *place = match last {
                Some((same, mark)) if same == held => mark,
                _ if role.keeps(held) => {
                    let sets = (self.users.at(held), self.permissions.at(held));
                    1 + self.known.number(sets)
                }
                _ => 0,
            };
            last = Some((held, *place));
            if self.known.count() > most {
                return None;
            }
        }
        let derived = self.known.first..self.known.keys.len();
        Some(Found { derived, marks: start..self.marks.len() })
    }
}

/// Rewrites the bytes of a rota. Nothing is written before all of the table is known to fit.
pub fn rewrite(bytes: &[u8], area: &mut [u8]) -> Result<Written, Refusal> {
    rewrite_with::<true>(bytes, area)
}

/// The same, but of what a role is found to have nothing is kept from the count to the writing: as
/// without a heap, it is derived for each.
pub fn rewrite_twice(bytes: &[u8], area: &mut [u8]) -> Result<Written, Refusal> {
    rewrite_with::<false>(bytes, area)
}

/// How large the table of a rota's bytes is: it is counted, and of no role is anything kept.
pub fn size(bytes: &[u8]) -> Result<Written, Refusal> {
    let rota = Rota::read(bytes)?;
    let fields = Fields::new(&rota);
    let mut deriver = Deriver::new(&fields.sets, rota.hours);
    let (written, _) = count::<false>(&fields, &roles(&rota), &mut deriver, usize::MAX)?;
    Ok(written)
}

/// Counts the table to an area of so many bytes, with what each role is found to have.
fn count<const KEEPS: bool>(
    fields: &Fields,
    roles: &[Role],
    deriver: &mut Deriver,
    area: usize,
) -> Result<(Written, Vec<Found>), Refusal> {
    let left = |entries: usize, rows: usize| {
        area.checked_sub(table::size(entries as u64, rows as u64) as usize).ok_or(20u32)
    };
    let mut room = left(0, 0)?;
    let (mut derived, mut rows) = (0, 0);
    let mut all_found = Vec::with_capacity(roles.len());
    for role in roles {
        if !KEEPS {
            deriver.forget();
        }
        // Each derived role has a row at least.
        let most = room / (size_of::<Entry>() + size_of::<RowBytes>());
        let found = deriver.derive(role, most).ok_or(20u32)?;
        derived += found.derived.len();
        let limit = room / size_of::<RowBytes>();
        rows += fields.rows(&deriver.marks[found.marks.clone()], limit);
        room = left(derived, rows)?;
        all_found.push(found);
    }
    let written = Written { derived: derived as u32, rows: rows as u32, length: area - room };
    Ok((written, all_found))
}

fn rewrite_with<const KEEPS: bool>(bytes: &[u8], area: &mut [u8]) -> Result<Written, Refusal> {
    let rota = Rota::read(bytes)?;
    let fields = Fields::new(&rota);
    let roles = roles(&rota);
    let mut deriver = Deriver::new(&fields.sets, rota.hours);
    let (written, all_found) = count::<KEEPS>(&fields, &roles, &mut deriver, area.len())?;

    let Written { derived, rows, length } = written;
    let (head, body) = area[..length].split_at_mut(HEADER_SIZE);
    head.copy_from_slice(&header(&rota, derived, rows));
    let (entry_place, row_place) = body.split_at_mut(derived as usize * size_of::<Entry>());
    let ((entry_place, _), (row_place, _)) =
        (entry_place.as_chunks_mut(), row_place.as_chunks_mut());
    let (mut entry_places, mut row_places) = (entry_place.iter_mut(), row_place.iter_mut());
    let mut first = 0;
    for ((source, role), mut found) in (0..).zip(&roles).zip(all_found) {
        if !KEEPS {
            deriver.forget();
            found = deriver.derive(role, usize::MAX).expect("no limit");
        }
        let marks = &deriver.marks[found.marks];
        fields.put_rows(marks, first, |row| {
            *row_places.next().expect("as many places as rows") = encode(row);
        });
        let sets = &deriver.known.keys[found.derived];
        for (&(users, permissions), place) in sets.iter().zip(&mut entry_places) {
            *place = entry(source, users, permissions);
        }
        first += sets.len() as u32;
    }
    Ok(written)
}
