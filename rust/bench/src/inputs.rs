//! The inputs: the small rota, a week as an organization has it, the largest, and the worst.

use std::collections::HashSet;

use cases::generate::{Sets, fine_rota, most_rows_rota, most_sets_rota, rota_minute, weekly_rota};
use cases::random::Random;
use cases::{data, worst};
use comparison::ffi;
use reference::rota::Rota;
use reference::set;
use reference::table::{DerivedRole, Row, Table};
use reference::{END, page, rewriting};

/// How many questions each input has; they are asked in turn.
const QUESTIONS: usize = 256;

#[derive(Clone, Copy)]
pub struct Question {
    pub user: u32,
    pub permission: u32,
    pub minute: u32,
}

/// A rota, and what its rewriting goes through and comes to.
pub struct Rewriting {
    pub rota: Vec<u8>,
    pub fields: usize,
    /// Distinct sets of hours that hold in a field.
    pub sets: usize,
    /// Rows before those that touch are joined.
    pub unjoined: usize,
    pub rows: usize,
    /// Bytes of the table.
    pub length: usize,
}

/// Which table of its rota an input has, for what is asked of tables.
#[derive(Clone, Copy, PartialEq, Eq)]
enum Rows {
    /// As it is rewritten.
    Joined,
    /// The most rows that a sender may have for it.
    Unjoined,
}

pub struct Input {
    pub name: &'static str,
    /// None with a table that no rewriting makes.
    pub rewriting: Option<Rewriting>,
    /// The rota in format 3; no bytes where there is none.
    pub tidy: Vec<u8>,
    pub table: Vec<u8>,
    pub derived: usize,
    pub rows: usize,
    /// The set of all users.
    pub everyone: u64,
    pub permissions: u32,
    questions: Vec<Question>,
    /// The table with user 0 in hardly a derived role.
    pub without_user: Vec<u8>,
}

impl Input {
    fn new(name: &'static str, rows: Rows, rota: Rota) -> Input {
        let unjoined = rewriting::unjoined(&rota);
        let joined = rewriting::joined(unjoined.clone());
        let written = joined.encode();
        let fields = rewriting::fields(&rota);
        let rewriting = Rewriting {
            rota: rota.encode(),
            fields: fields.len(),
            sets: fields.iter().map(|field| field.held).collect::<HashSet<u64>>().len(),
            unjoined: unjoined.rows.len(),
            rows: joined.rows.len(),
            length: written.len(),
        };
        let mut area = vec![0; written.len()];
        ffi::rewriting::rewrite(&rewriting.rota, &mut area);
        assert!(area == written, "the two tables differ");
        let table = if rows == Rows::Joined { joined } else { unjoined };
        let input = Input::of_table(name, &table, |random| rota_minute(random, &rota));
        Input { rewriting: Some(rewriting), tidy: rota.tidy().encode(), ..input }
    }

    /// Half of the minutes are where answers change, half are any.
    fn of_table(name: &'static str, table: &Table, near: impl Fn(&mut Random) -> u32) -> Input {
        let mut random = Random::new(1);
        let questions = (0..QUESTIONS)
            .map(|i| {
                let near = near(&mut random);
                let minute = if i % 2 == 0 && near < END { near } else { random.below(END) };
                let user = random.below(table.users.into());
                Question { user, permission: random.below(table.permissions.into()), minute }
            })
            .collect();
        Input {
            name,
            rewriting: None,
            tidy: Vec::new(),
            table: table.encode(),
            derived: table.derived.len(),
            rows: table.rows.len(),
            everyone: set::below(table.users.into()),
            permissions: table.permissions.into(),
            questions,
            without_user: without_user(table).encode(),
        }
    }

    pub fn rota(&self) -> Option<&[u8]> {
        self.rewriting.as_ref().map(|rewriting| &rewriting.rota[..])
    }

    pub fn question(&self, i: usize) -> Question {
        self.questions[i % QUESTIONS]
    }

    /// The first questions as the records of a page; or, as a viewer asks, all for one minute.
    pub fn page(&self, count: usize, is_one_minute: bool) -> Vec<page::Question> {
        let minute = |i: usize| self.question(if is_one_minute { 0 } else { i }).minute;
        let record = |i| {
            let Question { user, permission, .. } = self.question(i);
            page::Question { user, permission, minute: minute(i), ..page::Question::default() }
        };
        (0..count).map(record).collect()
    }
}

/// The table with user 0 in no derived role that has another user: where a user can use nothing,
/// or next to nothing, every row has to be looked at.
fn without_user(table: &Table) -> Table {
    let mut other = table.clone();
    for entry in other.derived.iter_mut().filter(|entry| entry.users != 1) {
        entry.users &= !1;
    }
    other
}

/// As long as the table with the most rows, of derived roles alone.
fn entries_alone() -> Table {
    let entry = DerivedRole { source: 31, users: u64::MAX, permissions: u64::MAX };
    let derived = vec![entry; 1_000_000];
    let rows = Vec::new();
    Table { cycle: 40_320, users: 64, permissions: 64, roles: 32, derived, rows }
}

/// Every role is enabled at each minute, with all users and all permissions: no board has more to
/// add, and hardly a table that has so much is shorter.
fn everyone_at_once() -> Table {
    let entry = |source| DerivedRole { source, users: u64::MAX, permissions: u64::MAX };
    let row = |derived| Row { derived, begin: 0, end: END, offset: 0, length: 40_320 };
    let (derived, rows) = ((0..32).map(entry).collect(), (0..32).map(row).collect());
    Table { cycle: 40_320, users: 64, permissions: 64, roles: 32, derived, rows }
}

/// One role in five has 100 rows, the others one each, for one minute in so many: a search that
/// begins where it would end if the next role had as many rows as the last one begins far off.
/// Other such tables take the board longer yet (docs/PERFORMANCE.md has the worst that was found).
fn uneven_roles() -> Table {
    let entry = |source| DerivedRole { source, users: 0xff << source, permissions: 0xff };
    let rows = (0..32).flat_map(|derived| {
        let count = if derived % 5 == 3 { 100 } else { 1 };
        let row = move |i: u16| Row { derived, begin: 0, end: END, offset: 400 * i, length: 1 };
        (0..count).map(row)
    });
    let (derived, rows) = ((0..32).map(entry).collect(), rows.collect());
    Table { cycle: 40_320, users: 64, permissions: 64, roles: 32, derived, rows }
}

pub fn inputs() -> Vec<Input> {
    let mut random = Random::new(2);
    let small = Rota::parse(&data::small_rota()).expect("well formed");
    let many_sets = fine_rota(&mut random, 32, 8, 1, Sets::Many);
    let mut inputs = vec![
        Input::new("small", Rows::Joined, small),
        Input::new("weekly", Rows::Joined, weekly_rota()),
        // 17 eras and 129 cells for 3 roles.
        Input::new(
            "table of about 64 KiB",
            Rows::Joined,
            fine_rota(&mut random, 8, 8, 3, Sets::Many),
        ),
        Input::new("many sets of one role", Rows::Unjoined, many_sets),
        // All counts of these rotas are at their limits: no rota is longer. Unjoined, no table of
        // one has more rows.
        Input::new("most rows", Rows::Unjoined, most_rows_rota()),
        Input::new("most rows, most sets", Rows::Unjoined, most_sets_rota(&mut random)),
        Input::new("long runs", Rows::Joined, fine_rota(&mut random, 32, 8, 32, Sets::Few)),
    ];
    let cuts = worst::cuts().into_iter();
    inputs.extend(cuts.map(|(name, cut)| Input::new(name, Rows::Unjoined, cut.rota())));
    let by_hand = [
        ("derived roles alone", entries_alone()),
        ("everyone at once", everyone_at_once()),
        ("uneven roles", uneven_roles()),
    ];
    let of_table = |(name, table)| Input::of_table(name, &table, |random| random.below(END));
    inputs.extend(by_hand.into_iter().map(of_table));
    inputs
}
