//! Tables: rewritten, made by hand and damaged.

use cases::case::{Case, Tally};
use cases::random::Random;
use cases::{data, generate};
use reference::page::Question;
use reference::table::Table;
use reference::{END, Refusal, set};

use super::asked::{Kind, Lent, compare_all, compare_any_question, compare_question};
use super::rota::some_rota;
use crate::ffi::rota::{Answered, Holders};
use crate::ffi::table::{Board, NextUse, TableRead};
use crate::{expected, ffi};

impl Kind for Table {
    type Read = TableRead;

    fn parse(bytes: &[u8]) -> Result<Table, Refusal> {
        Table::parse(bytes)
    }

    fn encode(&self) -> Vec<u8> {
        Table::encode(self)
    }

    fn stored() -> Table {
        Table::parse(&data::small_table()).expect("well formed")
    }

    fn small(random: &mut Random) -> Table {
        generate::small_table(random)
    }

    fn any(random: &mut Random) -> Table {
        generate::table(random)
    }

    fn minute(&self, random: &mut Random) -> u32 {
        generate::table_minute(random, self)
    }

    fn expected(parsed: &Result<Table, Refusal>) -> TableRead {
        expected::table::read(parsed)
    }

    fn read(bytes: &[u8]) -> TableRead {
        ffi::table::read(bytes)
    }

    fn question(bytes: &[u8], user: u32, permission: u32, t: u32) -> Answered {
        ffi::table::question(bytes, user, permission, t)
    }

    fn page(bytes: &[u8], questions: &mut [Question]) -> u32 {
        ffi::table::page(bytes, questions)
    }

    fn holders_of(bytes: &[u8], t: u32) -> Holders {
        ffi::table::holders(bytes, t)
    }
}

/// When the user can next use the permission: counted as now, later or never.
pub fn compare_next_use(
    case: &Case,
    tally: &mut Tally,
    lent: &Lent<Table>,
    user: u32,
    permission: u32,
    m: u32,
) {
    let expected = expected::table::next_use(&lent.parsed, user, permission, m);
    tally.add(expected.refusal);
    match expected {
        NextUse { refusal: 0, found: 0, .. } => tally.count("never"),
        NextUse { refusal: 0, minute, .. } => {
            tally.count(if minute == m { "now" } else { "later" })
        }
        _ => (),
    }
    let proved = ffi::table::next_use(&lent.bytes, user, permission, m);
    let given = ("next use", "user", user, "permission", permission, "from", m);
    case.same(proved, expected, &lent.bytes, given);
}

/// The board of a minute: counted by whether no row, one or several enable a derived role then.
pub fn compare_board(case: &Case, tally: &mut Tally, lent: &Lent<Table>, t: u32) {
    let expected = expected::table::board(&lent.parsed, t);
    tally.add(expected.refusal);
    match expected {
        Board { refusal: 0, rows: 0, .. } => tally.count("no row"),
        Board { refusal: 0, rows: 1, .. } => tally.count("one row"),
        Board { refusal: 0, .. } => tally.count("several rows"),
        _ => (),
    }
    case.same(ffi::table::board(&lent.bytes, t), expected, &lent.bytes, ("board", "minute", t));
}

/// A user and a permission that a row grants, and any minute at which answers may change.
fn own_numbers(random: &mut Random, table: &Table) -> Option<(u32, u32, u32)> {
    if table.rows.is_empty() {
        return None;
    }
    let row = random.pick(&table.rows);
    let entry = &table.derived[row.derived as usize];
    let (user, permission) = (entry.users.trailing_zeros(), entry.permissions.ilog2());
    Some((user, permission, table.minute(random)))
}

/// A table that no rewriting makes: of any size once in three times, else a small one.
pub fn table_by_hand(random: &mut Random) -> Table {
    if random.one_in(3) { generate::table(random) } else { generate::small_table(random) }
}

/// Tables that no rewriting makes: repeated entries, entries without rows, other numberings.
pub fn by_hand(case: &mut Case, tally: &mut Tally) {
    let table = match case.random.below(5) {
        0 => generate::many_rows_table(&mut case.random),
        _ => table_by_hand(&mut case.random),
    };
    let lent = Lent::new(table.encode());
    assert!(lent.parsed.is_ok(), "the builder makes only accepted tables");
    compare_all(case, tally, &lent, &table, 6);
    // Questions that are likely to be a yes.
    for _ in 0..3 {
        if let Some((user, permission, t)) = own_numbers(&mut case.random, &table) {
            compare_question(case, tally, &lent, user, permission, t);
        }
    }
}

/// A table by hand, small or of any size, or one of a rota.
pub fn any_table(random: &mut Random) -> Table {
    match random.below(8) {
        0 => generate::table(random),
        1 | 2 => {
            let rota = generate::touching_rota(random);
            generate::table_of_rota(random, &rota)
        }
        _ => generate::small_table(random),
    }
}

/// The next uses of tables by hand and rewritten, of any user and permission and of a row's own.
pub fn next_uses(case: &mut Case, tally: &mut Tally) {
    let table = any_table(&mut case.random);
    let lent = Lent::new(table.encode());
    for _ in 0..4 {
        let user = generate::number(&mut case.random, table.users.into());
        let permission = generate::number(&mut case.random, table.permissions.into());
        let m = table.minute(&mut case.random);
        compare_next_use(case, tally, &lent, user, permission, m);
        if let Some((user, permission, m)) = own_numbers(&mut case.random, &table) {
            compare_next_use(case, tally, &lent, user, permission, m);
        }
    }
}

/// The next use from a minute is that minute where the question is a yes, and else the next use
/// from the minute after it: the request's own words, by the proved questions.
pub fn next_uses_by_questions(case: &mut Case, tally: &mut Tally) {
    let table = generate::small_table(&mut case.random);
    let bytes = table.encode();
    for user in 0..table.users.into() {
        for permission in 0..table.permissions.into() {
            for (first, last) in [(0, 60), (END - 40, END)] {
                let next = |m| ffi::table::next_use(&bytes, user, permission, m);
                // After the last minute there is none.
                let mut after = if last < END { next(last) } else { NextUse::default() };
                for m in (first..last).rev() {
                    let is_yes = ffi::table::question(&bytes, user, permission, m).yes == 1;
                    let expected =
                        if is_yes { NextUse { refusal: 0, found: 1, minute: m } } else { after };
                    after = next(m);
                    tally.add(after.refusal);
                    case.same(after, expected, &bytes, ("next use", user, permission, "from", m));
                }
            }
        }
    }
}

/// Half of the tables have several rows at most minutes.
fn board_table(random: &mut Random) -> Table {
    if random.one_in(2) { generate::crowded_table(random) } else { any_table(random) }
}

/// The boards of tables by hand and rewritten, where answers may change.
pub fn boards(case: &mut Case, tally: &mut Tally) {
    let table = board_table(&mut case.random);
    let lent = Lent::new(table.encode());
    for _ in 0..4 {
        let t = table.minute(&mut case.random);
        compare_board(case, tally, &lent, t);
    }
}

/// The boards of a stretch of minutes.
pub fn boards_minute_by_minute(case: &mut Case, tally: &mut Tally) {
    let make = if case.number % 2 == 0 { generate::small_table } else { generate::crowded_table };
    let lent = Lent::new(make(&mut case.random).encode());
    for t in (0..50).chain(END - 10..END + 1).chain([1 << 31, u32::MAX]) {
        compare_board(case, tally, &lent, t);
    }
}

/// A board has what the proved questions say yes to, whoever is asked for, and nothing else: the
/// request's own words.
pub fn boards_by_questions(case: &mut Case, tally: &mut Tally) {
    let table = board_table(&mut case.random);
    let bytes = table.encode();
    for _ in 0..3 {
        let t = table.minute(&mut case.random).min(END - 1);
        let board = ffi::table::board(&bytes, t);
        tally.add(board.refusal);
        for (user, rights) in (0..).zip(board.rights) {
            let is_yes = |&right: &u32| ffi::table::question(&bytes, user, right, t).yes == 1;
            let asked = (0..64).filter(is_yes).fold(0, set::with);
            tally.count_if(asked != 0, "rights");
            case.same(rights, asked, &bytes, ("board", "user", user, "minute", t));
        }
    }
}

/// The tables of random rotas, joined and unjoined, asked where their own answers change and where
/// the rotas' do.
pub fn rewritten(case: &mut Case, tally: &mut Tally) {
    let rota = some_rota(&mut case.random, 10);
    let table = generate::table_of_rota(&mut case.random, &rota);
    let lent = Lent::new(table.encode());
    assert!(lent.parsed.is_ok(), "a rewritten table is accepted");
    compare_all(case, tally, &lent, &table, 5);
    for _ in 0..5 {
        compare_any_question(case, tally, &lent, &rota);
    }
}

/// Several faults at once, so that the order of refusals shows.
pub fn several_faults(case: &mut Case, tally: &mut Tally) {
    let table = any_table(&mut case.random);
    let lent = Lent::new(generate::damaged_table(&mut case.random, &table));
    compare_all(case, tally, &lent, &table, 1);
    let (user, permission) = (case.random.below(66), case.random.below(66));
    let m = table.minute(&mut case.random);
    compare_next_use(case, tally, &lent, user, permission, m);
    let t = table.minute(&mut case.random);
    compare_board(case, tally, &lent, t);
}

/// Counts near 2^32 in short files, most with a size that is right in 32 bits.
pub fn huge_counts(case: &mut Case, tally: &mut Tally) {
    let table = generate::small_table(&mut case.random);
    let mut bytes = table.encode();
    if case.random.one_in(4) {
        bytes.truncate(case.random.between(16, 60) as usize);
    }
    let (derived, rows) = (table.derived.len() as u64, table.rows.len() as u64);
    let (derived, rows) = generate::huge_counts(&mut case.random, derived, rows);
    bytes[8..12].copy_from_slice(&(derived as u32).to_le_bytes());
    bytes[12..16].copy_from_slice(&(rows as u32).to_le_bytes());
    let lent = Lent::new(bytes);
    assert_eq!(lent.parsed, Err(25), "seed {} case {}", case.seed, case.number);
    compare_all(case, tally, &lent, &table, 1);
}
