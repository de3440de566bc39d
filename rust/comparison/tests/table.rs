//! Tables: read, asked, and asked who holds anything; rewritten, made by hand and damaged.

use cases::case::{Case, Tally, tallied};
use cases::{data, generate};
use comparison::compare::asked::{self, compare_question, compare_read};
use comparison::compare::table::{self, compare_next_use};
use comparison::ffi::table::Board;
use comparison::{expected, ffi};
use reference::END;
use reference::rewriting;
use reference::rota::Rota;
use reference::table::{DerivedRole, Row, Table};

type Lent = asked::Lent<Table>;

/// The small rota's table, as its file holds it.
fn small() -> Table {
    Table::parse(&data::small_table()).expect("well formed")
}

/// The same with its 12 rows unjoined.
fn unjoined_small() -> Table {
    rewriting::unjoined(&Rota::parse(&data::small_rota()).expect("well formed"))
}

#[test]
fn worked_minutes() {
    asked::worked_minutes::<Table>();
}

/// Each rule kept at its limit and then broken, with the number that is due.
#[test]
fn limits() {
    let case = Case::new("limits", 0);
    let mut tally = Tally::new("limits");
    let mut read_bytes = |bytes: Vec<u8>| {
        let lent = Lent::new(bytes);
        compare_read(&case, &mut tally, &lent);
        ffi::table::read(&lent.bytes).refusal
    };
    let whole = unjoined_small().encode();
    assert_eq!(read_bytes(whole[..15].to_vec()), 21);
    assert_eq!(read_bytes(whole[..16].to_vec()), 25);
    assert_eq!(read_bytes([&whole[..], &[0]].concat()), 25);
    let mut read = |change: &dyn Fn(&mut Table)| {
        let mut table = unjoined_small();
        change(&mut table);
        read_bytes(table.encode())
    };
    assert_eq!(read(&|_| ()), 0);
    for (cycle, refusal) in [(0, 23), (9, 0), (6, 27), (40_320, 0), (40_321, 23), (65_535, 23)] {
        assert_eq!(read(&|t| t.cycle = cycle), refusal, "cycle {cycle}");
    }
    for (count, refusal) in [(63, 0), (64, 0), (65, 24), (255, 24), (0, 26)] {
        assert_eq!(read(&|t| t.users = count), refusal);
        assert_eq!(read(&|t| t.permissions = count), refusal);
    }
    assert_eq!(read(&|t| t.users = 1), 26);
    for (roles, refusal) in [(0, 26), (32, 0), (33, 24), (256, 24), (257, 24), (65_535, 24)] {
        assert_eq!(read(&|t| t.roles = roles), refusal, "roles {roles}");
    }
    // Entries.
    assert_eq!(read(&|t| t.derived[1] = t.derived[0]), 0, "entries may repeat");
    assert_eq!(read(&|t| (t.roles, t.derived[2].source) = (2, 1)), 28);
    assert_eq!(read(&|t| (t.roles, t.derived[1].source) = (2, 1)), 26);
    assert_eq!(read(&|t| t.derived[2].source = 1), 26);
    assert_eq!(read(&|t| t.derived[2].users = 0), 26);
    assert_eq!(read(&|t| t.derived[2].permissions = 0), 26);
    assert_eq!(read(&|t| t.derived[2].users = 4), 26);
    assert_eq!(read(&|t| t.derived[2].permissions = 2), 26);
    assert_eq!(read(&|t| (t.users, t.derived[2].users) = (63, 1 << 63)), 26);
    assert_eq!(read(&|t| (t.users, t.derived[2].users) = (64, 1 << 63)), 0);
    assert_eq!(read(&|t| (t.permissions, t.derived[2].permissions) = (64, u64::MAX)), 0);
    assert_eq!(read(&|t| t.rows.clear()), 0, "entries may have no row");
    assert_eq!(read(&|t| t.derived.clear()), 27, "rows may not");
    assert_eq!(read(&|t| (t.derived.clear(), t.rows.clear()).0), 0);
    assert_eq!(read(&|t| t.rows[0].end = 0), 27, "no era, in the first row");
    // The first row and the last.
    for i in [0, 11] {
        assert_eq!(read(&|t| t.rows[i].derived = 3), 27);
        assert_eq!(read(&|t| t.rows[i].derived = u32::MAX), 27);
        assert_eq!(read(&|t| t.rows[i].begin = t.rows[i].end), 27);
        assert_eq!(read(&|t| t.rows[i].end = END + 1), 27);
        assert_eq!(read(&|t| t.rows[i].length = 0), 27);
        assert_eq!(read(&|t| (t.rows[i].offset, t.rows[i].length) = (9, 2)), 27);
        assert_eq!(read(&|t| (t.rows[i].offset, t.rows[i].length) = (65_535, 1)), 27);
    }
    assert_eq!(read(&|t| (t.rows[11].offset, t.rows[11].length) = (9, 1)), 0);
    // The order of rows.
    assert_eq!(read(&|t| t.rows[1].offset = 1), 28);
    assert_eq!(read(&|t| t.rows[1] = t.rows[0]), 28);
    assert_eq!(read(&|t| (t.rows[4].begin, t.rows[4].end) = (9, 10)), 28);
    assert_eq!(read(&|t| t.rows.swap(3, 4)), 28);
    assert_eq!(read(&|t| t.rows[11].end = END), 28, "one of two overlapping eras");
    assert_eq!(read(&|t| t.rows[9..].iter_mut().for_each(|row| row.end = END)), 0);
    // A refusal of one row comes before any of the next.
    assert_eq!(read(&|t| (t.rows[1].offset, t.rows[2].length) = (1, 0)), 28);
    assert_eq!(read(&|t| (t.rows[1].length, t.rows[2].offset) = (0, 0)), 27);
    // A greater source may start again at any minute; a lower one may not follow.
    let two_sources = |t: &mut Table, order: [u32; 2]| {
        let entry = |source| DerivedRole { source, users: 1, permissions: 1 };
        let row = |derived| Row { derived, begin: 0, end: 9, offset: 0, length: 3 };
        t.roles = 32;
        t.derived = vec![entry(0), entry(31)];
        t.rows = order.map(row).to_vec();
    };
    assert_eq!(read(&|t| two_sources(t, [0, 1])), 0);
    assert_eq!(read(&|t| two_sources(t, [1, 0])), 28);
    let mut format = |format: u16| {
        let mut bytes = whole.clone();
        bytes[..2].copy_from_slice(&format.to_le_bytes());
        read_bytes(bytes)
    };
    assert_eq!([0, 1, 2, 3, 258, 512].map(&mut format), [22, 22, 0, 22, 22, 22]);
    tally.reached((0..=0).chain(21..=28));
}

#[test]
fn huge_counts_in_short_files() {
    tallied("huge_counts_in_short_files", 20_000, table::huge_counts).reached([25]);
}

#[test]
fn tables_made_by_hand() {
    tallied("tables_made_by_hand", 20_000, table::by_hand)
        .reached([0, 33, 34, 35])
        .also(&["yes", "no"]);
}

#[test]
fn rewritten_tables() {
    tallied("rewritten_tables", 5_000, table::rewritten)
        .reached([0, 33, 34, 35])
        .also(&["yes", "no"]);
}

/// The tables of rotas at the limits; these have many thousand rows.
#[test]
fn largest_rewritten_tables() {
    let mut tally = Tally::new("largest_rewritten_tables");
    for number in 0..3 {
        let mut case = Case::new("largest_rewritten_tables", number);
        let rota = generate::rota_of(&mut case.random, &generate::LIMITS);
        let table = generate::table_of_rota(&mut case.random, &rota);
        let lent = Lent::new(table.encode());
        compare_read(&case, &mut tally, &lent);
        for _ in 0..10 {
            let t = generate::rota_minute(&mut case.random, &rota);
            let (user, permission) = (case.random.below(64), case.random.below(64));
            // Not through `same`: these bytes are too many to print.
            let expected = expected::table::question(&lent.parsed, user, permission, t);
            let proved = ffi::table::question(&lent.bytes, user, permission, t);
            tally.add(expected.refusal);
            assert_eq!(proved, expected, "seed {} case {number} minute {t}", case.seed);
            let expected = expected::table::holders(&lent.parsed, t);
            assert_eq!(ffi::table::holders(&lent.bytes, t), expected, "case {number} minute {t}");
            let expected = expected::table::next_use(&lent.parsed, user, permission, t);
            let proved = ffi::table::next_use(&lent.bytes, user, permission, t);
            assert_eq!(proved, expected, "seed {} case {number} from {t}", case.seed);
            let expected = expected::table::board(&lent.parsed, t);
            assert_eq!(ffi::table::board(&lent.bytes, t), expected, "case {number} minute {t}");
        }
    }
    tally.reached([0]);
}

#[test]
fn small_tables_minute_by_minute() {
    tallied(
        "small_tables_minute_by_minute",
        150,
        asked::minute_by_minute(compare_question::<Table>),
    )
    .reached([0, 33, 34, 35]);
}

#[test]
fn questions_at_and_over_their_limits() {
    tallied(
        "questions_at_and_over_their_limits",
        300,
        asked::at_and_over_limits(compare_question::<Table>),
    )
    .reached([0, 33, 34, 35]);
}

#[test]
fn every_length() {
    let compare =
        |case: &mut Case, tally: &mut Tally| asked::every_length::<Table>(case, tally, 20);
    tallied("every_length", 150, compare).reached([0, 21, 25]);
}

#[test]
fn every_byte_changed() {
    tallied("every_byte_changed", 50, asked::every_byte_changed::<Table>)
        .reached((0..=0).chain(22..=28));
}

#[test]
fn several_faults() {
    tallied("several_faults", 50_000, table::several_faults)
        .reached((0..=0).chain(21..=28).chain([33, 34, 35]));
}

/// The next use of permission 0 by user 0 from a minute, on a table of one derived role for each of
/// these lists of rows, which are begin, end, offset and length.
fn next_from(cycle: u16, roles: &[&[(u32, u32, u16, u16)]], m: u32) -> Option<u32> {
    let entry = |source| DerivedRole { source, users: 1, permissions: 1 };
    let derived = (0..).zip(roles).map(|(source, _)| entry(source)).collect();
    let row =
        |derived, &(begin, end, offset, length): &_| Row { derived, begin, end, offset, length };
    let rows = (0..).zip(roles).flat_map(|(d, rows)| rows.iter().map(move |r| row(d, r))).collect();
    let table = Table { cycle, users: 2, permissions: 2, roles: 32, derived, rows };
    let bytes = table.encode();
    for (user, permission) in [(0, 1), (1, 0)] {
        let none = ffi::table::next_use(&bytes, user, permission, m);
        assert_eq!((none.refusal, none.found, none.minute), (0, 0, 0), "nobody else");
    }
    let next = ffi::table::next_use(&bytes, 0, 0, m);
    assert_eq!(
        (next.refusal, table.next_use(0, 0, m)),
        (0, Ok((next.found == 1).then_some(next.minute)))
    );
    (next.found == 1).then_some(next.minute)
}

#[test]
fn worked_next_uses() {
    let small = small().encode();
    let next = |user, m| {
        let next = ffi::table::next_use(&small, user, 0, m);
        assert_eq!(next.refusal, 0);
        (next.found == 1).then_some(next.minute)
    };
    assert_eq!([0, 4, 8, 19].map(|m| next(0, m)), [Some(0), Some(6), Some(10), None]);
    assert_eq!([0, 36, 37].map(|m| next(1, m)), [Some(12), Some(36), None]);
    let refusal = |user, permission, m| ffi::table::next_use(&small, user, permission, m).refusal;
    assert_eq!(refusal(1, 0, END - 1), 0);
    assert_eq!([refusal(2, 1, END), refusal(2, 1, END - 1), refusal(1, 1, END - 1)], [33, 34, 35]);
    assert_eq!(ffi::table::next_use(&small[..15], 2, 1, END).refusal, 21);

    // A phase before the cell, in it and behind it; an end inside the cell, and before it.
    let cell = |end| move |m| next_from(10, &[&[(0, end, 2, 3)]], m);
    assert_eq!([1, 2, 4, 5, 7, 9].map(cell(100)), [2, 2, 4, 12, 12, 12].map(Some));
    assert_eq!([94, 95].map(cell(104)), [Some(94), Some(102)]);
    assert_eq!([95, 101, 102, 103].map(cell(103)), [Some(102), Some(102), Some(102), None]);
    assert_eq!([94, 95, 101].map(cell(102)), [Some(94), None, None]);
    // A begin inside the cell, and behind it.
    assert_eq!(next_from(10, &[&[(3, 100, 2, 3)]], 0), Some(3));
    assert_eq!(next_from(10, &[&[(7, 100, 2, 3)]], 0), Some(12));
    assert_eq!(next_from(10, &[&[(7, 12, 2, 3)]], 0), None, "no minute of its own");
    // The least minute, not the first row's: later rows of a role, and other roles.
    assert_eq!(next_from(10, &[&[(50, 60, 0, 1)], &[(10, 60, 9, 1)]], 0), Some(19));
    assert_eq!(next_from(10, &[&[(0, 60, 0, 1), (0, 60, 5, 1)]], 11), Some(15));
    assert_eq!(next_from(10, &[&[(0, 60, 0, 1), (0, 60, 5, 1)]], 16), Some(20));
    // Cycles of 1 and 40,320; the last minutes, in a cycle that is cut short.
    assert_eq!([0, 6, 7].map(|m| next_from(1, &[&[(5, 7, 0, 1)]], m)), [Some(5), Some(6), None]);
    assert_eq!(next_from(1, &[&[(0, END, 0, 1)]], END - 1), Some(END - 1));
    let last_minute = |m| next_from(40_320, &[&[(0, END, 40_319, 1)]], m);
    assert_eq!([0, 40_319, 40_320].map(last_minute), [40_319, 40_319, 80_639].map(Some));
    let whole = END - END % 40_320;
    assert_eq!([whole - 1, whole, END - 1].map(last_minute), [Some(whole - 1), None, None]);
    let first_minute = |m| next_from(40_320, &[&[(0, END, 0, 1)]], m);
    assert_eq!([whole, whole + 1].map(first_minute), [Some(whole), None]);
    // Nothing to use.
    assert_eq!(next_from(10, &[&[]], 0), None);
    assert_eq!(next_from(10, &[], 0), None);
}

#[test]
fn next_uses() {
    tallied("next_uses", 20_000, table::next_uses)
        .reached([0, 33, 34, 35])
        .also(&["now", "later", "never"]);
}

#[test]
fn next_uses_by_questions() {
    tallied("next_uses_by_questions", 300, table::next_uses_by_questions).reached([0]);
}

#[test]
fn next_uses_minute_by_minute() {
    tallied("next_uses_minute_by_minute", 150, asked::minute_by_minute(compare_next_use))
        .reached([0, 33, 34, 35]);
}

#[test]
fn next_uses_at_and_over_their_limits() {
    tallied("next_uses_at_and_over_their_limits", 100, asked::at_and_over_limits(compare_next_use))
        .reached([0, 33, 34, 35]);
}

/// The rows of a board, and its sets up to the last that has a right.
fn board(table: &Table, t: u32) -> (u32, Vec<u64>) {
    let bytes = table.encode();
    let board = ffi::table::board(&bytes, t);
    assert_eq!(board, expected::table::board(&Ok(table.clone()), t));
    assert_eq!(board.refusal, 0);
    let used = board.rights.iter().rposition(|&rights| rights != 0).map_or(0, |last| last + 1);
    (board.rows, board.rights[..used].to_vec())
}

#[test]
fn worked_boards() {
    for table in [small(), unjoined_small()] {
        assert_eq!(board(&table, 3), (1, vec![1]));
        assert_eq!(board(&table, 12), (1, vec![1, 1]));
        assert_eq!(board(&table, 37), (0, vec![]));
        assert_eq!(board(&table, END - 1), (0, vec![]));
        let bytes = table.encode();
        let refused = |refusal| Board { refusal, rows: 0, rights: [0; 64] };
        for t in [END, END + 1, 1 << 31, u32::MAX] {
            assert_eq!(ffi::table::board(&bytes, t), refused(33));
        }
        // Those of the bytes come first.
        assert_eq!(ffi::table::board(&bytes[..15], END), refused(21));
        assert_eq!(ffi::table::board(&bytes[1..], END), refused(22));
        assert_eq!(ffi::table::board(&bytes[..bytes.len() - 1], 3), refused(25));
    }
}

/// 32 roles, 64 users and 64 permissions; role r is enabled at the phases from r on.
#[test]
fn boards_of_64_users() {
    let derived: Vec<DerivedRole> = (0..32)
        .map(|source| DerivedRole {
            source,
            users: 1 << source | 1 << 63,
            permissions: 1 << (63 - source),
        })
        .collect();
    let rows: Vec<Row> = (0..32)
        .map(|derived| Row { derived, begin: 0, end: END, offset: derived as u16, length: 60 })
        .collect();
    let mut table = Table { cycle: 100, users: 64, permissions: 64, roles: 32, derived, rows };
    assert_eq!(board(&table, 99), (0, vec![]));
    assert_eq!(board(&table, 100).0, 1);
    let (rows, rights) = board(&table, END - 1 - (END - 1) % 100 + 31);
    assert_eq!((rows, rights.len()), (32, 64));
    assert_eq!((rights[0], rights[31], rights[32]), (1 << 63, 1 << 32, 0));
    assert_eq!(rights[63], u64::MAX << 32, "those of all roles together");
    // At phase 70 the roles up to 10 are over.
    assert_eq!(board(&table, 70).0, 21);
    // A role that begins or ends at the minute; a derived role that no row enables.
    (table.rows[31].begin, table.rows[30].end) = (50, 50);
    assert_eq!([49, 50, 51].map(|t| board(&table, t).0), [31, 31, 31]);
    assert_eq!([49, 50].map(|t| board(&table, t).1[63] >> 32 & 3), [2, 1]);
    table.rows.clear();
    assert_eq!(board(&table, 50), (0, vec![]));
    // Nobody at all.
    table.derived.clear();
    (table.users, table.permissions, table.roles) = (0, 0, 0);
    assert_eq!([0, END - 1].map(|t| board(&table, t)), [(0, vec![]), (0, vec![])]);
}

#[test]
fn boards() {
    tallied("boards", 20_000, table::boards).reached([0, 33]).also(&[
        "no row",
        "one row",
        "several rows",
    ]);
}

#[test]
fn boards_minute_by_minute() {
    tallied("boards_minute_by_minute", 300, table::boards_minute_by_minute).reached([0, 33]);
}

#[test]
fn boards_by_questions() {
    tallied("boards_by_questions", 300, table::boards_by_questions).reached([0]).also(&["rights"]);
}
