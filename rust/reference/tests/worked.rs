//! The worked examples: the small rota, its table and listing, and the limits.

use cases::generate::{Sets, fine_rota};
use cases::random::Random;
use cases::{data, joining, tidying};
use reference::END;
use reference::hours::{Hours, HoursRef};
use reference::listing;
use reference::page::{Question, page};
use reference::policy::{Policy, question};
use reference::rewriting::{self, rewrite};
use reference::rota::{ANY_ORDER, Rota, Row, TIDY};
use reference::service::{Call, Lent, Reply, State, serve};
use reference::table::Table;
use reference::tidying::tidy;

/// S, as the text describes it.
fn small() -> Rota {
    Rota {
        format: ANY_ORDER,
        cycle: 10,
        hours: vec![Hours::new(0, 20, &[(0, 4), (6, 2)]), Hours::new(10, 40, &[(2, 5)])],
        users: 2,
        permissions: 1,
        roles: vec![HoursRef::Always],
        user_rows: vec![
            Row::new(0, 0, HoursRef::Numbered(0)),
            Row::new(1, 0, HoursRef::Numbered(1)),
        ],
        permission_rows: vec![Row::new(0, 0, HoursRef::Always)],
    }
}

#[test]
fn small_rota_reads_and_encodes() {
    assert_eq!(data::small_rota().len(), 54);
    assert_eq!(small().encode(), data::small_rota());
    assert_eq!(Rota::parse(&data::small_rota()), Ok(small()));
}

#[test]
fn small_rota_rewrites_to_its_table() {
    let table = rewriting::table(&small());
    assert_eq!(table.encode(), data::small_table());
    assert_eq!(Table::parse(&data::small_table()), Ok(table));
}

/// Of the 12 rows of its fields four are joined to the one before.
#[test]
fn small_rota_has_8_rows() {
    let (unjoined, table) = (rewriting::unjoined(&small()), rewriting::table(&small()));
    assert_eq!((unjoined.rows.len(), unjoined.encode().len()), (12, 259));
    let rows: Vec<_> = table
        .rows
        .iter()
        .map(|row| (row.derived, row.begin, row.end, row.offset, row.length))
        .collect();
    let expected = [
        (0, 0, 10, 0, 4),
        (0, 0, 10, 6, 2),
        (0, 10, 20, 0, 2),
        (1, 10, 20, 2, 2),
        (2, 10, 20, 4, 2),
        (1, 10, 20, 6, 1),
        (0, 10, 20, 7, 1),
        (2, 20, 40, 2, 5),
    ];
    assert_eq!(rows, expected);
    assert_eq!(table.derived, unjoined.derived);
}

#[test]
fn small_rota_needs_195_bytes() {
    let rota = data::small_rota();
    let mut area = vec![0xa5; 300];
    let written = rewrite(&rota, &mut area).unwrap();
    assert_eq!((written.derived, written.rows, written.length), (3, 8, 195));
    assert_eq!(area[..195], data::small_table());
    assert!(area[195..].iter().all(|&byte| byte == 0xa5), "bytes past the length stay");

    for size in [195, 196, 258, 259] {
        assert!(rewrite(&rota, &mut vec![0; size]).is_ok());
    }
    let mut area = vec![0xa5; 194];
    assert_eq!(rewrite(&rota, &mut area), Err(20));
    assert!(area.iter().all(|&byte| byte == 0xa5), "a refusal writes nothing");
    assert_eq!(rewrite(&rota, &mut []), Err(20));
    assert_eq!(rewrite(&rota[..53], &mut []), Err(9), "the rota's refusals come first");
    assert_eq!(rewriting::size(&rota), Ok(written), "the size is told without an area");
    assert_eq!(rewriting::size(&rota[..53]), Err(9));
}

/// Runs of any length; but not over a cell without a minute, across eras, round the cycle's end, and
/// not rows of two derived roles.
#[test]
fn rows_that_touch_are_one() {
    for (name, worked) in joining::all_worked() {
        assert_eq!(Rota::parse(&worked.rota.encode()), Ok(worked.rota.clone()), "{name}");
        let (unjoined, table) = (rewriting::unjoined(&worked.rota), rewriting::table(&worked.rota));
        assert_eq!((table.derived.len(), &table.rows), (worked.derived, &worked.rows), "{name}");
        assert_eq!(table.derived, unjoined.derived, "{name}");
        for table in [table, unjoined] {
            assert_eq!(Table::parse(&table.encode()), Ok(table), "{name}");
        }
    }
}

#[test]
fn small_listing() {
    let printed = listing::program(&data::small_rota());
    assert_eq!(printed.as_bytes(), data::small_listing());
}

#[test]
fn listing_refusals() {
    assert_eq!(listing::program(&[]), "refused 1\n");
    assert_eq!(listing::program(&[0; 8_192]), "refused 2\n");
    assert_eq!(listing::program(&[0; 8_193]), "refused 9\n");
    let large = fine_rota(&mut Random::new(1), 32, 8, 1, Sets::Many);
    assert!(rewriting::table(&large).rows.len() >= 4_096);
    assert_eq!(listing::program(&large.encode()), "refused 20\n");
}

#[test]
fn worked_minutes() {
    let rota = small();
    let table = rewriting::table(&rota);
    for policy in [&rota as &dyn Policy, &table] {
        let ask = |user, t| question(policy, user, 0, t).unwrap();
        assert_eq!(ask(0, 3), Some(0));
        assert_eq!(ask(0, 4), None);
        assert_eq!((ask(0, 12), ask(1, 12)), (Some(0), Some(0)));
        assert_eq!(ask(1, 36), Some(0));
        for t in [37, 40] {
            assert_eq!((ask(0, t), ask(1, t)), (None, None));
        }
        assert_eq!(question(policy, 0, 0, END - 1), Ok(None));
        assert_eq!(question(policy, 9, 9, END), Err(33));
        assert_eq!(question(policy, 2, 9, 0), Err(34));
        assert_eq!(question(policy, 256, 0, 0), Err(34));
        assert_eq!(question(policy, 1, 1, 0), Err(35));
        assert_eq!(question(policy, 1, 256, 0), Err(35));
    }
}

#[test]
fn worked_pages() {
    let rota = small();
    let table = rewriting::table(&rota);
    let asked = |user, minute| Question { user, permission: 0, minute, ..Question::default() };
    let list = [asked(0, 3), asked(0, 4), asked(1, 12), asked(9, END), asked(2, 0)];
    for policy in [&rota as &dyn Policy, &table] {
        let after = page(Ok(policy), &list).unwrap();
        let answers: Vec<_> = after
            .iter()
            .map(|question| (question.answer.refusal, question.answer.yes, question.answer.role))
            .collect();
        assert_eq!(answers, [(0, 1, 0), (0, 0, 0), (0, 1, 0), (33, 0, 0), (34, 0, 0)]);
        let kept = |question: &Question| (question.user, question.permission, question.minute);
        assert!(after.iter().map(kept).eq(list.iter().map(kept)));
        assert_eq!(page(Ok(policy), &[]), Ok(vec![]));
        assert_eq!(page(Ok(policy), &[list[1]; 256]), Ok(vec![after[1]; 256]));
        assert_eq!(page(Ok(policy), &[list[1]; 257]), Err(51));
    }
    assert_eq!(page(Err(9), &[]), Err(9));
    assert_eq!(page(Err(9), &[list[1]; 257]), Err(51));
}

#[test]
fn worked_next_uses() {
    let table = rewriting::table(&small());
    let from = |user, m| table.next_use(user, 0, m);
    assert_eq!(
        [0, 4, 8, 19].map(|m| from(0, m)),
        [Ok(Some(0)), Ok(Some(6)), Ok(Some(10)), Ok(None)]
    );
    assert_eq!([0, 36, 37].map(|m| from(1, m)), [Ok(Some(12)), Ok(Some(36)), Ok(None)]);
    assert_eq!((from(0, END - 1), from(0, END), from(2, 0)), (Ok(None), Err(33), Err(34)));
    assert_eq!(table.next_use(0, 1, 0), Err(35));
}

#[test]
fn worked_boards() {
    let table = rewriting::table(&small());
    let board = |t| table.board(t).map(|board| (board.rows, board.permissions));
    let of = |first: [u64; 2]| {
        let mut permissions = [0; 64];
        permissions[..2].copy_from_slice(&first);
        permissions
    };
    assert_eq!(board(3), Ok((1, of([1, 0]))));
    assert_eq!(board(12), Ok((1, of([1, 1]))));
    assert_eq!(board(37), Ok((0, of([0, 0]))));
    assert_eq!((board(END - 1), board(END)), (Ok((0, of([0, 0]))), Err(33)));
}

#[test]
fn worked_calls() {
    let (rota, table) = (data::small_rota(), data::small_table());
    for lent in [Lent::Rota(&rota), Lent::Table(&table)] {
        let mut state = State::default();
        let mut call = |call| serve(lent, &mut state, call);
        assert_eq!(call(Call::Open(1)), Err(43));
        assert_eq!(call(Call::Open(0)), Ok(Reply::Done));
        assert_eq!(call(Call::Open(0)), Err(42));
        assert_eq!(call(Call::Ask(0, 0)), Ok(Reply::Answer(Some(0))));
        assert_eq!(call(Call::Ask(1, 0)), Err(44));
        assert_eq!(call(Call::Ask(1, 1)), Err(35));
        assert_eq!(call(Call::Ask(2, 1)), Err(34));
        assert_eq!(call(Call::Close(1)), Err(44));
        assert_eq!(call(Call::Close(256)), Err(34));
        assert_eq!(call(Call::Advance(4)), Ok(Reply::Closed(1)));
        assert_eq!(call(Call::Advance(3)), Err(41));
        assert_eq!(call(Call::Advance(4)), Ok(Reply::Closed(0)));
        assert_eq!(call(Call::Advance(END)), Err(33));
        assert_eq!(call(Call::Advance(END - 1)), Ok(Reply::Closed(0)));
        assert_eq!(state, State { now: END - 1, open: 0 });
    }
}

#[test]
fn odd_states() {
    let rota = small();
    let bytes = rota.encode();
    let lent = Lent::Rota(&bytes);
    let refused = |state: State, call| {
        let mut after = state;
        let refusal = serve(lent, &mut after, call).unwrap_err();
        assert_eq!(after, state, "a refusal leaves the state");
        refusal
    };
    assert_eq!(refused(State { now: END, open: 0 }, Call::Advance(0)), 40);
    assert_eq!(refused(State { now: 0, open: 4 }, Call::Open(256)), 40);
    assert_eq!(refused(State { now: 9, open: 0 }, Call::Advance(END)), 33);
    assert_eq!(serve(Lent::Rota(&[]), &mut State { now: END, open: 0 }, Call::Close(0)), Err(1));
    assert_eq!(serve(Lent::Table(&[]), &mut State { now: END, open: 0 }, Call::Close(0)), Err(21));
    assert_eq!(serve(Lent::Table(&bytes), &mut State::default(), Call::Close(0)), Err(22));
    // Someone open who holds nothing: an advance to the same minute judges no minute.
    let mut state = State { now: 4, open: 3 };
    assert_eq!(serve(lent, &mut state, Call::Advance(4)), Ok(Reply::Closed(0)));
    assert_eq!(state, State { now: 4, open: 3 });
}

/// What an advance leaves open of everyone, on the rota and on its table.
fn left(rota: &Rota, open: u64, now: u32, m: u32) -> u64 {
    let (rota_bytes, table_bytes) = (rota.encode(), rewriting::table(rota).encode());
    let [on_rota, on_table] = [Lent::Rota(&rota_bytes), Lent::Table(&table_bytes)].map(|lent| {
        let mut state = State { now, open };
        let reply = serve(lent, &mut state, Call::Advance(m));
        assert_eq!(reply, Ok(Reply::Closed((open & !state.open).count_ones())));
        assert_eq!(state.now, m);
        state.open
    });
    assert_eq!(on_rota, on_table);
    on_rota
}

#[test]
fn a_session_does_not_sleep_through_a_closing() {
    let (rota, table) = (data::small_rota(), data::small_table());
    for lent in [Lent::Rota(&rota), Lent::Table(&table)] {
        let mut state = State::default();
        let mut call = |call| serve(lent, &mut state, call);
        assert_eq!(call(Call::Advance(1)), Ok(Reply::Closed(0)));
        assert_eq!(call(Call::Open(0)), Ok(Reply::Done));
        // Volunteer 0 holds nothing at 4, 5, 8 and 9, and holds something again at 10 and 11.
        assert_eq!(call(Call::Advance(11)), Ok(Reply::Closed(1)));
        assert_eq!(state, State { now: 11, open: 0 });
    }
    // The old now is not judged: at 5 and at 9 nobody holds anything.
    assert_eq!((left(&small(), 1, 5, 7), left(&small(), 1, 9, 13)), (1, 1));
    assert_eq!((left(&small(), 1, 5, 8), left(&small(), 1, 9, 14)), (0, 0));
    for now in [0, 4, 9, 40, END - 1] {
        assert_eq!(left(&small(), 3, now, now), 3);
    }
}

#[test]
fn who_is_handed_on_without_a_gap_stays() {
    let rota = |hours: [Hours; 2], permission_rows| Rota {
        hours: hours.to_vec(),
        users: 1,
        permissions: 2,
        roles: vec![HoursRef::Always; 2],
        user_rows: (0..2).map(|role| Row::new(0, role, HoursRef::Numbered(role))).collect(),
        permission_rows,
        ..small()
    };
    let turns = |first, second| {
        [Hours::new(0, END, &[(0, first)]), Hours::new(0, END, &[(second, 10 - second)])]
    };
    // From role to role, each with a permission of its own.
    let by_role = || (0..2).map(|role| Row::new(role, role, HoursRef::Always)).collect::<Vec<_>>();
    assert_eq!(left(&rota(turns(5, 5), by_role()), 1, 0, END - 1), 1);
    assert_eq!(left(&rota(turns(5, 6), by_role()), 1, 0, END - 1), 0);
    assert_eq!(left(&rota(turns(5, 6), by_role()), 1, 5, 14), 1);
    // From permission to permission of one role.
    let by_permission = |first, second| Rota {
        user_rows: vec![Row::new(0, 0, HoursRef::Always)],
        ..rota(
            turns(first, second),
            (0..2).map(|number| Row::new(number, 0, HoursRef::Numbered(number))).collect(),
        )
    };
    assert_eq!(left(&by_permission(5, 5), 1, 0, END - 1), 1);
    assert_eq!(left(&by_permission(4, 5), 1, 0, END - 1), 0);
    // From era to era.
    let by_dates = |from| [Hours::new(0, 100, &[(0, 10)]), Hours::new(from, END, &[(0, 10)])];
    assert_eq!(left(&rota(by_dates(100), by_role()), 1, 0, END - 1), 1);
    assert_eq!(left(&rota(by_dates(101), by_role()), 1, 0, END - 1), 0);
    assert_eq!(left(&rota(by_dates(101), by_role()), 1, 100, END - 1), 1);
    assert_eq!(left(&rota(by_dates(101), by_role()), 1, 99, 100), 0);
}

#[test]
fn one_closed_minute() {
    let open_but =
        |hours: Hours, cycle| Rota { cycle, hours: vec![hours.clone(), hours], ..small() };
    // In each cycle of a week, at its first minute, its last, or in between.
    let week = 10_080;
    for closed in [0, 5_000, week - 1] {
        let (before, after) = ((0, closed), (closed + 1, week - closed - 1));
        let pairs: Vec<_> = [before, after].into_iter().filter(|&(_, length)| length > 0).collect();
        let rota = open_but(Hours::new(0, END, &pairs), week);
        let closed = u32::from(closed);
        for turn in [closed, closed + 10_080, closed + 400 * 10_080] {
            assert_eq!(left(&rota, 1, turn, turn + 10_079), 1);
            assert_eq!(left(&rota, 1, turn, turn + 10_080), 0);
            assert_eq!(left(&rota, 1, turn + 1, END - 1), 0);
        }
    }
    // The last minute of all, which is the only one with cycle 1 and these dates.
    for cycle in [1, 10] {
        let rota = open_but(Hours::new(0, END - 1, &[(0, cycle)]), cycle);
        assert_eq!((left(&rota, 1, 0, END - 2), left(&rota, 1, END - 2, END - 1)), (1, 0));
        let rota = open_but(Hours::new(END - 1, END, &[(0, cycle)]), cycle);
        assert_eq!((left(&rota, 1, END - 2, END - 1), left(&rota, 1, END - 3, END - 1)), (1, 0));
    }
}

#[test]
fn a_field_without_a_minute_is_not_kept() {
    let rota = Rota {
        hours: vec![Hours::new(3, 5, &[(0, 10)]), Hours::new(0, END, &[(6, 2)])],
        users: 1,
        user_rows: vec![Row::new(0, 0, HoursRef::Always)],
        ..small()
    };
    let table = rewriting::unjoined(&rota);
    assert!(rewriting::eras(&rota).contains(&(3, 5)));
    assert!(rewriting::cells(&rota).contains(&(6, 8)));
    let kept = |begin, offset| {
        table.rows.iter().any(|row| row.begin == begin && u32::from(row.offset) == offset)
    };
    assert!(kept(3, 0) && !kept(3, 6) && !kept(3, 8));
    // The era before it ends at 3 and has no such minute either; the last era has all.
    assert!(!kept(0, 6) && kept(5, 0) && kept(5, 6) && kept(5, 8));
    assert_eq!(table.derived.len(), 1);
}

#[test]
fn nothing_to_grant_gives_the_bare_header() {
    for empty in [
        Rota { users: 0, user_rows: vec![], ..small() },
        Rota { permissions: 0, permission_rows: vec![], ..small() },
        Rota { roles: vec![], user_rows: vec![], permission_rows: vec![], ..small() },
        Rota { user_rows: vec![], ..small() },
    ] {
        let table = rewriting::table(&empty);
        assert_eq!((table.derived.len(), table.rows.len()), (0, 0));
        assert_eq!(table.encode().len(), 16);
        assert_eq!(Table::parse(&table.encode()), Ok(table));
    }
}

#[test]
fn rota_limits() {
    let read = |rota: Rota| Rota::parse(&rota.encode()).map(|_| ());
    let with_cycle = |cycle| Rota { cycle, ..small() };
    assert_eq!(read(with_cycle(40_320)), Ok(()));
    assert_eq!(read(with_cycle(0)), Err(3));
    assert_eq!(read(with_cycle(40_321)), Err(3));
    let with_hours = |record| Rota { hours: vec![record, small().hours[1].clone()], ..small() };
    assert_eq!(read(with_hours(Hours::new(0, END, &[(0, 10)]))), Ok(()));
    assert_eq!(read(with_hours(Hours::new(0, END + 1, &[(0, 10)]))), Err(6));
    assert_eq!(read(with_hours(Hours::new(0, END, &[(0, 11)]))), Err(8));
    let mut bytes = small().encode();
    bytes.push(0);
    assert_eq!(Rota::parse(&bytes), Err(9));
    assert_eq!(Rota::parse(&bytes[..53]), Err(9));
    assert_eq!(Rota::parse(&bytes[..11]), Err(1));
    let with_row = |row| Rota { user_rows: vec![row, row], ..small() };
    assert_eq!(read(with_row(Row::new(2, 0, HoursRef::Always))), Err(11));
    assert_eq!(read(with_row(Row::new(1, 1, HoursRef::Always))), Err(11));
    assert_eq!(read(with_row(Row::new(1, 0, HoursRef::Numbered(2)))), Err(11));
    assert_eq!(read(with_row(Row::new(1, 0, HoursRef::Numbered(1)))), Ok(()));
    let with_permission = |row| Rota { permission_rows: vec![row], ..small() };
    assert_eq!(read(with_permission(Row::new(1, 0, HoursRef::Always))), Err(12));
    assert_eq!(read(with_permission(Row::new(0, 1, HoursRef::Always))), Err(12));
    assert_eq!(read(with_permission(Row::new(0, 0, HoursRef::Numbered(254)))), Err(12));
    assert_eq!(read(Rota { roles: vec![HoursRef::Numbered(2)], ..small() }), Err(10));
    assert_eq!(read(Rota { users: 65, ..small() }), Err(4));
    assert_eq!(read(Rota { permissions: 65, ..small() }), Err(4));
    assert_eq!(read(Rota { users: 64, permissions: 64, ..small() }), Ok(()));
    assert_eq!(read(Rota { roles: vec![HoursRef::Always; 33], ..small() }), Err(4));
    assert_eq!(read(Rota { roles: vec![HoursRef::Always; 32], ..small() }), Ok(()));
    let rows = |count| vec![Row::new(0, 0, HoursRef::Always); count];
    assert_eq!(read(Rota { user_rows: rows(513), ..small() }), Err(4));
    assert_eq!(read(Rota { user_rows: rows(512), permission_rows: rows(512), ..small() }), Ok(()));
    assert_eq!(read(Rota { permission_rows: rows(513), ..small() }), Err(4));
    let many = |count| Rota { hours: vec![Hours::new(0, END, &[(0, 10)]); count], ..small() };
    assert_eq!(read(many(32)), Ok(()));
    assert_eq!(read(many(33)), Err(4));
    // 256 pairs in all pass, 257 do not.
    let pairs: Vec<(u16, u16)> = (0..255).map(|i| (2 * i, 1)).collect();
    let mut full = Rota { cycle: 600, hours: vec![Hours::new(0, 9, &pairs)], ..small() };
    full.hours.push(Hours::new(0, 9, &[(0, 1)]));
    assert_eq!(read(full.clone()), Ok(()));
    full.hours.push(Hours::new(0, 9, &[(0, 1)]));
    assert_eq!(read(full), Err(7));
}

#[test]
fn rota_formats() {
    for format in [0, 2, 4, 256, 256 + ANY_ORDER, 256 + TIDY, 65_535] {
        assert_eq!(Rota::parse(&Rota { format, ..small() }.encode()), Err(2), "format {format}");
        // It comes before all else but the length of the header.
        let cycle = 0;
        let bytes = Rota { format, cycle, ..small() }.encode();
        assert_eq!((Rota::parse(&bytes), Rota::parse(&bytes[..11])), (Err(2), Err(1)));
    }
    for format in [ANY_ORDER, TIDY] {
        let rota = Rota { format, ..small() };
        assert_eq!(Rota::parse(&rota.encode()), Ok(rota));
    }
}

/// 11 and 52 of each user row in turn, then 12 and 52 of each permission row.
#[test]
fn rows_in_order() {
    for (name, rota, due) in tidying::worked() {
        let bytes = rota.encode();
        let expected = if due == 0 { Ok(rota.clone()) } else { Err(due) };
        assert_eq!(Rota::parse(&bytes), expected, "{name}");
        let tidied = tidy(&bytes, &mut [0; 100]);
        assert_eq!(tidied.err().unwrap_or(0), due, "{name}");
        assert_eq!(tidy(&bytes, &mut []), Err(if due == 0 { 20 } else { due }), "{name}");
    }
}

/// With each fault repaired the next one shows; at the end 20 is left, by the length of the output.
#[test]
fn refusals_of_tidying_in_order() {
    let ladder = tidying::ladder();
    let numbers: Vec<u32> = ladder.iter().map(|(_, refusal)| *refusal).collect();
    assert_eq!(numbers, [1, 2, 3, 4, 5, 6, 7, 5, 8, 9, 10, 11, 52, 12, 52, 0]);
    for (bytes, refusal) in ladder {
        assert_eq!(Rota::parse(&bytes).err().unwrap_or(0), refusal);
        let mut area = [0xa5; 64];
        assert_eq!(tidy(&bytes, &mut area), Err(if refusal == 0 { 20 } else { refusal }));
        assert_eq!(area, [0xa5; 64], "a refusal writes nothing");
    }
}

#[test]
fn small_rota_tidied() {
    let rota = data::small_rota();
    let expected = [&[3], &rota[1..]].concat();
    let mut area = vec![0xa5; 60];
    assert_eq!(tidy(&rota, &mut area), Ok(54));
    assert_eq!(area[..54], expected);
    assert!(area[54..].iter().all(|&byte| byte == 0xa5), "bytes past the length stay");
    assert_eq!(tidy(&rota, &mut [0; 54]), Ok(54));
    assert_eq!(tidy(&rota, &mut [0; 53]), Err(20));
    let mut again = vec![0; 54];
    assert_eq!((tidy(&expected, &mut again), again), (Ok(54), expected));
}

/// By role, then number, then the byte of the hours, each once.
#[test]
fn tidy_rows() {
    let row = |(role, number, hours)| match hours {
        255 => Row::new(number, role, HoursRef::Always),
        hours => Row::new(number, role, HoursRef::Numbered(hours)),
    };
    let ascending = [(0, 1, 0), (0, 1, 1), (0, 1, 255), (1, 0, 255), (1, 1, 0), (1, 1, 1)].map(row);
    let [a, b, c, d, e, f] = ascending;
    let with = |user_rows: &[Row], permission_rows: &[Row]| Rota {
        permissions: 2,
        roles: vec![HoursRef::Always; 2],
        user_rows: user_rows.to_vec(),
        permission_rows: permission_rows.to_vec(),
        ..small()
    };
    let expected = Rota { format: TIDY, ..with(&ascending, &ascending[..2]) };
    for (user_rows, permission_rows) in [
        (&[f, e, d, c, b, a][..], &[b, a][..]),
        (&[a, b, c, d, e, f], &[a, b]),
        (&[a, b, c, d, e, f, a, b, c, d, e, f], &[a, a, a, b]),
        (&[c, f, c, a, a, a, b, f, e, e, d], &[b, a, b]),
    ] {
        let rota = with(user_rows, permission_rows);
        assert_eq!(rota.tidy(), expected);
        // The length that counts is that of the output, where rows repeat.
        let (bytes, mut area) = (rota.encode(), vec![0; expected.encode().len()]);
        assert_eq!(tidy(&bytes, &mut area), Ok(area.len()));
        assert_eq!(area, expected.encode());
        area.pop();
        assert_eq!(tidy(&bytes, &mut area), Err(20));
    }
    assert_eq!(expected.tidy(), expected);
}

/// On the table of S with its 12 rows, which are not joined.
#[test]
fn table_limits() {
    let table = rewriting::unjoined(&small());
    let read = |table: &Table| Table::parse(&table.encode()).map(|_| ());
    let changed = |change: &dyn Fn(&mut Table)| {
        let mut table = table.clone();
        change(&mut table);
        read(&table)
    };
    assert_eq!(read(&table), Ok(()));
    assert_eq!(Table::parse(&table.encode()[..15]), Err(21));
    assert_eq!(Table::parse(&table.encode()[..258]), Err(25));
    assert_eq!(Table::parse(&[table.encode(), vec![0]].concat()), Err(25));
    assert_eq!(changed(&|t| t.cycle = 0), Err(23));
    assert_eq!(changed(&|t| t.cycle = 40_320), Ok(()));
    assert_eq!(changed(&|t| t.cycle = 40_321), Err(23));
    assert_eq!(changed(&|t| t.users = 64), Ok(()));
    assert_eq!(changed(&|t| t.users = 65), Err(24));
    assert_eq!(changed(&|t| t.permissions = 65), Err(24));
    assert_eq!(changed(&|t| t.roles = 32), Ok(()));
    assert_eq!(changed(&|t| t.roles = 33), Err(24));
    assert_eq!(changed(&|t| t.roles = 256), Err(24));
    assert_eq!(changed(&|t| t.users = 1), Err(26));
    assert_eq!(changed(&|t| t.permissions = 0), Err(26));
    assert_eq!(changed(&|t| t.roles = 0), Err(26));
    assert_eq!(changed(&|t| t.derived[1].users = 0), Err(26));
    assert_eq!(changed(&|t| t.derived[1].permissions = 0), Err(26));
    assert_eq!(changed(&|t| t.derived[1] = t.derived[0]), Ok(()), "repeats are fine");
    assert_eq!(changed(&|t| (t.roles, t.derived[1].source) = (2, 1)), Err(26));
    assert_eq!(changed(&|t| t.rows[0].derived = 3), Err(27));
    assert_eq!(changed(&|t| t.rows[0].begin = 10), Err(27));
    assert_eq!(changed(&|t| t.rows[11].end = END), Err(28), "its era overlaps the one before");
    assert_eq!(changed(&|t| t.rows[11].end = END + 1), Err(27));
    assert_eq!(changed(&|t| t.rows[0].length = 0), Err(27));
    assert_eq!(changed(&|t| (t.rows[11].offset, t.rows[11].length) = (9, 2)), Err(27));
    assert_eq!(changed(&|t| (t.rows[11].offset, t.rows[11].length) = (9, 1)), Ok(()));
    assert_eq!(changed(&|t| t.rows[1].offset = 1), Err(28));
    assert_eq!(changed(&|t| t.rows.swap(0, 4)), Err(28));
    assert_eq!(changed(&|t| t.rows[1].length = 3), Ok(()), "there is a gap after it");
    // 28 of a row comes before 27 of the next.
    assert_eq!(changed(&|t| (t.rows[1].offset, t.rows[2].length) = (1, 0)), Err(28));
    assert_eq!(changed(&|t| (t.rows[1].length, t.rows[2].offset) = (0, 0)), Err(27));
    // Counts whose size wraps in 32 bits.
    let mut bytes = table.encode();
    bytes[12..16].copy_from_slice(&(12u32 + (1 << 28)).to_le_bytes());
    assert_eq!(Table::parse(&bytes), Err(25));
}
