//! The quick implementation against the reference: rotas and tables that are well formed, damaged
//! and cut, their tidying and rewriting byte for byte, lists of calls, and the calendar.

use cases::case::{Case, Tally, cases};
use cases::generate::{self, Sets};
use cases::random::Random;
use cases::{data, joining, tidying, worst, worst::jumps};
use reference::edges::Edges;
use reference::page::{self, Question};
use reference::policy::{Policy, question};
use reference::rota::{Rota, TIDY};
use reference::service::{Lent, State, serve};
use reference::table::{Row, Table};
use reference::{END, Refusal, calendar, rewriting, set};

/// What was read, asked a few questions at such minutes and asked who holds anything.
fn compare(
    case: &mut Case,
    tally: &mut Tally,
    bytes: &[u8],
    quick: Result<impl Policy, Refusal>,
    expected: Result<&dyn Policy, Refusal>,
    minute: impl Fn(&mut Random) -> u32,
) {
    tally.add(expected.as_ref().err().copied().unwrap_or(0));
    let (quick, expected) = match (quick, expected) {
        (Ok(quick), Ok(expected)) => (quick, expected),
        (quick, expected) => {
            case.same(quick.as_ref().err(), expected.as_ref().err(), bytes, "read");
            return compare_page(case, tally, bytes, quick, expected, &[Question::default(); 2]);
        }
    };
    let (users, permissions) = (expected.users(), expected.permissions());
    case.same((quick.users(), quick.permissions()), (users, permissions), bytes, "read");
    let mut page = Vec::new();
    for _ in 0..6 {
        let (user, permission, t) = (
            generate::number(&mut case.random, users),
            generate::number(&mut case.random, permissions),
            minute(&mut case.random),
        );
        page.push(Question { user, permission, minute: t, ..Question::default() });
        let answer = question(expected, user, permission, t);
        tally.add(answer.err().unwrap_or(0));
        let quickly = tuned::policy::question(&quick, user, permission, t);
        case.same(quickly, answer, bytes, (user, permission, t));
        let holders = if t < END { Ok(expected.holders(t)) } else { Err(33) };
        case.same(tuned::policy::holders(&quick, t), holders, bytes, t);
    }
    compare_page(case, tally, bytes, Ok(quick), Ok(expected), &page);
}

/// A page of these questions, once in twenty times again and again until it is too long.
fn compare_page(
    case: &mut Case,
    tally: &mut Tally,
    bytes: &[u8],
    quick: Result<impl Policy, Refusal>,
    expected: Result<&dyn Policy, Refusal>,
    questions: &[Question],
) {
    let times = if case.random.one_in(20) { 1 + page::LIMIT / questions.len() } else { 1 };
    let mut list = questions.repeat(times);
    let expected = page::page(expected, &list);
    tally.add(expected.as_ref().err().copied().unwrap_or(0));
    let given = tuned::policy::page(|| quick, &mut list).map(|()| list);
    case.same(given, expected, bytes, "page");
}

fn compare_rota(case: &mut Case, tally: &mut Tally, bytes: &[u8], near: &Rota) {
    let (quick, expected) = (tuned::rota::Rota::read(bytes), Rota::parse(bytes));
    if let (Ok(quick), Ok(expected)) = (&quick, &expected) {
        case.same(quick.is_tidy, expected.format == TIDY, bytes, "format");
        let counts = (quick.cycle, usize::from(quick.hours), quick.roles.len());
        let wanted = (u32::from(expected.cycle), expected.hours.len(), expected.roles.len());
        case.same(counts, wanted, bytes, "counts");
        let rows = (quick.user_rows.len(), quick.permission_rows.len());
        let wanted = (expected.user_rows.len(), expected.permission_rows.len());
        case.same(rows, wanted, bytes, "rows");
    }
    let expected = expected.as_ref().map(|rota| rota as &dyn Policy).map_err(|&refusal| refusal);
    let minute = |random: &mut Random| generate::rota_minute(random, near);
    compare(case, tally, bytes, quick, expected, minute);
}

fn compare_table(case: &mut Case, tally: &mut Tally, bytes: &[u8], near: &Table) {
    let (quick, expected) = (tuned::table::Table::read(bytes), Table::parse(bytes));
    if let (Ok(quick), Ok(expected)) = (&quick, &expected) {
        let counts = (quick.cycle, quick.roles, quick.entries.len(), quick.rows.len());
        let (cycle, roles) = (u32::from(expected.cycle), expected.roles as u8);
        let wanted = (cycle, roles, expected.derived.len(), expected.rows.len());
        case.same(counts, wanted, bytes, "counts");
        for _ in 0..3 {
            let (user, permission, m) = (
                generate::number(&mut case.random, expected.users()),
                generate::number(&mut case.random, expected.permissions()),
                generate::table_minute(&mut case.random, near),
            );
            let quickly = quick.next_use(user, permission, m);
            let wanted = expected.next_use(user, permission, m);
            case.same(quickly, wanted, bytes, (user, permission, m));
            case.same(quick.board(m), expected.board(m), bytes, ("board", m));
        }
    }
    let expected = expected.as_ref().map(|table| table as &dyn Policy).map_err(|&refusal| refusal);
    let minute = |random: &mut Random| generate::table_minute(random, near);
    compare(case, tally, bytes, quick, expected, minute);
}

fn any_rota(random: &mut Random) -> Rota {
    match random.below(6) {
        0 => generate::rota(random),
        1 => generate::granting_rota(random),
        2 | 3 => generate::touching_rota(random),
        _ => generate::small_rota(random),
    }
}

fn any_table(random: &mut Random) -> Table {
    match random.below(7) {
        0 => generate::table(random),
        6 => generate::many_rows_table(random),
        1 => {
            let rota = generate::touching_rota(random);
            generate::table_of_rota(random, &rota)
        }
        2 => generate::dense_table(random),
        3 => generate::crowded_table(random),
        _ => generate::small_table(random),
    }
}

/// Each of these, the beginnings of its bytes, and its bytes with one more.
fn every_length(bytes: &[u8], mut test: impl FnMut(&[u8])) {
    let longer = [bytes, &[0]].concat();
    (0..=longer.len()).for_each(|len| test(&longer[..len]));
}

#[test]
fn rotas() {
    let mut tally = Tally::new("tuned rotas");
    cases("tuned rotas", 20_000, |case| {
        let rota = any_rota(&mut case.random);
        compare_rota(case, &mut tally, &rota.encode(), &rota);
        let damaged = generate::damaged_rota(&mut case.random, &rota);
        compare_rota(case, &mut tally, &damaged, &rota);
        if case.number < 200 {
            let small = generate::small_rota(&mut case.random);
            every_length(&small.encode(), |bytes| compare_rota(case, &mut tally, bytes, &small));
        }
    });
    tally.reached((0..=12).chain(33..=35).chain([52]));
}

/// Rows of tidy rotas, out of range and out of order.
#[test]
fn rows() {
    let mut tally = Tally::new("tuned rows");
    for (name, rota, due) in tidying::worked() {
        let read = tuned::rota::Rota::read(&rota.encode()).map(|_| ());
        assert_eq!(read, if due == 0 { Ok(()) } else { Err(due) }, "{name}");
    }
    for (bytes, refusal) in tidying::ladder() {
        let read = tuned::rota::Rota::read(&bytes).map(|_| ());
        assert_eq!(read, if refusal == 0 { Ok(()) } else { Err(refusal) });
    }
    cases("tuned rows", 20_000, |case| {
        let rota = generate::tidy_rota(&mut case.random);
        let bytes = generate::damaged_rows(&mut case.random, &rota);
        tidying::first_fault(&mut tally, &bytes, &rota);
        compare_rota(case, &mut tally, &bytes, &rota);
    });
    tally.reached([0, 11, 12, 52]).also_often(&tidying::FAULTS, 500);
}

#[test]
fn each_row_out_of_order() {
    let mut case = Case::new("tuned each_row_out_of_order", 0);
    tidying::each_row_out_of_order(&mut case.random, |rota, refusal| {
        let bytes = rota.encode();
        assert_eq!(tuned::rota::Rota::read(&bytes).err().unwrap_or(0), refusal);
    });
}

#[test]
fn rotas_at_the_limits() {
    let mut tally = Tally::new("tuned rotas_at_the_limits");
    for which in 0..generate::EDGE_SIZES {
        let mut case = Case::new("tuned rotas_at_the_limits", which.into());
        let rota = generate::rota_of(&mut case.random, &generate::edge_sizes(which));
        for rota in [rota.tidy(), rota] {
            compare_rota(&mut case, &mut tally, &rota.encode(), &rota);
            compare_tidied(&mut case, &mut tally, &rota.encode());
        }
    }
    tally.reached([0, 20, 33, 34, 35]);
}

/// Into areas of the tidy rota's size, one less, one more, of the rota's own size and one less,
/// none, and any.
#[test]
fn tidied() {
    let mut tally = Tally::new("tuned tidied");
    cases("tuned tidied", 8_000, |case| {
        let rota = any_rota(&mut case.random);
        let bytes = match case.random.below(5) {
            0 => generate::damaged_rota(&mut case.random, &rota),
            1 => generate::damaged_rows(&mut case.random, &rota.tidy()),
            2 => rota.encode(),
            _ => generate::respelled(&mut case.random, &rota).encode(),
        };
        compare_tidied(case, &mut tally, &bytes);
    });
    let mut case = Case::new("tuned tidied at the limits", 0);
    compare_tidied(&mut case, &mut tally, &data::small_rota());
    let most = tidying::most_rows(&mut case.random);
    let [few, one] = [7, 1].map(|count| tidying::most_repeats(&most, count));
    for rota in [few, one, most.tidy(), most] {
        compare_tidied(&mut case, &mut tally, &rota.encode());
    }
    for rota in tidying::all_rows() {
        compare_tidied(&mut case, &mut tally, &rota.encode());
    }
    for (_, rota, _) in tidying::worked() {
        compare_tidied(&mut case, &mut tally, &rota.encode());
    }
    for (bytes, _) in tidying::ladder() {
        compare_tidied(&mut case, &mut tally, &bytes);
    }
    tally.reached((0..=12).chain([20, 52])).also_often(&tidying::REACHED, 500);
}

fn compare_tidied(case: &mut Case, tally: &mut Tally, rota: &[u8]) {
    let whole = Rota::parse(rota).map(|rota| {
        let tidy = rota.tidy();
        tidying::count(tally, &rota, &tidy);
        tidy.encode()
    });
    let size = whole.as_ref().map_or(12, Vec::len);
    let any = case.random.below(2 * size as u32) as usize;
    let own = rota.len();
    for size in [size, size - 1, size + 1, own, own.saturating_sub(1), 0, any] {
        let filling = case.random.byte();
        let mut expected_area = vec![filling; size];
        let expected = whole.as_ref().map_err(|&refusal| refusal).and_then(|tidy| {
            expected_area.get_mut(..tidy.len()).ok_or(20u32)?.copy_from_slice(tidy);
            Ok(tidy.len())
        });
        for tidy in [tuned::tidying::tidy, tuned::tidying::tidy_by_sets] {
            let mut area = vec![filling; size];
            tally.add(expected.err().unwrap_or(0));
            case.same(tidy(rota, &mut area), expected, rota, ("area", size));
            case.same(&area, &expected_area, rota, ("area", size));
        }
    }
}

#[test]
fn tables() {
    let mut tally = Tally::new("tuned tables");
    cases("tuned tables", 20_000, |case| {
        let table = any_table(&mut case.random);
        compare_table(case, &mut tally, &table.encode(), &table);
        let damaged = generate::damaged_table(&mut case.random, &table);
        compare_table(case, &mut tally, &damaged, &table);
        if case.number < 100 {
            let small = generate::small_table(&mut case.random);
            every_length(&small.encode(), |bytes| compare_table(case, &mut tally, bytes, &small));
        }
    });
    tally.reached((0..=0).chain(21..=28).chain(33..=35));
}

/// Into areas of the table's size, one less, one more, none, and any; where rows are joined also of
/// the size that they would need unjoined, and one less.
#[test]
fn rewritten() {
    let mut tally = Tally::new("tuned rewritten");
    cases("tuned rewritten", 3_000, |case| {
        let rota = any_rota(&mut case.random);
        let bytes = match case.random.below(4) {
            0 => generate::damaged_rota(&mut case.random, &rota),
            1 => generate::with_unused_hours(&mut case.random, &rota).encode(),
            _ => rota.encode(),
        };
        compare_rewritten(case, &mut tally, &bytes);
    });
    let mut case = Case::new("tuned finest", 0);
    compare_rewritten(&mut case, &mut tally, &data::small_rota());
    for (roles, sets) in [(1, Sets::Many), (2, Sets::Many), (32, Sets::Few), (32, Sets::Same)] {
        let rota = generate::fine_rota(&mut case.random, 32, 8, roles, sets);
        compare_rewritten(&mut case, &mut tally, &rota.encode());
    }
    compare_rewritten(&mut case, &mut tally, &generate::most_rows_rota().encode());
    for (_, cut) in worst::cuts() {
        compare_rewritten(&mut case, &mut tally, &cut.rota().encode());
    }
    for (_, worked) in joining::all_worked() {
        compare_rewritten(&mut case, &mut tally, &worked.rota.encode());
    }
    tally.reached((0..=12).chain([20, 52])).also(&joining::REACHED);
}

fn compare_rewritten(case: &mut Case, tally: &mut Tally, rota: &[u8]) {
    let mut unjoined_size = 16;
    let whole = Rota::parse(rota).map(|rota| {
        let unjoined = rewriting::unjoined(&rota);
        let table = rewriting::joined(unjoined.clone());
        joining::count(tally, &unjoined, &table);
        unjoined_size = unjoined.encode().len();
        let (derived, rows) = (table.derived.len() as u32, table.rows.len() as u32);
        let bytes = table.encode();
        (rewriting::Written { derived, rows, length: bytes.len() }, bytes)
    });
    let told = whole.as_ref().map(|&(written, _)| written).map_err(|&refusal| refusal);
    case.same(tuned::rewriting::size(rota), told, rota, "size");
    let size = whole.as_ref().map_or(16, |(_, bytes)| bytes.len());
    let any = case.random.below(2 * size as u32) as usize;
    for size in [size, size - 1, size + 1, 0, any, unjoined_size, unjoined_size - 1] {
        let filling = case.random.byte();
        let mut expected_area = vec![filling; size];
        let expected = whole.as_ref().map_err(|&refusal| refusal).and_then(|(written, bytes)| {
            expected_area.get_mut(..bytes.len()).ok_or(20u32)?.copy_from_slice(bytes);
            Ok(*written)
        });
        for rewrite in [tuned::rewriting::rewrite, tuned::rewriting::rewrite_twice] {
            let mut area = vec![filling; size];
            tally.add(expected.err().unwrap_or(0));
            case.same(rewrite(rota, &mut area), expected, rota, ("area", size));
            assert!(area == expected_area, "the areas differ: seed {} {}", case.seed, case.number);
        }
    }
}

/// At each minute of some cycles on both sides of every era's border.
#[test]
fn joined_and_unjoined_tables() {
    let mut tally = Tally::new("tuned joined_and_unjoined_tables");
    cases("tuned joined_and_unjoined_tables", 1_000, |case| {
        let rota = joining::short_rota(&mut case.random);
        let unjoined = rewriting::unjoined(&rota);
        let table = rewriting::joined(unjoined.clone());
        tally.add(0);
        joining::count(&mut tally, &unjoined, &table);
        let bytes = [unjoined.encode(), table.encode()];
        let [quick_unjoined, quick] =
            [&bytes[0], &bytes[1]].map(|bytes| tuned::table::Table::read(bytes).expect("accepted"));
        for t in joining::minutes(&rota) {
            case.same(quick.holders(t), quick_unjoined.holders(t), &bytes[0], t);
            for user in 0..rota.users() {
                for permission in 0..rota.permissions() {
                    let expected = table.answer(user, permission, t);
                    let ask = |table: &tuned::table::Table| table.answer(user, permission, t);
                    let given = (ask(&quick), ask(&quick_unjoined));
                    case.same(given, (expected, expected), &bytes[0], (user, permission, t));
                }
            }
        }
    });
    tally.reached([0]).also(&joining::REACHED);
}

/// Who stays in a jump: jumps of all lengths, from where something changes or beside it.
fn compare_staying(
    case: &mut Case,
    tally: &mut Tally,
    bytes: &[u8],
    quick: &impl Policy,
    expected: &dyn Policy,
    edges: &Edges,
) {
    let everyone = set::below(expected.users());
    for _ in 0..8 {
        let now = case.random.pick(&edges.spans) + case.random.below(2 * edges.cycle);
        let now = now.saturating_sub(case.random.below(2 * edges.cycle)).min(END - 1);
        let m = generate::jump(&mut case.random, edges, now);
        for open in [everyone, case.random.bits() & everyone] {
            let staying = expected.staying(open, now, m);
            case.same(quick.staying(open, now, m), staying, bytes, (open, "from", now, "to", m));
            tally.add(0);
            tally.count_if(now == m, "at the same minute");
            tally.count_if(staying != 0 && staying != open, "some stay");
            tally.count_if(staying != 0 && m - now > 3 * edges.cycle, "long stays");
            let shorter = edges.spans.windows(2).filter(|era| era[1] - era[0] < edges.cycle);
            let within = shorter.filter(|era| now < era[0] && era[1] <= m).count() as u64;
            tally.count_more(if staying != 0 { within } else { 0 }, "eras shorter than the cycle");
            tally.count_if(staying != 0 && m == END - 1, "to the last minute");
        }
    }
}

const STAYS: [&str; 5] = [
    "at the same minute",
    "some stay",
    "long stays",
    "eras shorter than the cycle",
    "to the last minute",
];

#[test]
fn jumps_on_rotas() {
    let mut tally = Tally::new("tuned jumps_on_rotas");
    cases("tuned jumps_on_rotas", 12_000, |case| {
        let rota = match case.random.below(8) {
            0 => generate::small_rota(&mut case.random),
            // Few of these, since the reference takes long over the largest.
            1 if case.random.one_in(16) => generate::granting_rota(&mut case.random),
            _ => generate::relay_rota(&mut case.random),
        };
        let (bytes, edges) = (rota.encode(), Edges::of_rota(&rota));
        let quick = tuned::rota::Rota::read(&bytes).expect("accepted");
        compare_staying(case, &mut tally, &bytes, &quick, &rota, &edges);
    });
    tally.reached([0]).also(&STAYS);
}

#[test]
fn jumps_on_tables() {
    let mut tally = Tally::new("tuned jumps_on_tables");
    cases("tuned jumps_on_tables", 20_000, |case| {
        let table = match case.random.below(8) {
            0 => any_table(&mut case.random),
            1 | 2 => {
                let rota = generate::relay_rota(&mut case.random);
                generate::table_of_rota(&mut case.random, &rota)
            }
            3 | 4 => generate::relay_table(&mut case.random),
            _ => generate::dense_table(&mut case.random),
        };
        let (bytes, edges) = (table.encode(), Edges::of_table(&table));
        let quick = tuned::table::Table::read(&bytes).expect("accepted");
        compare_staying(case, &mut tally, &bytes, &quick, &table, &edges);
    });
    tally.reached([0]).also(&STAYS);
}

/// Through all 400 years everyone stays, on the rota and on its table. The reference, which takes
/// long, sees the last 50 of them.
#[test]
fn worst_rotas_to_jump_over() {
    let case = Case::new("tuned worst_rotas_to_jump_over", 0);
    for (name, rota) in jumps::rotas() {
        let bytes = rota.encode();
        let everyone = set::below(rota.users());
        case.same(rota.staying(everyone, END / 8 * 7, END - 1), everyone, &[], name);
        let quick = tuned::rota::Rota::read(&bytes).expect("accepted");
        case.same(quick.staying(everyone, 0, END - 1), everyone, &[], name);
        let unjoined = rewriting::unjoined(&rota);
        for table in [unjoined.encode(), rewriting::joined(unjoined).encode()] {
            let quick = tuned::table::Table::read(&table).expect("accepted");
            case.same(quick.staying(everyone, 0, END - 1), everyone, &[], (name, "its table"));
        }
    }
}

/// Everyone stays for a week, and where a row is left out, those leave who have it.
#[test]
fn worst_tables_to_jump_over() {
    let mut case = Case::new("tuned worst_tables_to_jump_over", 0);
    for (name, mut table) in jumps::tables() {
        let bytes = table.encode();
        assert!(bytes.len() <= 32_000_000, "{name} is too long");
        let quick = tuned::table::Table::read(&bytes).expect("accepted");
        case.same(quick.staying(u64::MAX, 0, 10_080), u64::MAX, &[], name);
        let is_of_week = |row: &Row| row.end == END && (1..10_080).contains(&row.offset);
        let rows: Vec<usize> =
            (0..table.rows.len()).filter(|&i| is_of_week(&table.rows[i])).collect();
        let row = table.rows.remove(case.random.pick(&rows));
        let bytes = table.encode();
        let quick = tuned::table::Table::read(&bytes).expect("accepted");
        let left = !table.derived[row.derived as usize].users;
        case.same(quick.staying(u64::MAX, 0, 10_080), left, &[], (name, row));
    }
    // One that the reference can go through, with a row left out here and there.
    cases("tuned worst_tables_to_jump_over", 40, |case| {
        let entries = case.random.pick(&[jumps::Entries::Few, jumps::Entries::Scattered]);
        let cycle = case.random.between(1, 30) as u16;
        let mut table = jumps::every_minute(cycle, case.random.one_in(2), entries, 50 * 30);
        let most = case.random.pick(&[0, 100, 1_000]);
        table.rows.retain(|_| most == 0 || !case.random.one_in(most));
        let bytes = table.encode();
        let quick = tuned::table::Table::read(&bytes).expect("accepted");
        for m in [1, u32::from(cycle), 700, 1_499, 1_500, 1_600] {
            let expected = table.staying(u64::MAX, 0, m);
            case.same(quick.staying(u64::MAX, 0, m), expected, &bytes, m);
        }
    });
}

/// Lists of calls from the fresh state and from odd ones, on bytes that may be damaged.
#[test]
fn calls() {
    let mut tally = Tally::new("tuned calls");
    cases("tuned calls", 9_000, |case| {
        if case.random.one_in(2) {
            let rota = match case.random.below(2) {
                0 => generate::small_rota(&mut case.random),
                _ => generate::relay_rota(&mut case.random),
            };
            let bytes = match case.random.below(8) {
                0 => generate::damaged_rota(&mut case.random, &rota),
                _ => rota.encode(),
            };
            compare_calls(case, &mut tally, Lent::Rota(&bytes), &rota, Edges::of_rota(&rota));
        } else {
            let table = any_table(&mut case.random);
            let bytes = match case.random.below(8) {
                0 => generate::damaged_table(&mut case.random, &table),
                _ => table.encode(),
            };
            compare_calls(case, &mut tally, Lent::Table(&bytes), &table, Edges::of_table(&table));
        }
    });
    tally.reached((0..=12).chain(21..=28).chain([33, 34, 35, 40, 41, 42, 43, 44, 52]));
}

fn compare_calls(case: &mut Case, tally: &mut Tally, lent: Lent, near: &dyn Policy, edges: Edges) {
    let (Lent::Rota(bytes) | Lent::Table(bytes)) = lent;
    for first in [State::default(), generate::state(&mut case.random, near.users(), &edges)] {
        let mut state = first;
        let next = case.random.pick(&[generate::call, generate::jumping_call]);
        for _ in 0..15 {
            let call = next(&mut case.random, near, &edges, state);
            let mut quick = state;
            let given = tuned::service::serve(lent, &mut quick, call);
            let before = state;
            let expected = serve(lent, &mut state, call);
            tally.add(expected.err().unwrap_or(0));
            case.same((given, quick), (expected, state), bytes, (call, "in", before));
        }
    }
}

#[test]
fn every_day_and_date() {
    let mut case = Case::new("tuned every_day_and_date", 0);
    for day in 0..=END / 1_440 {
        let t = 1_440 * day + case.random.below(1_440);
        for t in [1_440 * day, t, 1_440 * day + 1_439, case.random.bits() as u32] {
            case.same(tuned::calendar::date(t), calendar::date(t), &[], t);
        }
    }
    let edges = |random: &mut Random, limit| {
        let any = random.below(limit);
        random.pick(&[0, limit - 1, limit, limit + 1, 256, u32::MAX, any])
    };
    for year in (1_999..=2_402).chain([0, u32::MAX]) {
        for month in (0..=13).chain([258, u32::MAX]) {
            for day in (0..=33).chain([257, u32::MAX]) {
                let (hour, minute) = (edges(&mut case.random, 24), edges(&mut case.random, 60));
                for (hour, minute) in [(0, 0), (23, 59), (hour, minute)] {
                    let given = tuned::calendar::minute(year, month, day, hour, minute);
                    let expected = calendar::minute(year, month, day, hour, minute);
                    case.same(given, expected, &[], (year, month, day, hour, minute));
                }
            }
        }
    }
}
