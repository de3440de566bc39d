//! Slow and obvious cross checks on random inputs: one part of the implementation against another.

use std::collections::{BTreeMap, BTreeSet, HashSet};

use cases::case::Tally;
use cases::random::Random;
use cases::{generate, joining, tidying};
use reference::edges::Edges;
use reference::policy::{Policy, question, staying_at};
use reference::rewriting::{self, touch};
use reference::rota::{self, Rota, TIDY};
use reference::service::{Call, Lent, Reply, State, serve, step};
use reference::table::{Row, Table};
use reference::{END, set};

/// The users that some answer grants something, asked one by one.
fn holders_by_asking(policy: &dyn Policy, t: u32) -> u64 {
    let mut holders = 0;
    for user in 0..policy.users() {
        if (0..policy.permissions()).any(|p| policy.answer(user, p, t).is_some()) {
            holders |= 1 << user;
        }
    }
    holders
}

/// Every question at `t`, with two neighbours that do not exist.
fn same_answers(left: &dyn Policy, right: &dyn Policy, t: u32) {
    assert_eq!((left.users(), left.permissions()), (right.users(), right.permissions()));
    for user in 0..left.users() + 2 {
        for permission in 0..left.permissions() + 2 {
            assert_eq!(left.answer(user, permission, t), right.answer(user, permission, t));
        }
    }
    assert_eq!(left.holders(t), right.holders(t));
    assert_eq!(left.holders(t), holders_by_asking(left, t));
    assert_eq!(right.holders(t), holders_by_asking(right, t));
}

#[test]
fn generated_rotas_and_tables_are_well_formed() {
    let mut random = Random::new(1);
    for case in 0..20_000 {
        let rota = match case % 4 {
            0 => generate::small_rota(&mut random),
            1 => generate::rota(&mut random),
            2 if case % 8 == 2 => generate::relay_rota(&mut random),
            2 => generate::touching_rota(&mut random),
            _ => generate::rota_of(&mut random, &generate::edge_sizes(case % generate::EDGE_SIZES)),
        };
        assert_eq!(Rota::parse(&rota.encode()), Ok(rota.clone()), "case {case}");
        let respelled = generate::respelled(&mut random, &rota);
        assert_eq!(Rota::parse(&respelled.encode()), Ok(respelled), "case {case}");
        let table = match case % 4 {
            0 => generate::small_table(&mut random),
            1 => generate::relay_table(&mut random),
            2 => generate::dense_table(&mut random),
            _ => generate::table(&mut random),
        };
        assert_eq!(Table::parse(&table.encode()), Ok(table), "case {case}");
    }
    let full = generate::rota_of(&mut random, &generate::LIMITS);
    assert_eq!(full.hours.len(), 32);
    assert_eq!(full.hours.iter().map(|hours| hours.pairs.len()).sum::<usize>(), 256);
    assert_eq!((full.user_rows.len(), full.permission_rows.len()), (512, 512));
}

#[test]
fn a_table_answers_as_its_rota_minute_by_minute() {
    let mut random = Random::new(2);
    for _ in 0..2_000 {
        let rota = generate::small_rota(&mut random);
        let table = rewriting::table(&rota);
        assert_eq!(Table::parse(&table.encode()), Ok(table.clone()));
        for t in (0..80).chain(END - 60..END) {
            same_answers(&rota, &table, t);
        }
    }
}

#[test]
fn a_table_answers_as_its_rota_at_edges() {
    let mut random = Random::new(3);
    for case in 0..3_000 {
        let rota = if case % 100 == 0 {
            generate::rota_of(&mut random, &generate::edge_sizes(case / 100))
        } else {
            generate::rota(&mut random)
        };
        let table = rewriting::table(&rota);
        assert_eq!(Table::parse(&table.encode()), Ok(table.clone()));
        for _ in 0..10 {
            let t = generate::rota_minute(&mut random, &rota);
            if t < END {
                assert_eq!(rota.holders(t), table.holders(t));
                for _ in 0..4 {
                    let user = generate::number(&mut random, rota.users.into());
                    let permission = generate::number(&mut random, rota.permissions.into());
                    assert_eq!(rota.answer(user, permission, t), table.answer(user, permission, t));
                }
            }
        }
    }
}

/// The next use from its definition alone, near the first minutes and the last.
#[test]
fn the_next_use_minute_by_minute() {
    let mut random = Random::new(4);
    let mut seen = [0; 3];
    for _ in 0..1_000 {
        let table = generate::small_table(&mut random);
        let user = random.below(table.users.into());
        let permission = random.below(table.permissions.into());
        for (first, last) in [(0, 80), (END - 60, END)] {
            for m in first..last {
                let next = table.next_use(user, permission, m).expect("numbers that are there");
                let mut minutes = m..next.unwrap_or(last).min(last);
                assert!(minutes.all(|t| table.answer(user, permission, t).is_none()));
                assert!(next.is_none_or(|t| table.answer(user, permission, t).is_some()));
                seen[usize::from(next.is_some()) + usize::from(next == Some(m))] += 1;
            }
        }
        assert_eq!(table.next_use(user, permission, END), Err(33));
        assert_eq!(table.next_use(table.users.into(), 64, 0), Err(34));
        assert_eq!(table.next_use(user, table.permissions.into(), 0), Err(35));
    }
    assert!(seen.iter().all(|&times| times > 1_000), "none, later and now: {seen:?}");
}

/// A board by single questions, and its rows one by one.
#[test]
fn the_board_by_questions() {
    let mut random = Random::new(5);
    let mut several = 0;
    for case in 0..2_000 {
        let make = if case % 2 == 0 { generate::table } else { generate::crowded_table };
        let table = make(&mut random);
        let t = generate::table_minute(&mut random, &table);
        let Ok(board) = table.board(t) else {
            assert!(t >= END);
            continue;
        };
        for (user, own) in (0..).zip(board.permissions) {
            for permission in 0..64 {
                let is_yes = matches!(question(&table, user, permission, t), Ok(Some(_)));
                assert_eq!(set::has(own, permission), is_yes, "user {user}, {permission}");
            }
        }
        let enables = |row: &&Row| row.enables(table.cycle, t);
        assert_eq!(board.rows as usize, table.rows.iter().filter(enables).count());
        several += u32::from(board.rows > 1);
    }
    assert!(several > 500, "several rows {several} times");
}

/// What a jump leaves, by the minutes that stand for all and by all of them.
fn same_staying(random: &mut Random, policy: &dyn Policy, edges: &Edges, seen: &mut [u32; 3]) {
    let open = random.bits() & reference::set::below(policy.users());
    let spans: Vec<u32> = edges.spans.iter().copied().filter(|&span| span < END).collect();
    for _ in 0..6 {
        let near = random.pick(&spans) + random.below(2 * edges.cycle);
        let now = near.saturating_sub(random.below(2 * edges.cycle)).min(END - 1);
        let m = generate::jump(random, edges, now).min(now + 3_000);
        let expected = staying_at(policy, open, now + 1..=m);
        assert_eq!(staying_at(policy, open, edges.deciding(now + 1, m + 1)), expected);
        assert_eq!(policy.staying(open, now, m), expected, "from {now} to {m}");
        if open != 0 && now < m {
            let nobody_closed = usize::from(expected == open);
            seen[if expected == 0 { 2 } else { nobody_closed }] += 1;
        }
    }
}

/// Short lives and short cycles, and jumps of up to some thousands of minutes.
#[test]
fn minutes_that_stand_for_all_of_a_jump() {
    let mut random = Random::new(8);
    let (mut on_rotas, mut on_tables) = ([0; 3], [0; 3]);
    for case in 0..12_000 {
        let rota = match case % 3 {
            0 => generate::small_rota(&mut random),
            _ => generate::relay_rota(&mut random),
        };
        same_staying(&mut random, &rota, &Edges::of_rota(&rota), &mut on_rotas);
        let table = match case % 4 {
            0 => generate::small_table(&mut random),
            1 => generate::relay_table(&mut random),
            2 => generate::dense_table(&mut random),
            _ => generate::table_of_rota(&mut random, &rota),
        };
        same_staying(&mut random, &table, &Edges::of_table(&table), &mut on_tables);
    }
    // Some of those who were open are closed, none of them is, or all are.
    for seen in [on_rotas, on_tables] {
        assert!(seen.iter().all(|&times| times > 1_000), "some, none, all: {seen:?}");
    }
}

/// What a pause of the host does not matter for: two advances leave what one leaves.
#[test]
fn two_steps_close_as_many_as_one() {
    let mut random = Random::new(9);
    for case in 0..3_000 {
        let rota = generate::relay_rota(&mut random);
        let (table, edges) = (rewriting::table(&rota), Edges::of_rota(&rota));
        let policy: &dyn Policy = if case % 2 == 0 { &rota } else { &table };
        let open = reference::set::below(policy.users());
        let now = generate::rota_minute(&mut random, &rota).min(END - 1);
        let k = generate::jump(&mut random, &edges, now);
        let m = generate::jump(&mut random, &edges, k);
        assert_eq!(
            policy.staying(policy.staying(open, now, k), k, m),
            policy.staying(open, now, m)
        );
        assert_eq!(policy.staying(open, now, now), open);
        assert_eq!(rota.staying(open, now, m), table.staying(open, now, m));
    }
}

/// The rewriting from its definition alone: every minute of a field is looked at.
fn rows_by_every_minute(rota: &Rota) -> Vec<(u8, u64, u64, u32, u32, u32, u32)> {
    let cycle = u32::from(rota.cycle);
    let mut rows = Vec::new();
    for role in 0..rota.roles.len() as u8 {
        for (begin, end) in rewriting::eras(rota) {
            for (offset, cell_end) in rewriting::cells(rota) {
                // A long era repeats itself: two turns of the cycle show all that it has.
                let seen = end.min(begin + 2 * cycle);
                let sets: BTreeSet<(bool, u64, u64)> = (begin..seen)
                    .filter(|t| (offset..cell_end).contains(&(t % cycle)))
                    .map(|t| {
                        let users = rota.users_of_role(role, t);
                        (rota.role_is_enabled(role, t), users, rota.permissions_of_role(role, t))
                    })
                    .collect();
                assert!(sets.len() <= 1, "all minutes of a field agree");
                for (enabled, users, permissions) in sets {
                    if enabled && users != 0 && permissions != 0 {
                        let length = cell_end - offset;
                        rows.push((role, users, permissions, begin, end, offset, length));
                    }
                }
            }
        }
    }
    rows
}

#[test]
fn rewriting_keeps_the_fields_of_its_definition() {
    let mut random = Random::new(4);
    for _ in 0..3_000 {
        let rota = generate::small_rota(&mut random);
        let table = rewriting::unjoined(&rota);
        let mut numbered = 0;
        let rows: Vec<_> = table
            .rows
            .iter()
            .map(|row| {
                // Numbers go by first row, and the same role with the same sets has one number.
                assert!(row.derived <= numbered);
                numbered = numbered.max(row.derived + 1);
                let entry = table.derived[row.derived as usize];
                let (offset, length) = (u32::from(row.offset), u32::from(row.length));
                let sets = (entry.source, entry.users, entry.permissions);
                (sets.0, sets.1, sets.2, row.begin, row.end, offset, length)
            })
            .collect();
        assert_eq!(numbered as usize, table.derived.len());
        let different: HashSet<_> = table.derived.iter().collect();
        assert_eq!(different.len(), table.derived.len());
        assert_eq!(rows, rows_by_every_minute(&rota));
    }
}

/// A joined row is a whole run of rows that touch, and no two of them touch; all else stays.
#[test]
fn joined_rows_are_whole_runs() {
    let mut tally = Tally::new("joined_rows_are_whole_runs");
    let mut random = Random::new(10);
    for case in 0..6_000 {
        let rota = match case % 6 {
            0 => generate::granting_rota(&mut random),
            1 => generate::relay_rota(&mut random),
            2 | 3 => generate::small_rota(&mut random),
            _ => generate::touching_rota(&mut random),
        };
        let (unjoined, table) = (rewriting::unjoined(&rota), rewriting::table(&rota));
        let runs = unjoined.rows.chunk_by(touch);
        let whole = |run: &[Row]| {
            let length = run.iter().map(|row| row.length).sum();
            Row { length, ..run[0] }
        };
        assert_eq!(table.rows, runs.map(whole).collect::<Vec<_>>());
        assert!(table.rows.windows(2).all(|two| !touch(&two[0], &two[1])));
        assert_eq!(Table { rows: unjoined.rows.clone(), ..table.clone() }, unjoined);
        tally.add(0);
        joining::count(&mut tally, &unjoined, &table);
    }
    tally.reached([0]).also(&joining::REACHED);
}

/// At each minute of some cycles on both sides of every era's border.
#[test]
fn joined_and_unjoined_tables_enable_the_same() {
    let mut tally = Tally::new("joined_and_unjoined_tables_enable_the_same");
    let mut random = Random::new(11);
    for _ in 0..2_000 {
        let rota = joining::short_rota(&mut random);
        let (unjoined, table) = (rewriting::unjoined(&rota), rewriting::table(&rota));
        for table in [&unjoined, &table] {
            assert_eq!(Table::parse(&table.encode()), Ok(table.clone()));
        }
        tally.add(0);
        joining::count(&mut tally, &unjoined, &table);
        for t in joining::minutes(&rota) {
            assert_eq!(joining::enabled(&table, t), joining::enabled(&unjoined, t));
            same_answers(&table, &unjoined, t);
            same_answers(&table, &rota, t);
        }
    }
    tally.reached([0]).also(&joining::REACHED);
}

/// Tidy rows by sorting them; the rota means the same, and however it is spelled it becomes the
/// same rota.
#[test]
fn tidy_rotas_are_the_same_rotas() {
    let mut tally = Tally::new("tidy_rotas_are_the_same_rotas");
    let mut random = Random::new(12);
    for case in 0..4_000 {
        let rota = match case % 4 {
            0 => generate::granting_rota(&mut random),
            1 => generate::relay_rota(&mut random),
            _ => generate::small_rota(&mut random),
        };
        let rota = generate::respelled(&mut random, &rota);
        let tidy = rota.tidy();
        let sorted = |rows: &[rota::Row]| {
            let mut rows = rows.to_vec();
            rows.sort_by_key(rota::Row::place);
            rows.dedup();
            rows
        };
        let (user_rows, permission_rows) = (sorted(&rota.user_rows), sorted(&rota.permission_rows));
        assert_eq!(tidy, Rota { format: TIDY, user_rows, permission_rows, ..rota.clone() });
        assert_eq!(Rota::parse(&tidy.encode()), Ok(tidy.clone()));
        assert_eq!(tidy.tidy(), tidy);
        assert_eq!(generate::respelled(&mut random, &rota).tidy(), tidy);
        assert_eq!(rewriting::table(&rota), rewriting::table(&tidy));
        for _ in 0..4 {
            let t = generate::rota_minute(&mut random, &rota);
            if t < END {
                same_answers(&rota, &tidy, t);
            }
        }
        tally.add(0);
        tidying::count(&mut tally, &rota, &tidy);
    }
    tally.reached([0]).also_often(&tidying::REACHED, 500);
}

/// Rows alone: out of range and out of order, of either kind, and both together.
#[test]
fn damaged_rows_are_judged_in_turn() {
    let mut tally = Tally::new("damaged_rows_are_judged_in_turn");
    let mut random = Random::new(13);
    for _ in 0..20_000 {
        let rota = generate::tidy_rota(&mut random);
        let bytes = generate::damaged_rows(&mut random, &rota);
        let refusal = tidying::first_fault(&mut tally, &bytes, &rota);
        assert_eq!(Rota::parse(&bytes).err().unwrap_or(0), refusal);
        tally.add(refusal);
    }
    tally.reached([0, 11, 12, 52]).also_often(&tidying::FAULTS, 500);
}

fn random_call(random: &mut Random, rota: &Rota, now: u32) -> Call {
    let user = generate::number(random, rota.users.into());
    match random.below(8) {
        0 => Call::Advance(generate::rota_minute(random, rota)),
        1 => Call::Advance(now.saturating_add(random.below(4))),
        2..=4 => Call::Open(user),
        5 => Call::Close(user),
        _ => Call::Ask(user, generate::number(random, rota.permissions.into())),
    }
}

#[test]
fn both_services_agree_with_the_machine() {
    let mut random = Random::new(5);
    let mut reached: BTreeMap<String, u32> = BTreeMap::new();
    for case in 0..2_000 {
        let rota = if case % 4 == 0 {
            generate::rota(&mut random)
        } else {
            generate::small_rota(&mut random)
        };
        let rota_bytes = rota.encode();
        let table_bytes = rewriting::table(&rota).encode();
        let (mut machine, mut on_rota, mut on_table) =
            (State::default(), State::default(), State::default());
        for _ in 0..30 {
            let call = random_call(&mut random, &rota, machine.now);
            let before = machine;
            let expected = step(&rota, &mut machine, call);
            let kind = match expected {
                Ok(Reply::Closed(count)) => format!("closed {}", count > 0),
                Ok(Reply::Answer(answer)) => format!("answer {}", answer.is_some()),
                other => format!("{other:?}"),
            };
            *reached.entry(kind).or_default() += 1;
            assert_eq!(serve(Lent::Rota(&rota_bytes), &mut on_rota, call), expected);
            assert_eq!(serve(Lent::Table(&table_bytes), &mut on_table, call), expected);
            assert_eq!((on_rota, on_table), (machine, machine));
            if expected.is_err() {
                assert_eq!(machine, before);
            }
        }
    }
    // 33 to 35, 41 to 44, two kinds of count, done, yes and no; 40 needs an odd state.
    assert_eq!(reached.len(), 12, "{reached:?}");
    assert!(reached.values().all(|&count| count > 20), "{reached:?}");
}

#[test]
fn tables_that_no_rewriting_makes_answer_by_their_rows() {
    let mut random = Random::new(6);
    for _ in 0..2_000 {
        let table = generate::small_table(&mut random);
        for _ in 0..20 {
            let t = generate::table_minute(&mut random, &table);
            if t < END {
                assert_eq!(table.holders(t), holders_by_asking(&table, t));
            }
        }
    }
}

#[test]
fn damaged_bytes_reach_every_refusal() {
    let mut random = Random::new(7);
    let mut reached = [0u32; 64];
    for _ in 0..60_000 {
        let rota = generate::small_rota(&mut random);
        if let Err(number) = Rota::parse(&generate::damaged_rota(&mut random, &rota)) {
            reached[number as usize] += 1;
        }
        let table = generate::small_table(&mut random);
        if let Err(number) = Table::parse(&generate::damaged_table(&mut random, &table)) {
            reached[number as usize] += 1;
        }
    }
    for number in (1..=12).chain(21..=28).chain([52]) {
        assert!(reached[number] > 50, "refusal {number}: {}", reached[number]);
    }
}
