//! Rewriting: byte for byte, into areas of the table's size and of sizes around it.

use std::time::Instant;

use cases::case::{Case, Tally, cases, print, tallied};
use cases::generate::{Sets, fine_rota, most_rows_rota, most_sets_rota};
use cases::joining::{self, Worked};
use cases::{data, generate, worst};
use comparison::compare::rewriting::{self, Lent, compare, compare_areas, compare_size};
use comparison::expected::rewriting::Whole;
use comparison::ffi;
use comparison::ffi::rewriting::Rewritten;
use reference::END;
use reference::hours::{Hours, HoursRef};
use reference::rota::{ANY_ORDER, Rota, Row};
use reference::table::Table;

fn small() -> Rota {
    Rota::parse(&data::small_rota()).expect("well formed")
}

/// The proved code's table of a rota, as its parts.
fn table_of(rota: &Rota) -> Table {
    Table::parse(&ffi::rewriting::table(&rota.encode())).expect("a rewritten table is read")
}

/// The small rota's table is its file, and needs 195 bytes: 8 rows, of which unjoined there are 12,
/// in 259 bytes.
#[test]
fn small_rota() {
    assert_eq!(ffi::rewriting::table(&data::small_rota()), data::small_table());
    assert_eq!((table_of(&small()).rows.len(), data::small_table().len()), (8, 195));
    let mut tally = Tally::new("small_rota");
    let mut case = Case::new("small_rota", 0);
    let lent = Lent::new(data::small_rota());
    for size in 0..600 {
        let refusal = compare(&mut case, &mut tally, &lent, size);
        assert_eq!(refusal, if size < 195 { 20 } else { 0 }, "area {size}");
    }
    let sizes = [194, 195, 196, 258, 259];
    let given = sizes.map(|size| ffi::rewriting::rewrite(&lent.bytes, &mut vec![0; size]));
    let written = Rewritten { refusal: 0, derived: 3, rows: 8, length: 195 };
    assert_eq!(ffi::rewriting::size(&lent.bytes), written);
    let refused = Rewritten { refusal: 20, ..Rewritten::default() };
    assert_eq!(given, [refused, written, written, written, written]);
    assert_eq!(compare(&mut case, &mut tally, &lent, 1 << 20), 0);
    // A rota that is refused stays so, whether a table would fit or not.
    let cut = Lent::new(lent.bytes[..53].to_vec());
    for size in [0, 194, 195, 600] {
        assert_eq!(compare(&mut case, &mut tally, &cut, size), 9);
    }
    tally.reached([0, 9, 20]);
}

/// In the era from 3 to 5 no minute has its remainder in the cell from 6 to 8.
#[test]
fn a_field_without_a_minute_is_not_kept() {
    let rota = Rota {
        hours: vec![Hours::new(3, 5, &[(0, 10)]), Hours::new(0, END, &[(6, 2)])],
        users: 1,
        user_rows: vec![Row::new(0, 0, HoursRef::Always)],
        permission_rows: vec![Row::new(0, 0, HoursRef::Always)],
        ..small()
    };
    let table = table_of(&rota);
    let rows: Vec<_> =
        table.rows.iter().map(|row| (row.begin, row.end, row.offset, row.length)).collect();
    assert_eq!(rows, [(0, 3, 0, 6), (3, 5, 0, 6), (5, END, 0, 10)]);
    assert_eq!(table.derived.len(), 1);
    let mut tally = Tally::new("a_field_without_a_minute_is_not_kept");
    let mut case = Case::new("a_field_without_a_minute_is_not_kept", 0);
    compare_areas(&mut case, &mut tally, &Lent::new(rota.encode()));
}

/// The rows of a worked rota are these, and its area is judged by them.
fn compare_worked(name: &'static str, worked: Worked) {
    let table = table_of(&worked.rota);
    assert_eq!((table.derived.len(), table.rows), (worked.derived, worked.rows));
    let (mut case, mut tally) = (Case::new(name, 0), Tally::new(name));
    compare_areas(&mut case, &mut tally, &Lent::new(worked.rota.encode()));
    tally.reached([0, 20]);
}

#[test]
fn runs_of_three_and_more_cells() {
    compare_worked("runs_of_three_and_more_cells", joining::run_of_three());
    compare_worked("runs_of_three_and_more_cells", joining::run_of_a_whole_cycle());
    compare_worked("runs_of_three_and_more_cells", joining::run_of_513_cells());
}

#[test]
fn not_joined_over_a_cell_without_a_minute() {
    compare_worked("not_joined_over_a_cell_without_a_minute", joining::cell_without_a_minute());
}

#[test]
fn not_joined_across_eras() {
    compare_worked("not_joined_across_eras", joining::two_eras());
}

#[test]
fn not_joined_round_the_end_of_the_cycle() {
    compare_worked("not_joined_round_the_end_of_the_cycle", joining::round_the_cycle());
}

#[test]
fn rows_of_two_derived_roles_are_not_joined() {
    compare_worked("rows_of_two_derived_roles_are_not_joined", joining::two_derived_roles());
    compare_worked("rows_of_two_derived_roles_are_not_joined", joining::two_roles());
}

#[test]
fn joined_and_unjoined_tables_mean_the_same() {
    tallied("joined_and_unjoined_tables_mean_the_same", 400, rewriting::joined_and_unjoined)
        .reached([0])
        .also(&[&joining::REACHED[..], &["yes", "no"]].concat());
}

/// The days of Example 2 of document 003, in which the role DayDoctor is given to the doctors A to
/// E, in the day time from 9 to 21; Monday is 0. There an interval may share an end point with the
/// next; here hours are half open, so that at 21:00 itself it is no longer day time. The paper's
/// week has no first and no last day; here it runs from minute 0 to E.
const DAYS: [&[u16]; 5] = [&[0, 1, 2, 3, 4, 6], &[1, 6], &[1, 3, 4, 6], &[0, 1, 2, 5, 6], &[3, 4]];
const DAY: u16 = 1_440;
const DAY_TIME: (u16, u16) = (9 * 60, 12 * 60);

/// The rota of the first so many doctors.
fn doctors(count: u8) -> Rota {
    let hours = DAYS[..count.into()].iter().map(|days| {
        let pairs: Vec<_> = days.iter().map(|day| (DAY * day + DAY_TIME.0, DAY_TIME.1)).collect();
        Hours::new(0, END, &pairs)
    });
    Rota {
        format: ANY_ORDER,
        cycle: 7 * DAY,
        hours: hours.collect(),
        users: count,
        permissions: 1,
        roles: vec![HoursRef::Always],
        user_rows: (0..count)
            .map(|doctor| Row::new(doctor, 0, HoursRef::Numbered(doctor)))
            .collect(),
        permission_rows: vec![Row::new(0, 0, HoursRef::Always)],
    }
}

/// For each derived role its doctors and the days on which it is enabled, which is in the day time
/// and throughout it.
fn by_days(table: &Table) -> Vec<(u64, Vec<u16>)> {
    let mut all: Vec<_> = table.derived.iter().map(|entry| (entry.users, Vec::new())).collect();
    for row in &table.rows {
        assert_eq!((row.begin, row.end), (0, END));
        assert_eq!((row.offset % DAY, row.length), DAY_TIME);
        all[row.derived as usize].1.push(row.offset / DAY);
    }
    all
}

/// Example 2 of document 003, step by step: the derived roles are enabled on the days of the
/// minimal disjoint set of the first two doctors, of the first three, of four and of all. The
/// paper lists each set by its own steps; here derived roles are numbered by first row.
#[test]
fn minimal_disjoint_sets_of_example_2() {
    let steps: [(u8, &[&[u16]]); 4] = [
        // {Mon, Wed, Thu, Fri}, {Sun, Tue}.
        (2, &[&[0, 2, 3, 4], &[1, 6]]),
        // {Mon, Wed}, {Sun, Tue}, {Thu, Fri}.
        (3, &[&[0, 2], &[1, 6], &[3, 4]]),
        // {Sat} comes with D, and E brings nothing new.
        (4, &[&[0, 2], &[1, 6], &[3, 4], &[5]]),
        (5, &[&[0, 2], &[1, 6], &[3, 4], &[5]]),
    ];
    let mut tally = Tally::new("minimal_disjoint_sets_of_example_2");
    let mut case = Case::new("minimal_disjoint_sets_of_example_2", 0);
    for (count, expected) in steps {
        let rota = doctors(count);
        let days: Vec<_> = by_days(&table_of(&rota)).into_iter().map(|(_, days)| days).collect();
        assert_eq!(days, expected, "{count} doctors");
        compare_areas(&mut case, &mut tally, &Lent::new(rota.encode()));
    }
    tally.reached([0, 20]);
}

/// Example 4 of document 003: five doctors, one role. Its second representation has 4 roles, one
/// for each of the minimal disjoint set, and 10 assignments of doctors to them; the first has a
/// role for each of the 5 assignments. Doctor C has the roles of {Sun, Tue} and {Thu, Fri}. The
/// paper keeps the first role as a junior of the new ones; here they stand for it.
#[test]
fn roles_and_assignments_of_example_4() {
    let derived = by_days(&table_of(&doctors(5)));
    let expected = [
        (0b01001, vec![0, 2]), // A and D
        (0b01111, vec![1, 6]), // A, B, C and D
        (0b10101, vec![3, 4]), // A, C and E
        (0b01000, vec![5]),    // D
    ];
    assert_eq!(derived, expected);
    let roles_of =
        |doctor: usize| derived.iter().filter(|(users, _)| users >> doctor & 1 == 1).count();
    let assignments = [0, 1, 2, 3, 4].map(roles_of);
    assert_eq!(assignments, [3, 1, 2, 3, 1]);
    assert_eq!((derived.len(), assignments.iter().sum::<usize>()), (4, 10));
}

/// Half open: a doctor may at 9:00 and no longer at 21:00, on the rota and on its table.
#[test]
fn day_time_is_half_open() {
    let rota = doctors(5);
    let (rota, table) = (rota.encode(), ffi::rewriting::table(&rota.encode()));
    let monday = |minute: u32| 7 * u32::from(DAY) + minute;
    let expected = [(8 * 60 + 59, 0), (9 * 60, 1), (20 * 60 + 59, 1), (21 * 60, 0)];
    for (minute, yes) in expected {
        let asked = ffi::rota::question(&rota, 0, 0, monday(minute));
        assert_eq!((asked.refusal, asked.yes), (0, yes), "{minute}");
        assert_eq!(ffi::table::question(&table, 0, 0, monday(minute)), asked);
    }
}

/// Cycles of 1 and 40,320, hours up to E, one minute, the last one, 64 users and permissions.
#[test]
fn limits() {
    let mut tally = Tally::new("limits");
    let mut case = Case::new("limits", 0);
    let everyone: Vec<Row> = (0..64).map(|number| Row::new(number, 31, HoursRef::Always)).collect();
    for cycle in [1, 2, 40_319, 40_320] {
        for (begin, end) in [(0, END), (0, 1), (END - 1, END), (END - 2, END - 1), (1, END)] {
            for (offset, length) in [(0, cycle), (0, 1), (cycle - 1, 1)] {
                let rota = Rota {
                    format: ANY_ORDER,
                    cycle,
                    hours: vec![Hours::new(begin, end, &[(offset, length)])],
                    users: 64,
                    permissions: 64,
                    roles: vec![HoursRef::Numbered(0); 32],
                    user_rows: everyone.clone(),
                    permission_rows: everyone.clone(),
                };
                compare_areas(&mut case, &mut tally, &Lent::new(rota.encode()));
                // The same with the hours at a row, or at nothing at all.
                let mut at_a_row = Rota { roles: vec![HoursRef::Always; 32], ..rota };
                compare_areas(&mut case, &mut tally, &Lent::new(at_a_row.encode()));
                at_a_row.user_rows[63].hours = HoursRef::Numbered(0);
                at_a_row.permission_rows[0].hours = HoursRef::Numbered(0);
                compare_areas(&mut case, &mut tally, &Lent::new(at_a_row.encode()));
            }
        }
    }
    // Everything always, to the last bit: one row and both sets full.
    let whole_time = Rota {
        format: ANY_ORDER,
        cycle: 40_320,
        hours: vec![Hours::new(0, END, &[(0, 40_320)])],
        users: 64,
        permissions: 64,
        roles: vec![HoursRef::Always; 32],
        user_rows: everyone.clone(),
        permission_rows: everyone,
    };
    let table = table_of(&whole_time);
    assert_eq!((table.derived.len(), table.rows.len()), (1, 1));
    assert_eq!((table.derived[0].users, table.derived[0].permissions), (u64::MAX, u64::MAX));
    tally.reached([0, 20]);
}

/// Each set of counts 0, the cycle 1 or 40,320, all else at its limit. A rota that grants
/// nothing gives the 16 bytes of the header.
#[test]
fn counts_of_0_alone_and_together() {
    let mut tally = Tally::new("counts_of_0_alone_and_together");
    for which in 0..generate::EDGE_SIZES {
        let mut case = Case::new("counts_of_0_alone_and_together", which.into());
        let rota = generate::rota_of(&mut case.random, &generate::edge_sizes(which));
        compare_areas(&mut case, &mut tally, &Lent::new(rota.encode()));
    }
    tally.reached([0, 20]);
    tally.also(&["bare header", "rows"]);
}

#[test]
fn random_rotas() {
    tallied("random_rotas", 2_000, rewriting::any_size).reached([0, 20]).also(&[
        "bare header",
        "a derived role with several rows",
        "rows joined",
    ]);
}

#[test]
fn small_rotas() {
    tallied("small_rotas", 2_500, rewriting::small)
        .reached([0, 20])
        .also(&[&joining::REACHED[..], &["an era shorter than the cycle"]].concat());
}

#[test]
fn unused_hours() {
    tallied("unused_hours", 1_000, rewriting::unused_hours)
        .reached([0, 20])
        .also(&["a table made longer"]);
}

#[test]
fn damaged_rotas() {
    tallied("damaged_rotas", 3_000, rewriting::damaged).reached((0..=12).chain([20, 52]));
}

/// What is told without an area: each refusal of a rota, and never 20.
#[test]
fn sizes() {
    let tally = tallied("sizes", 3_000, rewriting::sized);
    tally.reached((0..=12).chain([52]));
    assert_eq!(tally.reached_times(20), 0);
}

/// Every length of a rota's bytes, and every byte changed.
#[test]
fn every_length_and_byte() {
    let mut tally = Tally::new("every_length_and_byte");
    cases("every_length_and_byte", 3, |case| {
        // The small rota itself comes first.
        let rota = if case.number == 0 { small() } else { generate::small_rota(&mut case.random) };
        let whole = rota.encode();
        let longer = [&whole[..], &[0, 0]].concat();
        for len in 0..=longer.len() {
            let lent = Lent::new(longer[..len].to_vec());
            compare(case, &mut tally, &lent, lent.size());
            compare_size(case, &mut tally, &lent);
        }
        for i in 0..whole.len() {
            for value in generate::changes(whole[i]) {
                let mut bytes = whole.clone();
                bytes[i] = value;
                let lent = Lent::new(bytes);
                let size = lent.size() - usize::from(case.random.one_in(4));
                compare(case, &mut tally, &lent, size);
            }
        }
    });
    tally.reached([0, 1, 9, 20]);
}

/// A large rota's size, and the rota into areas of that size and one less, and of 64 KiB, which is
/// mostly too little for it.
fn compare_fine(name: &'static str, rota: &Rota) -> Whole {
    let mut tally = Tally::new(name);
    let mut case = Case::new(name, 0);
    let lent = Lent::new(rota.encode());
    let size = lent.size();
    let start = Instant::now();
    let refusal = compare(&mut case, &mut tally, &lent, 65_536);
    assert_eq!(refusal, if size > 65_536 { 20 } else { 0 });
    let in_64_kib = start.elapsed();
    compare_size(&mut case, &mut tally, &lent);
    assert_eq!(compare(&mut case, &mut tally, &lent, size), 0);
    assert_eq!(compare(&mut case, &mut tally, &lent, size - 1), 20);
    let whole = lent.whole.expect("accepted");
    print(&format!(
        "{name}: {} derived roles, {} rows, unjoined {}, {size} bytes; {} ms, 64 KiB {} ms",
        whole.derived,
        whole.rows,
        whole.unjoined.rows.len(),
        start.elapsed().as_millis(),
        in_64_kib.as_millis(),
    ));
    whole
}

/// 65 eras, 513 cells, 32 roles: the most rows that a table can have before any are joined.
const MOST: u32 = 65 * 513 * 32;

/// How many derived roles, rows, and rows before they are joined.
fn counts(whole: &Whole) -> (u32, u32, u32) {
    (whole.derived, whole.rows, whole.unjoined.rows.len() as u32)
}

/// The most that were found.
#[test]
fn most_rows() {
    let whole = compare_fine("most_rows", &most_rows_rota());
    assert_eq!(counts(&whole), (1_920, 970_528, MOST));
}

/// As many fields, which become one row for each era and role.
#[test]
fn most_rows_joined_to_few() {
    let mut case = Case::new("most_rows_joined_to_few", 0);
    let rota = fine_rota(&mut case.random, 32, 8, 32, Sets::Same);
    let whole = compare_fine("most_rows_joined_to_few", &rota);
    assert_eq!(counts(&whole), (32, 32 * 65, MOST));
}

/// The same with a few rows in each era, over many cells each.
#[test]
fn long_runs() {
    let mut case = Case::new("long_runs", 0);
    let rota = fine_rota(&mut case.random, 32, 8, 32, Sets::Few);
    let whole = compare_fine("long_runs", &rota);
    assert_eq!((whole.derived, counts(&whole).2), (64, MOST));
    assert!((10_000..40_000).contains(&whole.rows), "{}", whole.rows);
}

/// As many fields, with thousands of derived roles of one role.
#[test]
fn many_sets_of_one_role() {
    let mut case = Case::new("many_sets_of_one_role", 0);
    let rota = fine_rota(&mut case.random, 32, 8, 1, Sets::Many);
    let whole = compare_fine("many_sets_of_one_role", &rota);
    assert_eq!(whole.unjoined.rows.len(), 65 * 513);
    assert!(whole.derived > 5_000 && whole.rows > 12_000, "{:?}", counts(&whole));
}

/// As many fields, with many thousands of derived roles of each of the 32 roles.
#[test]
fn most_rows_and_most_sets() {
    let mut case = Case::new("most_rows_and_most_sets", 0);
    let whole = compare_fine("most_rows_and_most_sets", &most_sets_rota(&mut case.random));
    assert_eq!(whole.unjoined.rows.len() as u32, MOST);
    assert!(whole.derived > 350_000 && whole.rows > 750_000, "{:?}", counts(&whole));
}

/// The rotas that are made to take long.
#[test]
fn worst_rotas() {
    let expected = [
        (32 * 19_412, 807_776, MOST),
        (8 * 12_609, 181_592, MOST / 4),
        (22 * 12_608, 492_360, 641_916),
        (497, 16_128, 33_376),
    ];
    for ((name, cut), expected) in worst::cuts().into_iter().zip(expected) {
        assert_eq!(counts(&compare_fine(name, &cut.rota())), expected, "{name}");
    }
}
