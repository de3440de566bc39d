//! Rows that touch and become one: worked rotas with their tables' rows, and what a table reaches.

use reference::END;
use reference::hours::{Hours, HoursRef};
use reference::rewriting::{eras, first_minute, touch};
use reference::rota::{self, Rota};
use reference::table::{Row, Table};

use crate::case::Tally;
use crate::generate::{relay_rota, touching_rota};
use crate::random::Random;

/// A rota with how many derived roles its table has, and the table's rows.
pub struct Worked {
    pub rota: Rota,
    pub derived: usize,
    pub rows: Vec<Row>,
}

const CYCLE: u16 = 10;

/// A cycle of 10 minutes, these hours, and one role in which users 0, 1 and so on have these hours.
fn worked(hours: &[Hours], users: &[HoursRef]) -> Worked {
    let rota = Rota {
        format: rota::ANY_ORDER,
        cycle: CYCLE,
        hours: hours.to_vec(),
        users: users.len() as u8,
        permissions: 1,
        roles: vec![HoursRef::Always],
        user_rows: (0..).zip(users).map(|(user, &hours)| rota::Row::new(user, 0, hours)).collect(),
        permission_rows: vec![rota::Row::new(0, 0, HoursRef::Always)],
    };
    Worked { rota, derived: 0, rows: Vec::new() }
}

impl Worked {
    /// The rows, each as derived role, begin, end, offset and length.
    fn gives(self, derived: usize, rows: &[(u32, u32, u32, u16, u16)]) -> Worked {
        let row = |&(derived, begin, end, offset, length): &_| Row {
            derived,
            begin,
            end,
            offset,
            length,
        };
        Worked { derived, rows: rows.iter().map(row).collect(), ..self }
    }
}

/// Cells from 1 to 3, to 5 and to 7 are one row.
pub fn run_of_three() -> Worked {
    let hours = [Hours::new(0, END, &[(1, 6)]), Hours::new(0, END, &[(3, 2)])];
    worked(&hours, &[HoursRef::Numbered(0)]).gives(1, &[(0, 0, END, 1, 6)])
}

/// All ten cells are one row.
pub fn run_of_a_whole_cycle() -> Worked {
    let every_other: Vec<_> = (0..CYCLE / 2).map(|i| (2 * i, 1)).collect();
    let hours = [Hours::new(0, END, &every_other)];
    worked(&hours, &[HoursRef::Always]).gives(1, &[(0, 0, END, 0, 10)])
}

/// 513 cells are one row, in an era in which one set of hours holds in all of them, and in one in
/// which it changes at each.
pub fn run_of_513_cells() -> Worked {
    let every_other: Vec<_> = (0..256).map(|i| (2 * i, 1)).collect();
    let hours = [Hours::new(0, 600, &every_other)];
    let mut worked = worked(&hours, &[HoursRef::Always]);
    worked.rota.cycle = 600;
    worked.gives(1, &[(0, 0, 600, 0, 600), (0, 600, END, 0, 600)])
}

/// In the era from 8 to 14 no minute has its remainder in the cell from 4 to 8; those before and
/// after it are two rows.
pub fn cell_without_a_minute() -> Worked {
    let hours = [Hours::new(8, 14, &[(4, 4)])];
    worked(&hours, &[HoursRef::Always])
        .gives(1, &[(0, 0, 8, 0, 8), (0, 8, 14, 0, 4), (0, 8, 14, 8, 2), (0, 14, END, 0, 10)])
}

/// The first era ends at minute and phase 5, where the second begins.
pub fn two_eras() -> Worked {
    let hours = [Hours::new(5, 10, &[(5, 5)])];
    worked(&hours, &[HoursRef::Always])
        .gives(1, &[(0, 0, 5, 0, 5), (0, 5, 10, 5, 5), (0, 10, END, 0, 10)])
}

/// The last cell of a cycle and the first of the next, in one era and from one era to the next.
pub fn round_the_cycle() -> Worked {
    let hours = [Hours::new(0, END, &[(0, 3), (7, 3)]), Hours::new(0, 20, &[(0, 10)])];
    worked(&hours, &[HoursRef::Numbered(0)])
        .gives(1, &[(0, 0, 20, 0, 3), (0, 0, 20, 7, 3), (0, 20, END, 0, 3), (0, 20, END, 7, 3)])
}

/// One derived role comes again right after another.
pub fn two_derived_roles() -> Worked {
    let hours = [Hours::new(0, END, &[(2, 3), (7, 3)])];
    worked(&hours, &[HoursRef::Always, HoursRef::Numbered(0)])
        .gives(2, &[(0, 0, END, 0, 2), (1, 0, END, 2, 3), (0, 0, END, 5, 2), (1, 0, END, 7, 3)])
}

/// Two roles with the same user and permission: what the one has before 5 the other has after it.
pub fn two_roles() -> Worked {
    let hours = [Hours::new(0, END, &[(0, 5)]), Hours::new(0, END, &[(5, 5)])];
    let mut worked = worked(&hours, &[HoursRef::Always]);
    worked.rota.roles = vec![HoursRef::Numbered(0), HoursRef::Numbered(1)];
    worked.rota.user_rows.push(rota::Row::new(0, 1, HoursRef::Always));
    worked.rota.permission_rows.push(rota::Row::new(0, 1, HoursRef::Always));
    worked.gives(2, &[(0, 0, END, 0, 5), (1, 0, END, 5, 5)])
}

/// All of these by name.
pub fn all_worked() -> [(&'static str, Worked); 8] {
    [
        ("run of three", run_of_three()),
        ("run of a whole cycle", run_of_a_whole_cycle()),
        ("run of 513 cells", run_of_513_cells()),
        ("cell without a minute", cell_without_a_minute()),
        ("two eras", two_eras()),
        ("round the cycle", round_the_cycle()),
        ("two derived roles", two_derived_roles()),
        ("two roles", two_roles()),
    ]
}

/// A rota whose cycle is short enough for `minutes`.
pub fn short_rota(random: &mut Random) -> Rota {
    loop {
        let rota = if random.one_in(3) { relay_rota(random) } else { touching_rota(random) };
        if rota.cycle <= 12 {
            return rota;
        }
    }
}

/// Each minute of the last cycle before each border of two eras and of the first two after it.
pub fn minutes(rota: &Rota) -> Vec<u32> {
    let cycle = u32::from(rota.cycle);
    let near = |border: u32| border.saturating_sub(cycle)..(border + 2 * cycle).min(END);
    let mut minutes: Vec<u32> =
        eras(rota).iter().flat_map(|&(begin, end)| near(begin).chain(near(end))).collect();
    minutes.sort();
    minutes.dedup();
    minutes
}

/// The derived roles that are enabled at a minute, once for each row that enables them.
pub fn enabled(table: &Table, t: u32) -> Vec<u32> {
    let rows = table.rows.iter().filter(|row| row.enables(table.cycle, t));
    rows.map(|row| row.derived).collect()
}

/// What `count` counts: what was joined, and what was not though the minutes, or the cells, go on.
pub const REACHED: [&str; 6] = [
    "rows joined",
    "a run of three or more",
    "apart by a cell without a minute",
    "apart by an era",
    "apart by the cycle's end",
    "apart by derived roles",
];

/// Counts for a rota's table what it shows of the joining, each once.
pub fn count(tally: &mut Tally, unjoined: &Table, table: &Table) {
    let cycle = u32::from(table.cycle);
    let runs = || unjoined.rows.chunk_by(touch);
    let neighbours = |is_apart: &dyn Fn(&Row, &Row) -> bool| {
        table.rows.windows(2).any(|two| is_apart(&two[0], &two[1]))
    };
    let same = |a: &Row, b: &Row| a.derived == b.derived;
    let in_one_era = |a: &Row, b: &Row| (a.begin, a.end) == (b.begin, b.end);
    let go_on = |a: &Row, b: &Row| a.cell_end() == u32::from(b.offset);
    let is_reached = [
        runs().any(|run| run.len() > 1),
        runs().any(|run| run.len() > 2),
        neighbours(&|a, b| {
            let between = (a.cell_end(), u32::from(b.offset));
            same(a, b)
                && in_one_era(a, b)
                && between.0 < between.1
                && first_minute(cycle, (a.begin, a.end), between).is_none()
        }),
        neighbours(&|a, b| same(a, b) && a.end == b.begin && go_on(a, b)),
        neighbours(&|a, b| same(a, b) && a.cell_end() == cycle && b.offset == 0),
        neighbours(&|a, b| !same(a, b) && in_one_era(a, b) && go_on(a, b)),
    ];
    for (is_reached, what) in is_reached.into_iter().zip(REACHED) {
        tally.count_if(is_reached, what);
    }
}
