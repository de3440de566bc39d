//! Tidy rotas: worked ones, with the refusal that is due, and what a tidying reaches.

use reference::hours::{Hours, HoursRef};
use reference::rota::{ANY_ORDER, Rota, Row, TIDY};
use reference::{END, Refusal};

use crate::case::Tally;
use crate::generate::{LIMITS, rota_of};
use crate::random::Random;

const ALWAYS: HoursRef = HoursRef::Always;

/// A row by its bytes; hours 255 are always.
fn row(number: u8, role: u8, hours: u8) -> Row {
    let hours = if hours == 255 { ALWAYS } else { HoursRef::Numbered(hours) };
    Row::new(number, role, hours)
}

/// A tidy rota of two hours, three users, permissions and roles, and these rows, each by its bytes:
/// number, role, hours.
fn rota(user_rows: &[[u8; 3]], permission_rows: &[[u8; 3]]) -> Rota {
    let rows =
        |rows: &[[u8; 3]]| rows.iter().map(|&[n, role, hours]| row(n, role, hours)).collect();
    Rota {
        format: TIDY,
        cycle: 10,
        hours: vec![Hours::new(0, 20, &[(0, 4), (6, 2)]), Hours::new(10, 40, &[(2, 5)])],
        users: 3,
        permissions: 3,
        roles: vec![ALWAYS; 3],
        user_rows: rows(user_rows),
        permission_rows: rows(permission_rows),
    }
}

/// What is due for rows of one kind.
#[derive(Clone, Copy)]
enum Due {
    Fine,
    /// 11 or 12.
    Range,
    /// 52.
    Order,
}

impl Due {
    fn refusal(self, out_of_range: Refusal) -> Refusal {
        match self {
            Due::Fine => 0,
            Due::Range => out_of_range,
            Due::Order => 52,
        }
    }
}

/// Rows of one kind, each by its bytes, and what is due for them in format 3 and in format 1.
type Rows = (&'static str, &'static [[u8; 3]], [Due; 2]);

const ROWS: [Rows; 19] = [
    ("no row", &[], [Due::Fine; 2]),
    ("one row, the last that there can be", &[[2, 2, 255]], [Due::Fine; 2]),
    ("the hours ascend to always", &[[0, 0, 0], [0, 0, 1], [0, 0, 255]], [Due::Fine; 2]),
    ("the number ascends", &[[0, 0, 255], [1, 0, 0], [2, 0, 0]], [Due::Fine; 2]),
    ("the role ascends", &[[2, 0, 255], [0, 1, 0], [0, 2, 0]], [Due::Fine; 2]),
    ("a repeat", &[[0, 0, 0], [0, 0, 0]], [Due::Order, Due::Fine]),
    ("a repeat of always", &[[2, 2, 255], [2, 2, 255]], [Due::Order, Due::Fine]),
    ("a repeat later on", &[[0, 0, 0], [1, 0, 0], [0, 0, 0]], [Due::Order, Due::Fine]),
    ("the hours fall", &[[0, 0, 1], [0, 0, 0]], [Due::Order, Due::Fine]),
    ("always before numbered hours", &[[0, 0, 255], [0, 0, 1]], [Due::Order, Due::Fine]),
    ("the number falls, the hours ascend", &[[1, 0, 0], [0, 0, 1]], [Due::Order, Due::Fine]),
    ("the role falls, the hours ascend", &[[0, 1, 0], [0, 0, 1]], [Due::Order, Due::Fine]),
    ("in the order of the bytes alone", &[[0, 1, 0], [1, 0, 0]], [Due::Order, Due::Fine]),
    ("a number that is not there, out of order", &[[2, 1, 0], [3, 0, 0]], [Due::Range; 2]),
    ("a role that is not there", &[[2, 1, 0], [2, 3, 0]], [Due::Range; 2]),
    ("hours that are not there, out of order", &[[2, 1, 0], [2, 0, 2]], [Due::Range; 2]),
    ("hours 254", &[[2, 1, 0], [2, 1, 254]], [Due::Range; 2]),
    ("order, then range", &[[1, 0, 0], [0, 0, 0], [3, 0, 0]], [Due::Order, Due::Range]),
    ("range, then order", &[[1, 0, 0], [3, 0, 0], [0, 0, 0]], [Due::Range; 2]),
];

/// Rotas with the refusal that is due for reading them: any of the rows above as those of users and
/// any as those of permissions, in both formats.
pub fn worked() -> Vec<(String, Rota, Refusal)> {
    let mut all = Vec::new();
    for (i, format) in [TIDY, ANY_ORDER].into_iter().enumerate() {
        for (of_users, user_rows, for_users) in ROWS {
            for (of_permissions, permission_rows, for_permissions) in ROWS {
                let name = format!("format {format}: {of_users}; {of_permissions}");
                let rota = Rota { format, ..rota(user_rows, permission_rows) };
                // All user rows come before the first permission row.
                let due = match for_users[i].refusal(11) {
                    0 => for_permissions[i].refusal(12),
                    refusal => refusal,
                };
                all.push((name, rota, due));
            }
        }
    }
    all
}

/// Bytes of a tidy rota with each fault that there is, and then one less at a time, from the first
/// that is looked for to the last; with the refusal that is due. The last of them is accepted.
pub fn ladder() -> Vec<(Vec<u8>, Refusal)> {
    let fine = rota(&[[0, 0, 0], [1, 0, 0], [2, 2, 255]], &[[0, 0, 0], [1, 1, 1], [1, 1, 255]]);
    let whole = fine.encode();
    // The records stand at 12 and 30, the roles at 44, the rows at 47 and 56.
    let faults: [(usize, &[u8], Refusal); 12] = [
        (0, &[2, 0], 2),
        (2, &[0, 0], 3),
        (5, &[65], 4),
        (12, &20u32.to_le_bytes(), 6),
        (20, &[0, 0], 7),
        (24, &[0, 0], 8),
        (whole.len(), &[0], 9),
        (46, &[2], 10),
        (48, &[3], 11),
        (50, &[0], 52),
        (57, &[3], 12),
        (62, &[0, 1, 1], 52),
    ];
    let with = |left: &[(usize, &[u8], Refusal)]| {
        let mut bytes = [&whole[..], &[0]].concat();
        for (at, fault, _) in left {
            bytes[*at..at + fault.len()].copy_from_slice(fault);
        }
        let is_longer = left.iter().any(|(.., refusal)| *refusal == 9);
        bytes.truncate(whole.len() + usize::from(is_longer));
        bytes
    };
    let mut all: Vec<(Vec<u8>, Refusal)> = vec![(with(&faults)[..11].to_vec(), 1)];
    for i in 0..faults.len() {
        let bytes = with(&faults[i..]);
        // A record whose first 10 bytes are cut off, and one whose pairs are.
        match faults[i].2 {
            6 => all.push((bytes[..21].to_vec(), 5)),
            8 => all.push((bytes[..29].to_vec(), 5)),
            _ => (),
        }
        all.push((bytes, faults[i].2));
    }
    all.push((whole, 0));
    all
}

/// Everything at its limit, and no row twice; the rows are in any order.
pub fn most_rows(random: &mut Random) -> Rota {
    let hours_count = LIMITS.hours as u8;
    let mut rows = |numbers: u32, count: u32| -> Vec<Row> {
        let mut rows = Vec::new();
        while rows.len() < count as usize {
            let (number, role) = (random.below(numbers) as u8, random.below(LIMITS.roles) as u8);
            let hours = random.between(0, LIMITS.hours) as u8;
            let row = row(number, role, if hours == hours_count { 255 } else { hours });
            if !rows.contains(&row) {
                rows.push(row);
            }
        }
        rows
    };
    let user_rows = rows(LIMITS.users, LIMITS.user_rows);
    let permission_rows = rows(LIMITS.permissions, LIMITS.permission_rows);
    Rota { user_rows, permission_rows, ..rota_of(random, &LIMITS) }
}

/// The same with no more than `count` rows of each kind, which repeat.
pub fn most_repeats(rota: &Rota, count: usize) -> Rota {
    let repeated = |rows: &[Row]| -> Vec<Row> {
        rows[..count].iter().copied().cycle().take(rows.len()).collect()
    };
    Rota {
        user_rows: repeated(&rota.user_rows),
        permission_rows: repeated(&rota.permission_rows),
        ..rota.clone()
    }
}

/// Tidy rotas with any number of rows of either kind, each also with any one row out of order, and
/// with another one out of range besides; with the refusal that is due.
pub fn each_row_out_of_order(random: &mut Random, mut test: impl FnMut(&Rota, Refusal)) {
    let whole = rota_of(random, &LIMITS).tidy();
    for out_of_range in [11, 12] {
        let mut rota = whole.clone();
        let mut test = |rows: &[Row], refusal| {
            let place =
                if out_of_range == 11 { &mut rota.user_rows } else { &mut rota.permission_rows };
            *place = rows.to_vec();
            test(&rota, refusal);
        };
        let all = if out_of_range == 11 { &whole.user_rows } else { &whole.permission_rows };
        for count in (0..=70).chain([127, 128, 129, all.len()]) {
            let rows = &all[..count];
            test(rows, 0);
            for i in 1..count {
                let (mut swapped, mut repeated) = (rows.to_vec(), rows.to_vec());
                swapped.swap(i - 1, i);
                test(&swapped, 52);
                repeated[i] = repeated[i - 1];
                test(&repeated, 52);
                // The first of the two decides, and of one row its range.
                let other = random.below(count as u32) as usize;
                repeated[other].number = 64;
                test(&repeated, if other <= i { out_of_range } else { 52 });
            }
        }
    }
}

/// Rotas of format 1 that together have each row that there can be, of both kinds: 32 roles, 64
/// numbers, 32 hours and always. The rows of each are from all over, and fall.
pub fn all_rows() -> Vec<Rota> {
    let hours = (0..32).map(HoursRef::Numbered).chain([ALWAYS]);
    let mut rows: Vec<Row> = Vec::new();
    for hours in hours {
        for role in 0..LIMITS.roles as u8 {
            rows.extend((0..LIMITS.users as u8).map(|number| Row::new(number, role, hours)));
        }
    }
    let most = LIMITS.user_rows as usize;
    let count = rows.len().div_ceil(most);
    let part = |i: usize| -> Vec<Row> {
        let mut part: Vec<Row> = rows.iter().copied().skip(i).step_by(count).collect();
        part.sort_by_key(|row| std::cmp::Reverse(row.place()));
        part
    };
    let rota = |i: usize| Rota {
        format: ANY_ORDER,
        cycle: 10,
        hours: vec![Hours::new(0, END, &[(0, 10)]); LIMITS.hours as usize],
        users: LIMITS.users as u8,
        permissions: LIMITS.permissions as u8,
        roles: vec![ALWAYS; LIMITS.roles as usize],
        user_rows: part(i),
        permission_rows: part((i + count / 2) % count),
    };
    (0..count).map(rota).collect()
}

/// What `count` counts.
pub const REACHED: [&str; 3] =
    ["rows that were not in order", "rows that repeated", "always beside numbered hours"];

/// Counts for a rota what its tidying shows, each once.
pub fn count(tally: &mut Tally, rota: &Rota, tidy: &Rota) {
    let kinds =
        [(&rota.user_rows, &tidy.user_rows), (&rota.permission_rows, &tidy.permission_rows)];
    let any = |is_so: &dyn Fn(&[Row], &[Row]) -> bool| {
        kinds.iter().any(|(rows, tidied)| is_so(rows, tidied))
    };
    let is_falling = |two: &[Row]| two[0].place() > two[1].place();
    let is_beside = |two: &[Row]| {
        (two[0].role, two[0].number) == (two[1].role, two[1].number) && two[1].hours == ALWAYS
    };
    let is_reached = [
        any(&|rows, _| rows.windows(2).any(is_falling)),
        any(&|rows, tidied| tidied.len() < rows.len()),
        any(&|_, tidied| tidied.windows(2).any(is_beside)),
    ];
    for (is_reached, what) in is_reached.into_iter().zip(REACHED) {
        tally.count_if(is_reached, what);
    }
}

/// What `first_fault` counts.
pub const FAULTS: [&str; 5] = [
    "user rows out of order",
    "permission rows out of order",
    "out of order, then out of range",
    "out of range, then out of order",
    "user rows out of order, permission rows out of range",
];

/// The refusal of a rota by its rows, which alone are damaged, or 0: each row is looked at for
/// itself. Counts what is wrong with rows that should be in order.
pub fn first_fault(tally: &mut Tally, bytes: &[u8], rota: &Rota) -> Refusal {
    let is_tidy = bytes[..2] == TIDY.to_le_bytes();
    let rows_at = bytes.len() - 3 * (rota.user_rows.len() + rota.permission_rows.len());
    let (user_rows, permission_rows) = bytes[rows_at..].split_at(3 * rota.user_rows.len());
    let faults = |rows: &[u8], limit: u8, out_of_range: Refusal| -> Vec<Refusal> {
        let rows: Vec<&[u8]> = rows.chunks_exact(3).collect();
        let is_out = |row: &[u8]| {
            row[0] >= limit
                || usize::from(row[1]) >= rota.roles.len()
                || (row[2] != 255 && usize::from(row[2]) >= rota.hours.len())
        };
        let place = |row: &[u8]| [row[1], row[0], row[2]];
        let is_below = |i: usize| i > 0 && place(rows[i]) <= place(rows[i - 1]);
        (0..rows.len())
            .flat_map(|i| [(is_out(rows[i]), out_of_range), (is_tidy && is_below(i), 52)])
            .filter_map(|(is_wrong, refusal)| is_wrong.then_some(refusal))
            .collect()
    };
    let of_users = faults(user_rows, rota.users, 11);
    let of_permissions = faults(permission_rows, rota.permissions, 12);
    let first = |faults: &[Refusal]| faults.first().copied().unwrap_or(0);
    let (user, permission) = (first(&of_users), first(&of_permissions));
    // All user rows come before the first permission row.
    let (decides, refusal) =
        if user != 0 { (&of_users, user) } else { (&of_permissions, permission) };
    let is_then = |other: bool| decides.iter().any(|&fault| (fault == 52) == other);
    let is_reached = [
        user == 52,
        user == 0 && permission == 52,
        refusal == 52 && is_then(false),
        refusal != 52 && is_then(true),
        user == 52 && permission == 12,
    ];
    for (is_reached, what) in is_reached.into_iter().zip(FAULTS) {
        tally.count_if(is_reached, what);
    }
    refusal
}
