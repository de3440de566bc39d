//! Rotas whose tables have a given number of derived roles and of rows.

use reference::END;
use reference::hours::{Hours, HoursRef};
use reference::rota::{ANY_ORDER, Rota, Row};

use super::LIMITS;

/// A rota whose table has so many derived roles, at most 32, and so many rows, at most 600 for
/// each, none of which touch. Each role has one derived role, which is enabled at every odd minute
/// of the cycle in two eras, and in the third until some minute of it.
pub fn rota_with_table(derived: u32, rows: u32) -> Rota {
    let of_role = rows.div_ceil(derived);
    assert!(derived <= LIMITS.roles && (9..=600).contains(&of_role));
    let odd_minutes = of_role.div_ceil(3) as u16;
    let last = of_role as u16 - 2 * odd_minutes;
    let odd: Vec<(u16, u16)> = (0..odd_minutes).map(|i| (2 * i + 1, 1)).collect();
    // The hours of the first two eras; of the last two, for `last` odd minutes, and for one less.
    let until = |minutes: u16| Hours::new(1_000_000, END, &[(0, 2 * minutes)]);
    let two_eras = Hours::new(0, 2_000_000, &[(0, 2 * odd_minutes)]);
    let hours = vec![Hours::new(0, END, &odd), two_eras, until(last), until(last - 1)];
    let shorter = derived * of_role - rows;
    let user_rows = |role: u8| {
        let third = if u32::from(role) < shorter { 3 } else { 2 };
        [1, third].map(|hours| Row::new(1, role, HoursRef::Numbered(hours)))
    };
    Rota {
        format: ANY_ORDER,
        cycle: 2 * odd_minutes,
        hours,
        users: 2,
        permissions: 3,
        roles: vec![HoursRef::Numbered(0); derived as usize],
        user_rows: (0..derived as u8).flat_map(user_rows).collect(),
        permission_rows: (0..derived as u8)
            .map(|role| Row::new(2, role, HoursRef::Always))
            .collect(),
    }
}
