//! Tidy rotas, other spellings of a rota, and rows that are out of order.

use reference::rota::{ANY_ORDER, Rota, Row};

use super::rota::{LIMITS, places, row_fault};
use super::{granting_rota, put, rota, small_rota};
use crate::random::Random;

/// The rota, once in four times in format 3: whatever takes the one takes the other.
pub(super) fn maybe_tidy(random: &mut Random, rota: Rota) -> Rota {
    if random.one_in(4) { rota.tidy() } else { rota }
}

/// A rota of format 3, of any size.
pub fn tidy_rota(random: &mut Random) -> Rota {
    let rota = match random.below(6) {
        0 => rota(random),
        1 | 2 => granting_rota(random),
        _ => small_rota(random),
    };
    rota.tidy()
}

/// The same rota as another sender may have it, in format 1: its rows in any order, and some of
/// them more than once where there is room.
pub fn respelled(random: &mut Random, rota: &Rota) -> Rota {
    let mut spell = |rows: &[Row], limit: u32| -> Vec<Row> {
        let mut rows = rows.to_vec();
        let room = limit - rows.len() as u32;
        if !rows.is_empty() {
            let few = random.below(4);
            let repeats = random.pick(&[0, few, few, room]).min(room);
            let repeated: Vec<Row> = (0..repeats).map(|_| random.pick(&rows)).collect();
            rows.extend(repeated);
        }
        random.shuffle(&mut rows);
        rows
    };
    Rota {
        format: ANY_ORDER,
        user_rows: spell(&rota.user_rows, LIMITS.user_rows),
        permission_rows: spell(&rota.permission_rows, LIMITS.permission_rows),
        ..rota.clone()
    }
}

/// Puts one of so many rows, which begin at `at`, out of order: it changes places with the one
/// before, repeats it or an earlier one, or comes to have one of its bytes.
pub(super) fn order_fault(random: &mut Random, at: usize, count: usize, bytes: &mut [u8]) {
    let end = at + 3 * count;
    if count < 2 || bytes.len() < end {
        return;
    }
    let rows = bytes[at..end].as_chunks_mut::<3>().0;
    let i = random.between(1, count as u32 - 1) as usize;
    let earlier = random.below(i as u32) as usize;
    match random.below(4) {
        0 => rows.swap(i - 1, i),
        1 => rows[i] = rows[i - 1],
        2 => rows[i] = rows[earlier],
        _ => {
            let byte = random.below(3) as usize;
            rows[i][byte] = rows[i - 1][byte];
        }
    }
}

/// The bytes of a rota with one or more faults in its rows alone: numbers that are not there, and
/// rows out of order, of both kinds, so that it shows which of them comes first.
pub fn damaged_rows(random: &mut Random, rota: &Rota) -> Vec<u8> {
    let mut bytes = rota.encode();
    let [_, user_rows_at, permission_rows_at] = places(rota);
    let users = (user_rows_at, rota.user_rows.len(), rota.users);
    let permissions = (permission_rows_at, rota.permission_rows.len(), rota.permissions);
    for _ in 0..random.between(1, 4) {
        let (at, count, limit) = random.pick(&[users, permissions]);
        if count > 0 && random.one_in(3) {
            let row = at + 3 * random.below(count as u32) as usize;
            row_fault(random, row, limit, rota, &mut bytes);
        } else {
            order_fault(random, at, count, &mut bytes);
        }
    }
    // In the other format the order does not count.
    if random.one_in(8) {
        put(&mut bytes, 0, 2, ANY_ORDER.into());
    }
    bytes
}
