//! A rota as an organization would have it: shifts of a week, for some years or for all.

use reference::END;
use reference::hours::{Hours, HoursRef, Pair};
use reference::rota::{ANY_ORDER, Rota, Row};

const DAY: u16 = 1_440;
const WEEK: u16 = 7 * DAY;

/// The pairs of a shift that begins at `start` on each of these days (0 is Monday) and lasts
/// eight hours. What goes past the week's end comes at its beginning.
fn shift(days: &[u16], start: u16) -> Vec<Pair> {
    const LENGTH: u16 = 480;
    let mut pairs = Vec::new();
    for &day in days {
        let offset = day * DAY + start;
        let over = (offset + LENGTH).saturating_sub(WEEK);
        if over > 0 {
            pairs.insert(0, Pair { offset: 0, length: over });
        }
        pairs.push(Pair { offset, length: LENGTH - over });
    }
    pairs
}

/// A cycle of a week, 12 hours, 20 users, 10 permissions, 6 roles, and 40 + 20 rows.
/// The hours are early, late and night shifts: on working days and on weekends for all
/// 400 years, on some days in the first half and on others in the middle.
pub fn weekly_rota() -> Rota {
    let patterns: [(&[u16], u32, u32); 4] = [
        (&[0, 1, 2, 3, 4], 0, END),
        (&[5, 6], 0, END),
        (&[0, 2, 4], 0, END / 2),
        (&[1, 3, 6], END / 4, END / 4 * 3),
    ];
    let mut hours = Vec::new();
    for (days, begin, end) in patterns {
        for start in [360, 840, 1_320] {
            hours.push(Hours { begin, end, pairs: shift(days, start) });
        }
    }
    let row = |i: u8, numbers: u8, always: u8| Row {
        number: i % numbers,
        role: (i / 2) % 6,
        hours: if i.is_multiple_of(always) { HoursRef::Always } else { HoursRef::Numbered(i % 12) },
    };
    Rota {
        format: ANY_ORDER,
        cycle: WEEK,
        hours,
        users: 20,
        permissions: 10,
        roles: [255, 255, 255, 0, 1, 3]
            .map(|byte| HoursRef::from_byte(byte, 12).expect("one of 12"))
            .to_vec(),
        user_rows: (0..40).map(|i| row(i, 20, 9)).collect(),
        permission_rows: (0..20).map(|i| row(i, 10, 2)).collect(),
    }
}
