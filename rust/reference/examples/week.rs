//! The weekly rota of an archive, as a realistic example: makes data/week.rota, its table and its
//! listing. data/week.txt describes it.
//!
//!     cargo run --offline -p reference --example week -- ../data

use std::path::Path;

use reference::hours::{Hours, HoursRef};
use reference::rota::{ANY_ORDER, Rota, Row};
use reference::{END, calendar, listing, rewriting};

const DAY: u16 = 1_440;
const WORKING_DAYS: [u16; 5] = [0, 1, 2, 3, 4];
const SATURDAY: u16 = 5;
const SUNDAY: u16 = 6;

// The roles.
const READER: u8 = 0;
const TRANSCRIBER: u8 = 1;
const APPROVER: u8 = 2;
const MERGER: u8 = 3;
const DISCARDER: u8 = 4;
const ADMINISTRATOR: u8 = 5;

// The rights.
const READ: u8 = 0;
const COMMENT: u8 = 1;
const TRANSCRIBE: u8 = 2;
const CORRECT: u8 = 3;
const APPROVE: u8 = 4;
const SEND_BACK: u8 = 5;
const MERGE: u8 = 6;
const SPLIT: u8 = 7;
const DISCARD: u8 = 8;
const KEEP_ACCOUNTS: u8 = 9;

// The hours.
const ALWAYS: HoursRef = HoursRef::Always;
const OPENING: HoursRef = HoursRef::Numbered(0);
const MORNINGS: HoursRef = HoursRef::Numbered(1);
const AFTERNOONS: HoursRef = HoursRef::Numbered(2);
const EVENINGS: HoursRef = HoursRef::Numbered(3);
const SATURDAYS: HoursRef = HoursRef::Numbered(4);
const DISCARD_DESK: HoursRef = HoursRef::Numbered(5);
const SPRING_EVENINGS: HoursRef = HoursRef::Numbered(6);
const WINTER_WEDNESDAYS: HoursRef = HoursRef::Numbered(7);
const NIGHTS: HoursRef = HoursRef::Numbered(8);
const MAINTENANCE: HoursRef = HoursRef::Numbered(9);
const SPRING_MERGING: HoursRef = HoursRef::Numbered(10);
const UNTIL_SPRING: HoursRef = HoursRef::Numbered(11);

/// 00:00 on a day.
fn midnight(year: u32, month: u32, day: u32) -> u32 {
    calendar::minute(year, month, day, 0, 0).expect("a date")
}

/// Hours on some days of the week (0 is Monday), from one full hour to another.
fn daily(begin: u32, end: u32, days: &[u16], from: u16, to: u16) -> Hours {
    let pairs: Vec<_> = days.iter().map(|day| (day * DAY + 60 * from, 60 * (to - from))).collect();
    Hours::new(begin, end, &pairs)
}

fn hours() -> Vec<Hours> {
    let (winter, spring, summer) =
        (midnight(2023, 11, 1), midnight(2024, 3, 1), midnight(2024, 6, 1));
    let mut opening = daily(0, END, &WORKING_DAYS, 9, 18);
    opening.pairs.extend(daily(0, END, &[SATURDAY], 10, 16).pairs);
    vec![
        opening,
        daily(0, END, &WORKING_DAYS, 9, 13),
        daily(0, END, &WORKING_DAYS, 13, 18),
        daily(0, END, &[0, 1, 2, 3], 18, 21),
        daily(0, END, &[SATURDAY], 10, 16),
        daily(0, END, &[SUNDAY], 14, 17),
        daily(spring, summer, &[1, 3], 18, 21),
        daily(winter, spring, &[2], 10, 16),
        // Friday 20:00 to Saturday 02:00, and Sunday 22:00 to Monday 01:00, across the week's end.
        Hours::new(0, END, &[(0, 60), (4 * DAY + 1_200, 360), (SUNDAY * DAY + 1_320, 120)]),
        daily(0, END, &[0], 6, 8),
        daily(spring, summer, &[4], 13, 18),
        daily(0, spring, &WORKING_DAYS, 9, 18),
    ]
}

/// A volunteer's or a right's rows: its number, then a role and hours for each.
fn rows(all: &[(u8, &[(u8, HoursRef)])]) -> Vec<Row> {
    all.iter()
        .flat_map(|&(number, rows)| {
            rows.iter().map(move |&(role, hours)| Row::new(number, role, hours))
        })
        .collect()
}

fn week() -> Rota {
    Rota {
        format: ANY_ORDER,
        cycle: 7 * DAY,
        hours: hours(),
        users: 20,
        permissions: 10,
        roles: vec![OPENING, ALWAYS, OPENING, OPENING, DISCARD_DESK, ALWAYS],
        user_rows: rows(&[
            // The coordinator.
            (0, &[(READER, OPENING), (APPROVER, OPENING), (ADMINISTRATOR, OPENING)]),
            // Who keeps the machines.
            (1, &[(ADMINISTRATOR, MAINTENANCE), (ADMINISTRATOR, NIGHTS)]),
            // Approvers, in the morning and in the afternoon; one also on Saturdays.
            (2, &[(READER, MORNINGS), (APPROVER, MORNINGS), (MERGER, MORNINGS)]),
            (3, &[(READER, AFTERNOONS), (APPROVER, AFTERNOONS)]),
            (4, &[(READER, AFTERNOONS), (APPROVER, AFTERNOONS), (APPROVER, SATURDAYS)]),
            // Mergers; one for the spring only, one until then.
            (5, &[(READER, MORNINGS), (MERGER, MORNINGS), (DISCARDER, DISCARD_DESK)]),
            (6, &[(READER, OPENING), (MERGER, SPRING_MERGING)]),
            (7, &[(READER, OPENING), (MERGER, UNTIL_SPRING)]),
            // Discarders, on Sundays only.
            (8, &[(DISCARDER, DISCARD_DESK), (READER, SATURDAYS)]),
            (9, &[(DISCARDER, DISCARD_DESK)]),
            // Transcribers: by day, in the evening, at night, by season.
            (10, &[(TRANSCRIBER, MORNINGS), (TRANSCRIBER, EVENINGS)]),
            (11, &[(TRANSCRIBER, MORNINGS), (READER, MORNINGS)]),
            (12, &[(TRANSCRIBER, AFTERNOONS), (READER, AFTERNOONS)]),
            (13, &[(TRANSCRIBER, EVENINGS), (TRANSCRIBER, NIGHTS)]),
            (14, &[(TRANSCRIBER, NIGHTS), (TRANSCRIBER, SATURDAYS)]),
            (15, &[(TRANSCRIBER, SPRING_EVENINGS), (READER, SATURDAYS)]),
            (16, &[(TRANSCRIBER, WINTER_WEDNESDAYS), (READER, WINTER_WEDNESDAYS)]),
            // Readers.
            (17, &[(READER, OPENING)]),
            (18, &[(READER, SATURDAYS), (READER, AFTERNOONS)]),
            (19, &[(READER, MORNINGS)]),
        ]),
        permission_rows: rows(&[
            (READ, &[(READER, ALWAYS), (TRANSCRIBER, ALWAYS), (ADMINISTRATOR, ALWAYS)]),
            (COMMENT, &[(READER, OPENING), (APPROVER, ALWAYS)]),
            (TRANSCRIBE, &[(TRANSCRIBER, ALWAYS)]),
            // By day an approver is there to see a correction.
            (CORRECT, &[(TRANSCRIBER, OPENING), (APPROVER, ALWAYS)]),
            (APPROVE, &[(APPROVER, ALWAYS)]),
            (SEND_BACK, &[(APPROVER, ALWAYS)]),
            // No merging on Saturdays.
            (MERGE, &[(MERGER, MORNINGS), (MERGER, AFTERNOONS)]),
            (SPLIT, &[(MERGER, MORNINGS)]),
            (DISCARD, &[(DISCARDER, ALWAYS)]),
            (KEEP_ACCOUNTS, &[(ADMINISTRATOR, ALWAYS)]),
        ]),
    }
}

/// The files' names and contents.
fn files() -> [(&'static str, Vec<u8>); 3] {
    let rota = week().encode();
    [
        ("week.listing", listing::program(&rota).into_bytes()),
        ("week.table", rewriting::table(&week()).encode()),
        ("week.rota", rota),
    ]
}

fn main() -> std::io::Result<()> {
    let folder = std::env::args_os().nth(1).unwrap_or(".".into());
    for (name, contents) in files() {
        std::fs::write(Path::new(&folder).join(name), contents)?;
    }
    Ok(())
}

#[cfg(test)]
mod tests {
    use reference::rota::TIDY;

    use super::*;

    #[test]
    fn the_stored_files_are_those_made_here() {
        let data = Path::new(env!("CARGO_MANIFEST_DIR")).join("../../data");
        for (name, contents) in files() {
            assert_eq!(std::fs::read(data.join(name)).expect(name), contents, "{name}");
        }
    }

    #[test]
    fn the_rota_is_accepted_as_it_is() {
        assert_eq!(Rota::parse(&week().encode()), Ok(week()));
    }

    /// As data/week.host has it: no row repeats, and the order is another.
    #[test]
    fn the_tidy_rota_is_as_long() {
        let tidy = week().tidy();
        assert_eq!((tidy.user_rows.len(), tidy.permission_rows.len()), (41, 15));
        assert_eq!(tidy.encode().len(), 446);
        assert_eq!(rewriting::table(&tidy), rewriting::table(&week()));
        assert_eq!(Rota::parse(&Rota { format: TIDY, ..week() }.encode()), Err(52));
    }
}
