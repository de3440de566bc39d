//! An advance judges every minute after the old now, up to and with the new one: on a rota, on its
//! table and on tables made by hand, against the plain machine.

use cases::case::{Case, Tally, cases, tallied};
use cases::{data, generate, worst};
use comparison::compare::service::{self, Both, Run, in_one_and_in_two, jump};
use reference::hours::{Hours, HoursRef};
use reference::policy::Policy;
use reference::rota::{ANY_ORDER, Rota, Row};
use reference::service::{Call, State};
use reference::{END, set};

/// A rota of one role that is always enabled. Each user has the hours of its rows, and the right
/// is there always.
fn rota(cycle: u16, hours: Vec<Hours>, rows: &[(u8, u8)]) -> Rota {
    Rota {
        format: ANY_ORDER,
        cycle,
        hours,
        users: 4,
        permissions: 1,
        roles: vec![HoursRef::Always],
        user_rows: rows
            .iter()
            .map(|&(user, record)| Row::new(user, 0, HoursRef::Numbered(record)))
            .collect(),
        permission_rows: vec![Row::new(0, 0, HoursRef::Always)],
    }
}

/// One advance, on all three, in a test of its own name: how many it closes, and who is left.
fn advance(name: &'static str, both: &Both, (now, open): (u32, u64), m: u32) -> (u32, u64) {
    let (case, mut tally) = (Case::new(name, 0), Tally::new(name));
    let mut run = Run::from(State { now, open });
    let given = run.call(&case, &mut tally, both, Call::Advance(m));
    assert_eq!((given.refusal, given.now), (0, m));
    (given.value, given.open)
}

#[test]
fn worked_advance() {
    let both = Both::new(Rota::parse(&data::small_rota()).expect("well formed"));
    let (case, mut tally) = (Case::new("worked_advance", 0), Tally::new("worked_advance"));
    let mut run = Run::from(State::default());
    let mut value = |call| run.call(&case, &mut tally, &both, call).value;
    assert_eq!([Call::Advance(1), Call::Open(0), Call::Advance(11)].map(&mut value), [0, 0, 1]);
    assert_eq!(run.machine, State { now: 11, open: 0 });
    run.assert_same_states();
}

/// The old now is not judged, so an advance to it judges nothing, and nobody is closed: whoever is
/// open, and whether they hold anything or not.
#[test]
fn equal_minute_on_odd_states() {
    let mut tally = Tally::new("equal_minute_on_odd_states");
    cases("equal_minute_on_odd_states", 1_500, |case| {
        let both = Both::new(match case.random.below(3) {
            0 => generate::small_rota(&mut case.random),
            1 => generate::relay_rota(&mut case.random),
            // Nobody holds anything ever.
            _ => Rota { permission_rows: vec![], ..generate::small_rota(&mut case.random) },
        });
        let everyone = set::below(both.rota().users());
        for _ in 0..6 {
            let now = generate::rota_minute(&mut case.random, both.rota()).min(END - 1);
            for open in [everyone, case.random.bits() & everyone] {
                let mut run = Run::from(State { now, open });
                let given = run.call(case, &mut tally, &both, Call::Advance(now));
                case.same((given.value, given.open), (0, open), &both.rota_bytes, now);
                let idle = open & !both.rota().holders(now);
                tally.count_if(idle != 0, "open without a right");
            }
        }
    });
    tally.reached([0]).also(&["staying at the same minute", "open without a right"]);
}

/// From E - 2 to E - 1, the last minute that there is.
#[test]
fn the_last_two_minutes() {
    let name = "the_last_two_minutes";
    for cycle in [1, 7, 10, 40_320] {
        let all = [(0, cycle)];
        let hours = vec![
            Hours::new(0, END, &all),
            Hours::new(0, END - 1, &all),
            Hours::new(END - 1, END, &all),
            Hours::new(END - 2, END - 1, &all),
        ];
        let both = Both::new(rota(cycle, hours, &[(0, 0), (1, 1), (2, 2), (3, 3)]));
        assert_eq!(advance(name, &both, (END - 2, 0b1111), END - 1), (2, 0b0101));
        assert_eq!(advance(name, &both, (END - 3, 0b1111), END - 2), (1, 0b1011));
        assert_eq!(advance(name, &both, (END - 3, 0b1111), END - 1), (3, 0b0001));
        assert_eq!(advance(name, &both, (0, 0b1111), END - 1), (3, 0b0001));
        assert_eq!(advance(name, &both, (END - 1, 0b1111), END - 1), (0, 0b1111));
    }
}

/// What lasts a whole era long is noticed, and only that: a closed era between two open ones, and
/// one that is over before the old now.
#[test]
fn jumps_over_a_whole_era() {
    let name = "jumps_over_a_whole_era";
    for (cycle, length) in [(10, 10), (10, 35), (10, 3), (40_320, 1), (1, 1), (7, 10_000_000)] {
        let (from, to) = (1_000_000, 1_000_000 + length);
        let all = [(0, cycle)];
        let hours = vec![
            Hours::new(0, from, &all),
            Hours::new(to, END, &all),
            Hours::new(from, to, &all),
            Hours::new(0, END, &all),
        ];
        // User 0 pauses for the era, 1 is handed on, 2 has only the era, and 3 has all.
        let rows = [(0, 0), (0, 1), (1, 0), (1, 1), (1, 2), (2, 2), (3, 3)];
        let both = Both::new(rota(cycle, hours, &rows));
        assert_eq!(advance(name, &both, (0, 0b1011), END - 1), (1, 0b1010));
        assert_eq!(advance(name, &both, (from - 1, 0b1011), to), (1, 0b1010));
        assert_eq!(advance(name, &both, (from - 2, 0b1011), from - 1), (0, 0b1011));
        assert_eq!(advance(name, &both, (to - 1, 0b1011), END - 1), (0, 0b1011));
        assert_eq!(advance(name, &both, (from - 1, 0b1110), to - 1), (0, 0b1110));
        assert_eq!(advance(name, &both, (from - 1, 0b1110), to), (1, 0b1010));
    }
}

/// One minute is closed in each cycle: the first, the last or another. A jump that stops short of
/// it closes nobody, however near a whole cycle it comes.
#[test]
fn one_closed_minute_in_each_cycle() {
    let name = "one_closed_minute_in_each_cycle";
    for cycle in [2, 3, 10, 10_080, 40_320] {
        for closed in [0, cycle / 2, cycle - 1] {
            let pairs = [(0, closed), (closed + 1, cycle - closed - 1)];
            let pairs: Vec<_> = pairs.into_iter().filter(|&(_, length)| length > 0).collect();
            let both = Both::new(rota(cycle, vec![Hours::new(0, END, &pairs)], &[(0, 0)]));
            let (cycle, closed) = (u32::from(cycle), u32::from(closed));
            for turn in [0, 1, 400, END / cycle - 3] {
                let at = closed + turn * cycle;
                assert_eq!(advance(name, &both, (at, 1), at + cycle - 1), (0, 1));
                assert_eq!(advance(name, &both, (at, 1), at + cycle), (1, 0));
                assert_eq!(advance(name, &both, (at, 1), END - 1), (1, 0));
                let within = at + cycle / 2;
                assert_eq!(advance(name, &both, (within, 1), within + cycle), (1, 0));
                assert_eq!(advance(name, &both, (at + cycle - 1, 1), at + cycle), (1, 0));
            }
        }
    }
}

/// Two roles, each with a right of its own, hand a user to each other and back: without a gap the
/// user stays for 400 years; with one of a minute not.
#[test]
fn hand_over_from_role_to_role() {
    let name = "hand_over_from_role_to_role";
    let handed = |cycle: u16, first: (u16, u16), second: (u16, u16)| {
        let hours = vec![Hours::new(0, END, &[first]), Hours::new(0, END, &[second])];
        let rows = |by_role: fn(u8) -> Row| (0..2).map(by_role).collect();
        Both::new(Rota {
            permissions: 2,
            roles: vec![HoursRef::Always; 2],
            user_rows: rows(|role| Row::new(0, role, HoursRef::Numbered(role))),
            permission_rows: rows(|role| Row::new(role, role, HoursRef::Always)),
            ..rota(cycle, hours, &[])
        })
    };
    for cycle in [4, 10, 1_440, 40_320] {
        for half in [1, cycle / 2, cycle - 2] {
            let rest = cycle - half;
            let both = handed(cycle, (0, half), (half, rest));
            assert_eq!(advance(name, &both, (0, 1), END - 1), (0, 1));
            assert_eq!(advance(name, &both, (0, 1), u32::from(half)), (0, 1));
            // Late by a minute, at the first hand-over and at the one where the cycle begins.
            let both = handed(cycle, (0, half), (half + 1, rest - 1));
            assert_eq!(advance(name, &both, (0, 1), END - 1), (1, 0));
            assert_eq!(advance(name, &both, (u32::from(half), 1), u32::from(cycle)), (0, 1));
            let both = handed(cycle, (0, half), (half, rest - 1));
            assert_eq!(advance(name, &both, (0, 1), u32::from(cycle) - 2), (0, 1));
            assert_eq!(advance(name, &both, (0, 1), u32::from(cycle) - 1), (1, 0));
        }
    }
}

/// Eras of some minutes, one after the other, each with hours of its own.
#[test]
fn eras_shorter_than_the_cycle() {
    let name = "eras_shorter_than_the_cycle";
    for cycle in [10, 1_440, 40_320] {
        for first in [0, 3, u32::from(cycle) - 1, END - 24] {
            // Eight eras of three minutes; user 0 has all of them, user 1 all but the fifth.
            let hours = (0..8).map(|i| Hours::new(first + 3 * i, first + 3 * i + 3, &[(0, cycle)]));
            let rows: Vec<(u8, u8)> = (0..8)
                .flat_map(|record| [(0, record), (1, record)])
                .filter(|&row| row != (1, 4))
                .collect();
            let both = Both::new(rota(cycle, hours.collect(), &rows));
            let at = |minutes: u32| (first + minutes, 0b11);
            assert_eq!(advance(name, &both, at(0), first + 11), (0, 0b11));
            assert_eq!(advance(name, &both, at(0), first + 12), (1, 0b01));
            assert_eq!(advance(name, &both, at(0), first + 23), (1, 0b01));
            assert_eq!(advance(name, &both, at(14), first + 23), (0, 0b11));
            if first + 24 < END {
                assert_eq!(advance(name, &both, at(14), first + 24), (2, 0));
                assert_eq!(advance(name, &both, at(0), END - 1), (2, 0));
            }
        }
    }
}

/// With a cycle of one minute only the dates count.
#[test]
fn cycle_of_one_minute() {
    let name = "cycle_of_one_minute";
    let hours = |begin, end| Hours::new(begin, end, &[(0, 1)]);
    let dates = [(0, END), (0, 500), (500, END), (0, 499), (700, 701)];
    let rows = [(0, 0), (1, 1), (1, 2), (2, 3), (2, 2), (3, 4)];
    let both = Both::new(rota(1, dates.map(|(begin, end)| hours(begin, end)).to_vec(), &rows));
    assert_eq!(advance(name, &both, (0, 0b0111), END - 1), (1, 0b0011));
    assert_eq!(advance(name, &both, (0, 0b0111), 498), (0, 0b0111));
    assert_eq!(advance(name, &both, (498, 0b0111), 499), (1, 0b0011));
    assert_eq!(advance(name, &both, (499, 0b0111), END - 1), (0, 0b0111));
    assert_eq!(advance(name, &both, (699, 0b1111), 700), (0, 0b1111));
    assert_eq!(advance(name, &both, (699, 0b1111), 701), (1, 0b0111));
}

/// Random jumps of everyone; each is also made in two steps, which leave the same.
#[test]
fn jumps() {
    let counted = ["closed by them", "staying open", "staying at the same minute"];
    tallied("jumps", 3_000, service::jumps).reached([0]).also(&counted);
}

#[test]
fn jumps_on_tables_made_by_hand() {
    tallied("jumps_on_tables_made_by_hand", 4_000, service::jumps_on_tables_made_by_hand)
        .reached([0])
        .also(&["closed by them", "staying open", "staying at the same minute"]);
}

/// An advance in two steps leaves what one leaves, and closes as many in all: for every minute
/// between, and on the rota of a week for many.
#[test]
fn two_steps_leave_what_one_leaves() {
    let mut tally = Tally::new("two_steps_leave_what_one_leaves");
    cases("two_steps_leave_what_one_leaves", 60, |case| {
        let both = Both::new(loop {
            let rota = generate::relay_rota(&mut case.random);
            if rota.cycle <= 12 {
                break rota;
            }
        });
        let open = set::below(both.rota().users());
        let now = case.random.pick(&both.edges.spans).min(END - 1);
        let m = (now + 3 * both.edges.cycle).min(END - 1);
        for between in now..=m {
            in_one_and_in_two(case, &mut tally, &both, State { now, open }, between, m);
        }
    });
    let both = Both::new(generate::weekly_rota());
    cases("two_steps_leave_what_one_leaves, weekly", 300, |case| jump(case, &mut tally, &both));
    tally.reached([0]).also(&["closed by them", "staying open"]);
}

/// Everything at its limit: 64 users, 32 roles, the most hours, pairs and rows. Everyone stays
/// through 50 years, but for one user without the last of its rows.
#[test]
fn jumps_at_the_limits() {
    let mut tally = Tally::new("jumps_at_the_limits");
    for (number, (name, mut rota)) in (0..).zip(worst::jumps::rotas()) {
        let mut case = Case::new("jumps_at_the_limits", number);
        let mut jump = |rota: &Rota| {
            let both = Both::new(rota.clone());
            let everyone = State { now: END / 8 * 7, open: u64::MAX };
            let between = case.random.between(everyone.now, END - 1);
            let given = in_one_and_in_two(&case, &mut tally, &both, everyone, between, END - 1);
            (given.value, given.open)
        };
        assert_eq!(jump(&rota), (0, u64::MAX), "{name}");
        let last = *rota.user_rows.last().expect("512 rows");
        rota.user_rows.retain(|row| *row != last);
        assert_eq!(jump(&rota), (1, !(1 << last.number)), "{name}");
    }
    tally.reached([0]);
}
