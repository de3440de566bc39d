//! The service's calls on a rota and on its table, each against the plain machine on the rota:
//! what a call gives and the state that it leaves.

use cases::case::{Case, Tally, cases, tallied};
use cases::generate::Sizes;
use cases::{data, generate};
use comparison::compare::service::{self, Both, Run, fresh_calls, odd_calls};
use comparison::ffi::service::{Stepped, on_rota, on_table};
use reference::END;
use reference::policy::Policy;
use reference::rota::Rota;
use reference::service::{Call, State};

#[test]
fn worked_calls() {
    let both = Both::new(Rota::parse(&data::small_rota()).expect("well formed"));
    assert_eq!(both.table_bytes, data::small_table());
    let case = Case::new("worked_calls", 0);
    let mut tally = Tally::new("worked_calls");
    let mut run = Run::from(State::default());
    // What a call gives: its refusal, or else its count or role, and whether it is a yes.
    let mut call = |call| {
        let given = run.call(&case, &mut tally, &both, call);
        if given.refusal != 0 { Err(given.refusal) } else { Ok((given.value, given.yes == 1)) }
    };
    let done = Ok((0, false));
    assert_eq!(call(Call::Open(1)), Err(43));
    assert_eq!(call(Call::Open(0)), done);
    assert_eq!(call(Call::Open(0)), Err(42));
    assert_eq!(call(Call::Ask(0, 0)), Ok((0, true)));
    assert_eq!(call(Call::Ask(1, 0)), Err(44));
    assert_eq!(call(Call::Ask(1, 1)), Err(35));
    assert_eq!(call(Call::Ask(2, 1)), Err(34));
    assert_eq!(call(Call::Close(1)), Err(44));
    assert_eq!(call(Call::Close(256)), Err(34));
    assert_eq!(call(Call::Advance(4)), Ok((1, false)));
    assert_eq!(call(Call::Advance(3)), Err(41));
    assert_eq!(call(Call::Advance(4)), done);
    assert_eq!(call(Call::Advance(12)), done);
    assert_eq!(call(Call::Open(0)), done);
    assert_eq!(call(Call::Open(1)), done);
    // Volunteer 1 holds something at 36 again, and nothing from 17 to 21.
    assert_eq!(call(Call::Advance(16)), Ok((1, false)));
    assert_eq!(call(Call::Advance(36)), Ok((1, false)));
    assert_eq!(call(Call::Open(1)), done);
    assert_eq!(call(Call::Ask(1, 0)), Ok((0, true)));
    assert_eq!(call(Call::Close(1)), done);
    assert_eq!(call(Call::Advance(END)), Err(33));
    assert_eq!(call(Call::Advance(u32::MAX)), Err(33));
    assert_eq!(call(Call::Advance(END - 1)), done);
    assert_eq!(call(Call::Advance(END - 1)), done);
    assert_eq!(call(Call::Open(0)), Err(43));
    assert_eq!(run.machine, State { now: END - 1, open: 0 });

    // States that only a host makes.
    let mut refused = |now, open, call| {
        Run::from(State { now, open }).call(&case, &mut tally, &both, call).refusal
    };
    assert_eq!(refused(END, 0, Call::Advance(0)), 40);
    assert_eq!(refused(u32::MAX, 0, Call::Close(256)), 40);
    assert_eq!(refused(0, 4, Call::Open(256)), 40);
    assert_eq!(refused(0, 1 << 63, Call::Ask(256, 256)), 40);
    assert_eq!(refused(9, 0, Call::Advance(END)), 33);
    assert_eq!(refused(END - 1, 3, Call::Advance(END - 1)), 0);
    // Open, and without any permission: asked, the answer is no.
    let given =
        Run::from(State { now: 4, open: 3 }).call(&case, &mut tally, &both, Call::Ask(1, 0));
    assert_eq!((given.refusal, given.yes, given.value), (0, 0, 0));
    tally.reached([0, 33, 34, 35, 40, 41, 42, 43, 44]);
}

// 40 needs a state that no call leaves.
#[test]
fn lists_of_calls() {
    tallied("lists_of_calls", 1_000, service::list)
        .reached([0, 33, 34, 35, 41, 42, 43, 44])
        .also(&["yes", "no", "closed by them"]);
}

/// Lists of thousands of calls on one rota, that of a week.
#[test]
fn very_long_lists() {
    let mut tally = Tally::new("very_long_lists");
    let both = Both::new(generate::weekly_rota());
    cases("very_long_lists", 5, |case| fresh_calls(case, &mut tally, &both, 4_000));
    tally.reached([0, 33, 34, 35, 41, 42, 43, 44]);
}

#[test]
fn odd_states() {
    tallied("odd_states", 4_000, service::odd_states)
        .reached([0, 33, 34, 35, 40, 41, 42, 43, 44])
        .also(&["yes", "no", "closed by them", "staying at the same minute"]);
}

/// At each minute at which an answer may change, the minutes beside it and E: everyone open
/// advances to it, and each user opens, asks everything and closes there.
#[test]
fn every_boundary() {
    let mut tally = Tally::new("every_boundary");
    cases("every_boundary", 60, |case| {
        let both = Both::new(generate::small_rota(&mut case.random));
        let (users, permissions) = (both.rota().users(), both.rota().permissions());
        let everyone = reference::set::below(users);
        for t in generate::edges_near_spans(&both.edges) {
            for now in [0, t.saturating_sub(1), t, t + 1] {
                let mut run = Run::from(State { now, open: everyone });
                run.call(case, &mut tally, &both, Call::Advance(t));
            }
            for user in 0..=users {
                let mut run = Run::from(State { now: t, open: 0 });
                run.call(case, &mut tally, &both, Call::Open(user));
                for permission in 0..=permissions {
                    run.call(case, &mut tally, &both, Call::Ask(user, permission));
                }
                run.call(case, &mut tally, &both, Call::Close(user));
            }
        }
    });
    tally.reached([0, 33, 34, 35, 40, 41, 43, 44]);
}

/// Rotas at the limits: 64 users and permissions, all bits of the open set.
#[test]
fn all_users() {
    let mut tally = Tally::new("all_users");
    cases("all_users", 60, |case| {
        let sizes = Sizes { hours: 3, pairs: 12, roles: 6, ..generate::LIMITS };
        let both = Both::new(generate::rota_of(&mut case.random, &sizes));
        odd_calls(case, &mut tally, &both, 4, 20);
    });
    tally.reached([0, 33, 34, 35, 40, 41, 42, 43, 44]);
    tally.also(&["yes", "no", "closed by them"]);
}

#[test]
fn tables_made_by_hand() {
    tallied("tables_made_by_hand", 1_500, service::table_made_by_hand)
        .reached([0, 33, 34, 35, 40, 41, 42, 43, 44])
        .also(&["yes", "no", "closed by them"]);
}

#[test]
fn damaged_bytes() {
    tallied("damaged_bytes", 8_000, service::damaged)
        .reached((0..=12).chain(21..=28).chain([34, 40, 43, 44, 52]));
}

/// The machine has the rota as a sender spelled it, the services its tidy form and the table of
/// that.
#[test]
fn lists_on_tidy_rotas() {
    tallied("lists_on_tidy_rotas", 300, service::list_on_a_tidy_rota)
        .reached([0, 33, 34, 35, 41, 42, 43, 44])
        .also(&["yes", "no", "closed by them", "tidied"]);
}

/// Which bytes they are comes with the call: the other kind is refused by its format, a table
/// with spare bytes by its length, whatever the state and the call.
#[test]
fn bytes_of_the_other_kind() {
    let (rota, table) = (data::small_rota(), data::small_table());
    let longer = [&table[..], &[0]].concat();
    for state in [State::default(), State { now: u32::MAX, open: u64::MAX }] {
        for call in [Call::Advance(u32::MAX), Call::Open(9), Call::Close(9), Call::Ask(9, 9)] {
            let refused = |refusal| {
                let State { now, open } = state;
                Stepped { refusal, yes: 0, value: 0, now, open }
            };
            assert_eq!(on_rota(&table, state, call), refused(2));
            assert_eq!(on_rota(&[], state, call), refused(1));
            assert_eq!(on_table(&rota, state, call), refused(22));
            assert_eq!(on_table(&[], state, call), refused(21));
            assert_eq!(on_table(&longer, state, call), refused(25));
        }
    }
}
