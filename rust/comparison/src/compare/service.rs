//! The service's calls on a rota and on its table, each against the plain machine on the rota:
//! what a call gives and the state that it leaves.

use cases::case::{Case, Tally};
use cases::generate;
use cases::random::Random;
use reference::edges::Edges;
use reference::policy::Policy;
use reference::rota::Rota;
use reference::service::{Call, State};
use reference::table::Table;
use reference::{END, Refusal, rewriting, set};

use super::table::table_by_hand;
use crate::ffi::service::{Stepped, on_rota, on_table};
use crate::{expected, ffi};

/// A rota that is accepted, its bytes, and its table by the proved rewriting.
pub struct Both {
    rota: Result<Rota, Refusal>,
    pub rota_bytes: Vec<u8>,
    pub table_bytes: Vec<u8>,
    pub edges: Edges,
}

impl Both {
    pub fn new(rota: Rota) -> Both {
        let rota_bytes = rota.encode();
        let table_bytes = ffi::rewriting::table(&rota_bytes);
        let edges = Edges::of_rota(&rota);
        Both { rota: Ok(rota), rota_bytes, table_bytes, edges }
    }

    /// The same with the bytes of the tidy rota, by the proved tidying, and their table. The machine
    /// is given the rota as it is.
    pub fn tidied(rota: Rota) -> Both {
        let both = Both::new(rota);
        let rota_bytes = ffi::tidying::tidied(&both.rota_bytes);
        let table_bytes = ffi::rewriting::table(&rota_bytes);
        Both { rota_bytes, table_bytes, ..both }
    }

    pub fn rota(&self) -> &Rota {
        self.rota.as_ref().expect("accepted")
    }
}

/// Adds what a call gave.
fn add(tally: &mut Tally, before: State, call: Call, given: &Stepped) {
    tally.add(given.refusal);
    match call {
        _ if given.refusal != 0 => (),
        Call::Ask(..) => tally.count(if given.yes == 1 { "yes" } else { "no" }),
        Call::Advance(_) => {
            tally.count("advances");
            tally.count_more(given.value.into(), "closed by them");
            let stayed = given.open.count_ones();
            tally.count_more(stayed.into(), "staying open");
            tally.count_if(stayed > 0 && given.now == before.now, "staying at the same minute");
        }
        Call::Open(_) => tally.count("opens"),
        Call::Close(_) => tally.count("closes"),
    }
}

/// The three that a list of calls is given to, each with the state that it keeps itself.
#[derive(Clone, Copy)]
pub struct Run {
    pub machine: State,
    on_rota: State,
    on_table: State,
}

impl Run {
    pub fn from(state: State) -> Run {
        Run { machine: state, on_rota: state, on_table: state }
    }

    /// One call to each: the same outcome, and the same state after it.
    pub fn call(&mut self, case: &Case, tally: &mut Tally, both: &Both, call: Call) -> Stepped {
        let before = self.machine;
        let expected = expected::service::stepped(&both.rota, before, call);
        add(tally, before, call, &expected);
        let what = (call, "in", before);
        let given = on_rota(&both.rota_bytes, self.on_rota, call);
        case.same(given, expected, &both.rota_bytes, ("rota", what));
        self.on_rota = given.state();
        let given = on_table(&both.table_bytes, self.on_table, call);
        case.same(given, expected, &both.rota_bytes, ("its table", what));
        self.on_table = given.state();
        self.machine = expected.state();
        if expected.refusal != 0 {
            assert_eq!(self.machine, before, "a refusal leaves the state");
        }
        expected
    }

    /// After a list all three have the same state.
    pub fn assert_same_states(&self) {
        assert_eq!((self.on_rota, self.on_table), (self.machine, self.machine));
    }

    /// Many calls, one after the other; fewer where the last minute is reached.
    fn calls(&mut self, case: &mut Case, tally: &mut Tally, both: &Both, count: u32) -> u32 {
        let next = case.random.pick(&[generate::call, generate::call, generate::jumping_call]);
        let mut at_the_end = 0;
        for done in 0..count {
            if at_the_end == 12 {
                return done;
            }
            let call = next(&mut case.random, both.rota(), &both.edges, self.machine);
            self.call(case, tally, both, call);
            at_the_end += u32::from(self.machine.now == END - 1);
        }
        count
    }
}

/// That many calls from the fresh state; from it again where the last minute is reached.
pub fn fresh_calls(case: &mut Case, tally: &mut Tally, both: &Both, count: u32) {
    let mut left = count;
    while left > 0 {
        left -= Run::from(State::default()).calls(case, tally, both, left);
    }
}

/// That many lists of calls from states that a host makes up: too late, with users open that do
/// not exist or who hold nothing.
pub fn odd_calls(case: &mut Case, tally: &mut Tally, both: &Both, lists: u32, count: u32) {
    for _ in 0..lists {
        let state = generate::state(&mut case.random, both.rota().users(), &both.edges);
        let mut run = Run::from(state);
        // An advance to the very minute, then anything.
        if case.random.one_in(4) {
            run.call(case, tally, both, Call::Advance(state.now));
        }
        run.calls(case, tally, both, count);
    }
}

/// A rota whose table is not too long to be read at every call.
fn some_rota(case: &mut Case) -> Rota {
    loop {
        let rota = match case.random.below(10) {
            0 => generate::rota(&mut case.random),
            1..=4 => generate::granting_rota(&mut case.random),
            5..=7 => generate::small_rota(&mut case.random),
            _ => generate::relay_rota(&mut case.random),
        };
        let fields = rewriting::eras(&rota).len() * rewriting::cells(&rota).len();
        if fields * rota.roles.len() < 2_000 {
            return rota;
        }
    }
}

/// A long list of calls from the fresh state.
pub fn list(case: &mut Case, tally: &mut Tally) {
    let both = Both::new(some_rota(case));
    fresh_calls(case, tally, &both, 120);
}

/// A list of calls on the tidy rota and on its table.
pub fn list_on_a_tidy_rota(case: &mut Case, tally: &mut Tally) {
    let rota = some_rota(case);
    let both = Both::tidied(generate::respelled(&mut case.random, &rota));
    tally.count_if(both.rota_bytes[2..] != both.rota().encode()[2..], "tidied");
    fresh_calls(case, tally, &both, 60);
}

pub fn odd_states(case: &mut Case, tally: &mut Tally) {
    let both = Both::new(some_rota(case));
    odd_calls(case, tally, &both, 4, 5);
}

/// Everyone is open, at a minute where something changes or near it, and jumps.
pub fn jumps(case: &mut Case, tally: &mut Tally) {
    let both = Both::new(generate::relay_rota(&mut case.random));
    for _ in 0..8 {
        jump(case, tally, &both);
    }
}

/// One jump of everyone, which gives what is given in two.
pub fn jump(case: &mut Case, tally: &mut Tally, both: &Both) {
    let now = near_a_span(&mut case.random, &both.edges);
    let everyone = set::below(both.rota().users());
    let m = generate::jump(&mut case.random, &both.edges, now);
    let between = case.random.between(now, m);
    in_one_and_in_two(case, tally, both, State { now, open: everyone }, between, m);
}

/// An advance to `m`, and in two steps: as many are closed in all, and the same are left.
pub fn in_one_and_in_two(
    case: &Case,
    tally: &mut Tally,
    both: &Both,
    state: State,
    between: u32,
    m: u32,
) -> Stepped {
    let (mut once, mut twice) = (Run::from(state), Run::from(state));
    let given = once.call(case, tally, both, Call::Advance(m));
    let first = twice.call(case, tally, both, Call::Advance(between));
    let second = twice.call(case, tally, both, Call::Advance(m));
    let what = (state, "by", between, "to", m);
    case.same(first.value + second.value, given.value, &both.rota_bytes, what);
    case.same(second.state(), given.state(), &both.rota_bytes, what);
    given
}

/// A minute within some cycles of a begin or an end.
fn near_a_span(random: &mut Random, edges: &Edges) -> u32 {
    let near = random.pick(&edges.spans) + random.below(2 * edges.cycle);
    near.saturating_sub(random.below(2 * edges.cycle)).min(END - 1)
}

/// The same on tables whose roles' eras overlap freely.
pub fn jumps_on_tables_made_by_hand(case: &mut Case, tally: &mut Tally) {
    let table = match case.random.below(2) {
        0 => generate::relay_table(&mut case.random),
        _ => generate::dense_table(&mut case.random),
    };
    let (bytes, edges) = (table.encode(), Edges::of_table(&table));
    let everyone = set::below(table.users());
    let table = Ok(table);
    for _ in 0..8 {
        let now = near_a_span(&mut case.random, &edges);
        let mut state = State { now, open: everyone };
        for _ in 0..2 {
            let call = Call::Advance(generate::jump(&mut case.random, &edges, state.now));
            state = compare_on_table(case, tally, (&table, &bytes), state, call).state();
        }
    }
}

/// One call on a table, against the machine on that table.
fn compare_on_table(
    case: &Case,
    tally: &mut Tally,
    (table, bytes): (&Result<Table, Refusal>, &[u8]),
    state: State,
    call: Call,
) -> Stepped {
    let expected = expected::service::stepped(table, state, call);
    add(tally, state, call, &expected);
    let given = on_table(bytes, state, call);
    case.same(given, expected, bytes, (call, "in", state));
    given
}

/// Tables that no rewriting makes, against the machine on that table.
pub fn table_made_by_hand(case: &mut Case, tally: &mut Tally) {
    let table = table_by_hand(&mut case.random);
    let (bytes, edges) = (table.encode(), Edges::of_table(&table));
    let users = table.users();
    let table = Ok(table);
    let mut state = State::default();
    for i in 0..40 {
        // From the fresh state first, then from any.
        if i >= 25 && i % 5 == 0 {
            state = generate::state(&mut case.random, users, &edges);
        }
        let policy = table.as_ref().expect("accepted");
        let call = generate::call(&mut case.random, policy, &edges, state);
        state = compare_on_table(case, tally, (&table, &bytes), state, call).state();
    }
}

/// One call, in any state, on damaged bytes of what `near` was.
fn compare_damaged<P: Policy>(
    case: &mut Case,
    tally: &mut Tally,
    bytes: &[u8],
    (near, edges): (&P, Edges),
    parsed: Result<P, Refusal>,
    on: fn(&[u8], State, Call) -> Stepped,
) {
    let state = generate::state(&mut case.random, near.users(), &edges);
    let call = generate::call(&mut case.random, near, &edges, state);
    let expected = expected::service::stepped(&parsed, state, call);
    tally.add(expected.refusal);
    case.same(on(bytes, state, call), expected, bytes, (call, "in", state));
}

/// The bytes' refusals come before those of the state and of the call.
pub fn damaged(case: &mut Case, tally: &mut Tally) {
    let rota = generate::small_rota(&mut case.random);
    let bytes = generate::damaged_rota(&mut case.random, &rota);
    let near = (&rota, Edges::of_rota(&rota));
    compare_damaged(case, tally, &bytes, near, Rota::parse(&bytes), on_rota);

    let table = match case.random.below(3) {
        0 => generate::table_of_rota(&mut case.random, &rota),
        _ => generate::small_table(&mut case.random),
    };
    let bytes = generate::damaged_table(&mut case.random, &table);
    let near = (&table, Edges::of_table(&table));
    compare_damaged(case, tally, &bytes, near, Table::parse(&bytes), on_table);
}
