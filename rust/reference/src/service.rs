//! The service: a clock and the sessions that are open, over any policy.

use crate::policy::Policy;
use crate::rota::Rota;
use crate::set;
use crate::table::Table;
use crate::{END, Refusal};

/// `default` is the fresh state: minute 0, nobody open.
#[derive(Clone, Copy, Debug, Default, PartialEq, Eq)]
pub struct State {
    pub now: u32,
    pub open: u64,
}

#[derive(Clone, Copy, Debug, PartialEq, Eq)]
pub enum Call {
    Advance(u32),
    Open(u32),
    Close(u32),
    Ask(u32, u32),
}

#[derive(Clone, Copy, Debug, PartialEq, Eq)]
pub enum Reply {
    /// An advance: how many sessions it closed.
    Closed(u32),
    /// An open or a close.
    Done,
    /// An ask: the role of a yes, or no.
    Answer(Option<u8>),
}

/// The bytes that a call works on. Which they are comes with the call, not from the bytes.
#[derive(Clone, Copy, Debug)]
pub enum Lent<'a> {
    Rota(&'a [u8]),
    Table(&'a [u8]),
}

impl Lent<'_> {
    pub fn read(&self) -> Result<Box<dyn Policy>, Refusal> {
        Ok(match self {
            Lent::Rota(bytes) => Box::new(Rota::parse(bytes)?),
            Lent::Table(bytes) => Box::new(Table::parse(bytes)?),
        })
    }
}

/// One call of a service with its bytes: the bytes' refusals come first.
pub fn serve(lent: Lent, state: &mut State, call: Call) -> Result<Reply, Refusal> {
    step(&*lent.read()?, state, call)
}

/// One call of the plain machine. A refused call leaves the state.
pub fn step(policy: &dyn Policy, state: &mut State, call: Call) -> Result<Reply, Refusal> {
    if state.now >= END || state.open & !set::below(policy.users()) != 0 {
        return Err(40);
    }
    match call {
        Call::Advance(m) => advance(policy, state, m).map(Reply::Closed),
        Call::Open(user) => open(policy, state, user).map(|()| Reply::Done),
        Call::Close(user) => close(policy, state, user).map(|()| Reply::Done),
        Call::Ask(user, permission) => ask(policy, state, user, permission).map(Reply::Answer),
    }
}

/// Closes every session whose user holds nothing at some minute after the old now, up to and with
/// the new one, and no other.
fn advance(policy: &dyn Policy, state: &mut State, m: u32) -> Result<u32, Refusal> {
    if m >= END {
        return Err(33);
    }
    if m < state.now {
        return Err(41);
    }
    let kept = policy.staying(state.open, state.now, m);
    let closed = (state.open & !kept).count_ones();
    *state = State { now: m, open: kept };
    Ok(closed)
}

fn open(policy: &dyn Policy, state: &mut State, user: u32) -> Result<(), Refusal> {
    if user >= policy.users() {
        return Err(34);
    }
    if set::has(state.open, user) {
        return Err(42);
    }
    if !set::has(policy.holders(state.now), user) {
        return Err(43);
    }
    state.open = set::with(state.open, user);
    Ok(())
}

fn close(policy: &dyn Policy, state: &mut State, user: u32) -> Result<(), Refusal> {
    if user >= policy.users() {
        return Err(34);
    }
    if !set::has(state.open, user) {
        return Err(44);
    }
    state.open = set::without(state.open, user);
    Ok(())
}

fn ask(
    policy: &dyn Policy,
    state: &State,
    user: u32,
    permission: u32,
) -> Result<Option<u8>, Refusal> {
    if user >= policy.users() {
        return Err(34);
    }
    if permission >= policy.permissions() {
        return Err(35);
    }
    if !set::has(state.open, user) {
        return Err(44);
    }
    Ok(policy.answer(user, permission, state.now))
}
