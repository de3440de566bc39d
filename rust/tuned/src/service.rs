//! The four calls of the service.

use reference::policy::Policy;
use reference::service::{Call, Lent, Reply, State};
use reference::set::{below, has, with, without};
use reference::{END, Refusal};

use crate::ensure;
use crate::rota::Rota;
use crate::table::Table;

pub fn serve(lent: Lent, state: &mut State, call: Call) -> Result<Reply, Refusal> {
    match lent {
        Lent::Rota(bytes) => step(&Rota::read(bytes)?, state, call),
        Lent::Table(bytes) => step(&Table::read(bytes)?, state, call),
    }
}

fn step(policy: &impl Policy, state: &mut State, call: Call) -> Result<Reply, Refusal> {
    let State { now, open } = *state;
    let users = policy.users();
    ensure(now < END && open & !below(users) == 0, 40)?;
    match call {
        Call::Advance(m) => {
            ensure(m < END, 33)?;
            ensure(now <= m, 41)?;
            // With nobody open there is nobody to judge, and from now to now no minute.
            let kept = match m - now {
                0 => open,
                _ if open == 0 => 0,
                1 => open & policy.holders(m),
                _ => policy.staying(open, now, m),
            };
            *state = State { now: m, open: kept };
            Ok(Reply::Closed((open ^ kept).count_ones()))
        }
        Call::Open(user) => {
            ensure(user < users, 34)?;
            ensure(!has(open, user), 42)?;
            ensure(has(policy.holders(now), user), 43)?;
            state.open = with(open, user);
            Ok(Reply::Done)
        }
        Call::Close(user) => {
            ensure(user < users, 34)?;
            ensure(has(open, user), 44)?;
            state.open = without(open, user);
            Ok(Reply::Done)
        }
        Call::Ask(user, permission) => {
            ensure(user < users, 34)?;
            ensure(permission < policy.permissions(), 35)?;
            ensure(has(open, user), 44)?;
            Ok(Reply::Answer(policy.answer(user, permission, now)))
        }
    }
}
