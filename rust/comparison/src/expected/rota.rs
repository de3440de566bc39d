//! Reading a rota and asking it.

use reference::page::{self, Question};
use reference::policy::{Policy, question as ask};
use reference::rota::Rota;
use reference::{END, Refusal};

use crate::ffi::rota::{Answered, Holders, RotaRead};

pub fn read(rota: &Result<Rota, Refusal>) -> RotaRead {
    match rota {
        Ok(rota) => RotaRead {
            refusal: 0,
            cycle: rota.cycle.into(),
            hours: rota.hours.len() as u32,
            users: rota.users.into(),
            permissions: rota.permissions.into(),
            roles: rota.roles.len() as u32,
            user_rows: rota.user_rows.len() as u32,
            permission_rows: rota.permission_rows.len() as u32,
            format: rota.format.into(),
        },
        Err(refusal) => RotaRead { refusal: *refusal, ..RotaRead::default() },
    }
}

/// The bytes' refusal, or else the answer of what they mean. A no and a refusal give role 0.
pub fn question<P: Policy>(
    policy: &Result<P, Refusal>,
    user: u32,
    permission: u32,
    t: u32,
) -> Answered {
    let answer = match policy {
        Ok(policy) => ask(policy, user, permission, t),
        Err(refusal) => Err(*refusal),
    };
    match answer {
        Ok(Some(role)) => Answered { refusal: 0, yes: 1, role: role.into() },
        Ok(None) => Answered { refusal: 0, yes: 0, role: 0 },
        Err(refusal) => Answered { refusal, yes: 0, role: 0 },
    }
}

/// What the page gives, and the questions after it: as they were where it is refused.
pub fn page<P: Policy>(
    policy: &Result<P, Refusal>,
    questions: &[Question],
) -> (u32, Vec<Question>) {
    let policy = policy.as_ref().map(|policy| policy as &dyn Policy).map_err(|&refusal| refusal);
    match page::page(policy, questions) {
        Ok(answered) => (0, answered),
        Err(refusal) => (refusal, questions.to_vec()),
    }
}

pub fn holders<P: Policy>(policy: &Result<P, Refusal>, t: u32) -> Holders {
    match policy {
        Ok(_) if t >= END => Holders { refusal: 33, users: 0 },
        Ok(policy) => Holders { refusal: 0, users: policy.holders(t) },
        Err(refusal) => Holders { refusal: *refusal, users: 0 },
    }
}
