//! One question, a page of them, and who holds anything, of a rota or a table that was read.

use reference::page::{LIMIT, Question};
use reference::policy::Policy;
use reference::{END, Refusal};

use crate::ensure;

pub fn question(
    policy: &impl Policy,
    user: u32,
    permission: u32,
    t: u32,
) -> Result<Option<u8>, Refusal> {
    ensure(t < END, 33)?;
    ensure(user < policy.users(), 34)?;
    ensure(permission < policy.permissions(), 35)?;
    Ok(policy.answer(user, permission, t))
}

/// Answers each question in its place. The bytes are read once, after the list is judged.
pub fn page<P: Policy>(
    read: impl FnOnce() -> Result<P, Refusal>,
    questions: &mut [Question],
) -> Result<(), Refusal> {
    ensure(questions.len() <= LIMIT, 51)?;
    let policy = read()?;
    for asked in questions {
        asked.answer = question(&policy, asked.user, asked.permission, asked.minute).into();
    }
    Ok(())
}

pub fn holders(policy: &impl Policy, t: u32) -> Result<u64, Refusal> {
    ensure(t < END, 33)?;
    Ok(policy.holders(t))
}
