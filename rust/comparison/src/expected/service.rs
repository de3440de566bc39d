//! A call of the plain machine.

use reference::Refusal;
use reference::policy::Policy;
use reference::service::{Call, Reply, State, step};

use crate::ffi::service::Stepped;

/// The bytes' refusal, or else what the machine gives on what they mean; with the state after.
pub fn stepped<P: Policy>(policy: &Result<P, Refusal>, state: State, call: Call) -> Stepped {
    let mut after = state;
    let reply = match policy {
        Ok(policy) => step(policy, &mut after, call),
        Err(refusal) => Err(*refusal),
    };
    let (refusal, yes, value) = match reply {
        Ok(Reply::Closed(count)) => (0, 0, count),
        Ok(Reply::Done) | Ok(Reply::Answer(None)) => (0, 0, 0),
        Ok(Reply::Answer(Some(role))) => (0, 1, role.into()),
        Err(refusal) => (refusal, 0, 0),
    };
    Stepped { refusal, yes, value, now: after.now, open: after.open }
}
