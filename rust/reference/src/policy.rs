//! What a rota and a table have in common: both say who may use what, and when.

use crate::edges::Edges;
use crate::{END, Refusal};

pub trait Policy {
    /// U, the number of users.
    fn users(&self) -> u32;

    /// P, the number of permissions.
    fn permissions(&self) -> u32;

    /// The lowest role through which `user` may use `permission` at `t`.
    fn answer(&self, user: u32, permission: u32, t: u32) -> Option<u8>;

    /// The users that hold any permission at `t`.
    fn holders(&self, t: u32) -> u64;

    /// Those of `open` who hold some permission at each minute after `now`, up to and with `m`;
    /// with `m` = `now` there is no such minute, and all of them stay.
    fn staying(&self, open: u64, now: u32, m: u32) -> u64;
}

/// The longest jump that is judged minute by minute.
const SHORT_JUMP: u32 = 64;

/// `Policy::staying` by its definition: minute by minute, or in a long jump at minutes that stand
/// for all. `edges` are where the policy's answers may change.
pub fn staying(
    policy: &dyn Policy,
    edges: impl FnOnce() -> Edges,
    open: u64,
    now: u32,
    m: u32,
) -> u64 {
    if m - now <= SHORT_JUMP {
        staying_at(policy, open, now + 1..=m)
    } else {
        staying_at(policy, open, edges().deciding(now + 1, m + 1))
    }
}

/// Those of `open` who hold some permission at each of these minutes.
pub fn staying_at(policy: &dyn Policy, open: u64, minutes: impl IntoIterator<Item = u32>) -> u64 {
    let mut left = open;
    for t in minutes {
        if left == 0 {
            break;
        }
        left &= policy.holders(t);
    }
    left
}

/// One question without a service.
pub fn question(
    policy: &dyn Policy,
    user: u32,
    permission: u32,
    t: u32,
) -> Result<Option<u8>, Refusal> {
    if t >= END {
        return Err(33);
    }
    if user >= policy.users() {
        return Err(34);
    }
    if permission >= policy.permissions() {
        return Err(35);
    }
    Ok(policy.answer(user, permission, t))
}
