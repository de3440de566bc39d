//! States of a service, and calls that walk along the minutes at which an answer may change.

use reference::edges::Edges;
use reference::policy::Policy;
use reference::service::{Call, State};
use reference::{END, set};

use super::number;
use crate::random::Random;

/// The first minute after `now`, which is not over E, at which an answer may change;
/// it may be E or later.
pub fn next_edge(edges: &Edges, now: u32) -> u32 {
    let turn = now - now % edges.cycle;
    let here = edges.cuts.iter().map(|&cut| turn + cut).find(|&edge| edge > now);
    next_span(edges, now).min(here.unwrap_or(turn + edges.cycle))
}

/// The first begin or end after `now`, or E.
fn next_span(edges: &Edges, now: u32) -> u32 {
    edges.spans.iter().copied().find(|&edge| edge > now).unwrap_or(END)
}

/// Every minute at which an answer may change in the first cycles after each begin and end,
/// and in the last before, with the minutes beside it; at most E.
pub fn edges_near_spans(edges: &Edges) -> Vec<u32> {
    let mut minutes = Vec::new();
    for &edge in &edges.spans {
        let turn = edge - edge % edges.cycle;
        for turn in [turn.saturating_sub(edges.cycle), turn, turn + edges.cycle] {
            minutes.extend(edges.cuts.iter().map(|&cut| turn + cut));
        }
        minutes.push(edge);
    }
    let beside = |&t: &u32| [t.saturating_sub(1), t, t + 1];
    let mut minutes: Vec<u32> = minutes.iter().flat_map(beside).filter(|&t| t <= END).collect();
    minutes.sort();
    minutes.dedup();
    minutes
}

/// The minute, or one beside it.
fn beside(random: &mut Random, t: u32) -> u32 {
    match random.below(4) {
        0 => t.saturating_sub(1),
        1 => t + 1,
        _ => t,
    }
}

/// A minute to advance to: mostly soon, at an edge or beside it.
fn advance(random: &mut Random, edges: &Edges, now: u32) -> u32 {
    let now = now.min(END);
    let random_minute = random.below(END);
    match random.below(100) {
        // Far: a list goes on from there, or ends.
        0 => random.pick(&[END - 1, random_minute]),
        1 => beside(random, next_span(edges, now)),
        2 | 3 => random.pick(&[END, END + 1, u32::MAX]),
        4..=7 => now.saturating_sub(random.between(1, edges.cycle)),
        // Near.
        8..=17 => now,
        18..=29 => now + random.below(4),
        30..=37 => now + random.below(edges.cycle),
        38..=45 => {
            let span = next_span(edges, now);
            let is_near = span - now < 10 * edges.cycle;
            beside(random, if is_near { span } else { next_edge(edges, now) })
        }
        46..=53 => {
            let far = now + edges.cycle * random.below(3);
            beside(random, next_edge(edges, far.min(END)))
        }
        _ => beside(random, next_edge(edges, now)),
    }
}

/// A minute from `now` on, which is below E, to jump to: the same one, the next, within a cycle,
/// some cycles on, past one era or more, or the last minute.
pub fn jump(random: &mut Random, edges: &Edges, now: u32) -> u32 {
    let span = next_span(edges, now);
    let turns = edges.cycle * random.between(1, 4);
    let m = match random.below(14) {
        0 => now,
        1 | 2 => now + 1,
        3 | 4 => now + random.between(1, edges.cycle),
        5 | 6 => beside(random, now + turns),
        7 | 8 => beside(random, next_edge(edges, now)),
        9 => beside(random, span),
        10 | 11 => beside(random, next_span(edges, span)),
        12 => random.between(now, END - 1),
        _ => END - 1,
    };
    m.clamp(now, END - 1)
}

/// One of a set, if it is not empty.
fn member(random: &mut Random, numbers: u64) -> Option<u32> {
    let members: Vec<u32> = (0..64).filter(|&i| set::has(numbers, i)).collect();
    (!members.is_empty()).then(|| random.pick(&members))
}

/// A call in a state: about as many that pass as are refused.
pub fn call(random: &mut Random, policy: &dyn Policy, edges: &Edges, state: State) -> Call {
    call_or(random, policy, state, |random| advance(random, edges, state.now))
}

/// The same, but an advance is a jump, and nearly all of them pass.
pub fn jumping_call(random: &mut Random, policy: &dyn Policy, edges: &Edges, state: State) -> Call {
    call_or(random, policy, state, |random| match state.now {
        now @ ..END if !random.one_in(16) => jump(random, edges, now),
        now => advance(random, edges, now),
    })
}

/// An advance to the minute that is given, or another call.
fn call_or(
    random: &mut Random,
    policy: &dyn Policy,
    state: State,
    to: impl FnOnce(&mut Random) -> u32,
) -> Call {
    let any = number(random, policy.users());
    match random.below(10) {
        0..=2 => Call::Advance(to(random)),
        3..=5 => {
            // Most of the time someone who can open.
            let holders = if state.now < END { policy.holders(state.now) } else { 0 };
            let able = member(random, holders & !state.open);
            Call::Open(if random.one_in(3) { any } else { able.unwrap_or(any) })
        }
        kind => {
            let there = member(random, state.open);
            let user = if random.one_in(4) { any } else { there.unwrap_or(any) };
            match kind {
                6 => Call::Close(user),
                _ => Call::Ask(user, number(random, policy.permissions())),
            }
        }
    }
}

/// A state that a host may lend: at or past the last minute, with users open that do not exist
/// or hold nothing, or with nothing odd about it.
pub fn state(random: &mut Random, users: u32, edges: &Edges) -> State {
    let now = match random.below(8) {
        0 => random.pick(&[END, END + 1, 1 << 31, u32::MAX]),
        1 => END - 1,
        2 => 0,
        3 => random.below(END),
        _ => {
            let edge = random.pick(&edges.spans);
            advance(random, edges, edge)
        }
    };
    let below = set::below(users);
    let any = random.bits();
    let some = random.bits() & below;
    let open = match random.below(8) {
        0 => set::with(some, users),
        1 => random.pick(&[u64::MAX, 1 << 63, any, !below]),
        2 => 0,
        3 => below,
        _ => some,
    };
    State { now, open }
}
