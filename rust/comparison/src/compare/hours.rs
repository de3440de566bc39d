//! Hours records: judged at any place in any bytes, and asked at the minutes where they change.

use cases::case::{Case, Tally};
use cases::generate;
use cases::random::Random;
use reference::END;
use reference::hours::Hours;

use crate::{expected, ffi};

/// Numbers of pairs before a record, at and around the limit and where sums would wrap.
pub const TOTALS: [u32; 9] = [0, 1, 254, 255, 256, 257, 65_536, u32::MAX - 1, u32::MAX];

pub fn compare_judge(
    case: &Case,
    tally: &mut Tally,
    bytes: &[u8],
    at: usize,
    cycle: u32,
    total: u32,
) {
    let proved = ffi::hours_judge(bytes, at, cycle, total);
    let expected = expected::hours_judge(bytes, at, cycle, total);
    tally.add(expected.refusal);
    case.same(proved, expected, bytes, ("judge", "at", at, "cycle", cycle, "total", total));
}

pub fn compare_hold(case: &Case, tally: &mut Tally, bytes: &[u8], cycle: u32, t: u32) {
    let proved = ffi::hours_hold(bytes, cycle, t);
    let expected = expected::hours_hold(bytes, cycle, t);
    tally.add(expected.refusal);
    if expected.refusal == 0 {
        tally.count(if expected.holds == 1 { "holds" } else { "does not hold" });
    }
    case.same(proved, expected, bytes, ("hold", "cycle", cycle, "minute", t));
}

pub fn bytes_of(hours: &Hours) -> Vec<u8> {
    let mut bytes = Vec::new();
    hours.encode(&mut bytes);
    bytes
}

/// A record of any size with its cycle: often small, sometimes with all 256 pairs.
fn any_hours(random: &mut Random) -> (u16, Hours) {
    let cycle = generate::cycle(random);
    let most = generate::room(cycle).min(256);
    let pairs = match random.below(6) {
        0 => most,
        1 => random.between(1, most),
        _ => random.between(1, most.min(4)),
    };
    (cycle, generate::hours(random, cycle, pairs))
}

/// The cycle itself mostly, else one near it or at an edge; a cycle of 0 fits no pair.
fn any_cycle(random: &mut Random, cycle: u16) -> u32 {
    let cycle = u32::from(cycle);
    if random.one_in(8) {
        random.pick(&[0, 1, cycle - 1, cycle + 1, 40_321, 65_535, 65_536, 131_072, u32::MAX])
    } else {
        cycle
    }
}

pub fn at_any_place(case: &mut Case, tally: &mut Tally) {
    let (cycle, hours) = any_hours(&mut case.random);
    let random = &mut case.random;
    let at = random.below(30) as usize;
    let mut bytes = random.bytes(at);
    bytes.extend(bytes_of(&hours));
    let after = random.below(5) as usize;
    bytes.extend(random.bytes(after));
    let cycle = any_cycle(random, cycle);
    let pairs = hours.pairs.len() as u32;
    let edge = 256u32.saturating_sub(pairs);
    let total = if random.one_in(2) { 0 } else { random.pick(&[edge, edge + 1, edge / 2]) };
    compare_judge(case, tally, &bytes, at, cycle, total);
    compare_judge(case, tally, &bytes, at, cycle, case.number as u32 % 300);
    compare_judge(case, tally, &bytes, at, cycle, TOTALS[case.number as usize % 9]);
    // Another place in the same bytes, at and past the end, and where sums would wrap.
    let len = bytes.len();
    let any = case.random.below(len as u32) as usize;
    for at in [0, any, len.saturating_sub(10), len - 1, len, len + 1, 1 << 32] {
        compare_judge(case, tally, &bytes, at, cycle, 0);
    }
    for back in 0..12 {
        compare_judge(case, tally, &bytes, usize::MAX - back, cycle, 0);
    }
}

pub fn several_faults(case: &mut Case, tally: &mut Tally) {
    let (cycle, hours) = any_hours(&mut case.random);
    let mut bytes = bytes_of(&hours);
    for _ in 0..case.random.between(1, 4) {
        generate::hours_fault(&mut case.random, &hours, 0, &mut bytes);
    }
    let cycle = any_cycle(&mut case.random, cycle);
    let total = case.random.pick(&TOTALS);
    compare_judge(case, tally, &bytes, 0, cycle, 0);
    compare_judge(case, tally, &bytes, 0, cycle, total);
    compare_hold(case, tally, &bytes, cycle, hours.begin);
}

pub fn holding_at_edges(case: &mut Case, tally: &mut Tally) {
    let (cycle, hours) = any_hours(&mut case.random);
    let bytes = bytes_of(&hours);
    let turn = u32::from(cycle);
    let (begin, end) = (hours.begin, hours.end);
    let mut minutes = vec![0, 1, begin, begin + 1, end - 1, end, end + 1];
    minutes.extend([begin.saturating_sub(1), END - 1, END, END + 1, u32::MAX]);
    // Both edges of pairs, in the first turns of the cycle within the record and in the last.
    let last = (end - 1) / turn;
    for turns in [0, begin / turn, begin / turn + 1, last.saturating_sub(1), last] {
        for _ in 0..4 {
            let pair = case.random.pick(&hours.pairs);
            for edge in [u32::from(pair.offset), pair.end()] {
                let t = turns * turn + edge;
                minutes.extend([t.saturating_sub(1), t, t + 1]);
            }
        }
    }
    minutes.push(case.random.between(begin, end - 1));
    minutes.push(case.random.bits() as u32);
    for t in minutes {
        compare_hold(case, tally, &bytes, turn, t);
    }
}
