//! Hours records, well formed and damaged.

use reference::END;
use reference::hours::{Hours, Pair};

use super::{any_fault, distinct, put, span};
use crate::random::Random;

/// An hours record with that many pairs; the cycle must have room: 2 × pairs ≤ cycle + 1.
pub fn hours(random: &mut Random, cycle: u16, pairs: u32) -> Hours {
    let (begin, end) = span(random, cycle);
    // Edges that are all different make pairs that do not touch.
    let edges = distinct(random, 2 * pairs as usize, u32::from(cycle));
    let pairs = edges
        .chunks_exact(2)
        .map(|edge| Pair { offset: edge[0] as u16, length: (edge[1] - edge[0]) as u16 })
        .collect();
    Hours { begin, end, pairs }
}

/// Most pairs of one record in a cycle.
pub fn room(cycle: u16) -> u32 {
    u32::from(cycle).div_ceil(2)
}

/// Breaks one rule of an hours record that starts at `at`.
pub fn hours_fault(random: &mut Random, hours: &Hours, at: usize, bytes: &mut Vec<u8>) {
    let (begin, end) = (u64::from(hours.begin), u64::from(hours.end));
    let count = hours.pairs.len() as u64;
    let pair = random.below(hours.pairs.len() as u32) as usize;
    let pair_at = at + 10 + 4 * pair;
    match random.below(10) {
        0 => put(bytes, at, 4, random.pick(&[end, end + 1, u64::from(u32::MAX), end - 1])),
        1 => {
            let end_limit = u64::from(END);
            let max = u64::from(u32::MAX);
            put(bytes, at + 4, 4, random.pick(&[begin, 0, end_limit, end_limit + 1, max]));
        }
        2 | 3 => {
            put(bytes, at + 8, 2, random.pick(&[0, count - 1, count + 1, 256, 257, 512, 65_535]))
        }
        4 => put(bytes, pair_at + 2, 2, 0),
        5 => put(bytes, pair_at, 2, random.pick(&[0, 40_320, 65_534, 65_535])),
        // In 16 bits these two sums would wrap to 0 and to 1.
        6 => {
            put(bytes, pair_at, 2, 65_535);
            put(bytes, pair_at + 2, 2, random.pick(&[1, 2]));
        }
        7 => {
            let length = u64::from(hours.pairs[pair].length);
            put(bytes, pair_at + 2, 2, random.pick(&[length + 1, length + 2, 40_320, 65_535]));
        }
        // Touching the pair before, or one minute into it.
        8 if pair > 0 => {
            let touching = hours.pairs[pair - 1].end() as u64;
            put(bytes, pair_at, 2, random.pick(&[touching, touching - 1, touching + 1]));
        }
        _ => any_fault(random, bytes),
    }
}
