//! Builders of inputs: well-formed rotas and tables of all sizes up to the limits,
//! damaged bytes, and the minutes and numbers at which an answer may change.

mod calls;
mod fine;
mod hours;
mod relay;
mod rota;
mod sized;
mod table;
mod tidy;
mod weekly;

pub use calls::{call, edges_near_spans, jump, jumping_call, next_edge, state};
pub use fine::{
    Sets, cut_hours, fine_rota, longest_first, most_rows_rota, most_sets_cuts, most_sets_rota,
};
pub use hours::{hours, hours_fault, room};
pub use relay::{crowded_table, dense_table, many_rows_table, relay_rota, relay_table};
pub use rota::{
    EDGE_SIZES, LIMITS, Sizes, damaged_rota, edge_sizes, granting_rota, rota, rota_minute, rota_of,
    small_rota, touching_rota, with_unused_hours,
};
pub use sized::rota_with_table;
pub use table::{damaged_table, huge_counts, small_table, table, table_minute, table_of_rota};
pub use tidy::{damaged_rows, respelled, tidy_rota};
pub use weekly::weekly_rota;

use reference::END;

use crate::random::Random;

/// A count: 0, 1, the limit, or anything between, small ones more often.
fn count(random: &mut Random, limit: u32) -> u32 {
    match random.below(8) {
        0 => 0,
        1 => 1,
        2 => limit,
        3 => random.between(0, limit),
        _ => random.between(0, limit.min(6)),
    }
}

pub fn cycle(random: &mut Random) -> u16 {
    match random.below(8) {
        0 => 1,
        1 => 2,
        2 => 40_320,
        3 => random.pick(&[60, 1_440, 10_080]),
        4 => random.between(1, 40_320) as u16,
        _ => random.between(1, 40) as u16,
    }
}

/// A begin and an end: all minutes, a single one, near either end, shorter than the cycle.
pub fn span(random: &mut Random, cycle: u16) -> (u32, u32) {
    let cycle = u32::from(cycle);
    let (begin, length) = match random.below(10) {
        0 => (0, END),
        1 => (random.below(END), 1),
        2 => (END - 1, 1),
        3 => (random.below(END), random.between(1, END)),
        4 => (END - random.between(1, 4 * cycle), random.between(1, 4 * cycle)),
        5 => (0, random.between(1, 4 * cycle)),
        6 => (random.below(3 * cycle), END),
        _ => (random.below(3 * cycle), random.between(1, 2 * cycle)),
    };
    (begin, (begin + length).min(END))
}

/// `count` numbers from 0 to `high`, all different, sorted.
fn distinct(random: &mut Random, count: usize, high: u32) -> Vec<u32> {
    let mut numbers = std::collections::BTreeSet::new();
    if 2 * count > high as usize {
        // Nearly all of them: leave some out instead.
        numbers.extend(0..=high);
        while numbers.len() > count {
            numbers.remove(&random.between(0, high));
        }
    }
    while numbers.len() < count {
        numbers.insert(random.between(0, high));
    }
    numbers.into_iter().collect()
}

/// A minute near a begin, an end, an edge of a cell or the end of time, or any minute.
pub fn minute(random: &mut Random, cycle: u16, spans: &[(u32, u32)], cuts: &[u32]) -> u32 {
    let cycle = u32::from(cycle);
    let near = |random: &mut Random, t: u32| match random.below(4) {
        0 => t.saturating_sub(1),
        1 => t.saturating_add(1),
        _ => t,
    };
    match random.below(16) {
        0 => random.pick(&[0, 1, END - 1]),
        1 => random.below(END),
        2 if random.one_in(3) => random.pick(&[END, END + 1, u32::MAX]),
        _ if spans.is_empty() => random.below(4 * cycle),
        3 | 4 => {
            let (begin, end) = random.pick(spans);
            let edge = random.pick(&[begin, end]);
            near(random, edge)
        }
        5 => {
            let (begin, end) = random.pick(spans);
            random.between(begin, end - 1)
        }
        _ => {
            // The first turn of the cycle in the span, or any, with a cell's edge added.
            let (begin, end) = random.pick(spans);
            let turns = (end - begin) / cycle;
            let turn = if random.one_in(2) { 0 } else { random.between(0, turns.min(3)) };
            let cut = if cuts.is_empty() { random.below(cycle) } else { random.pick(cuts) };
            near(random, (begin / cycle + turn) * cycle + cut)
        }
    }
}

/// A user or a permission: mostly below `limit`, else at or over a limit.
pub fn number(random: &mut Random, limit: u32) -> u32 {
    if limit > 0 && !random.one_in(6) {
        return random.below(limit);
    }
    let any = random.bits() as u32;
    let wrapped = 256 + random.below(limit.max(1));
    random.pick(&[limit, limit + 1, 63, 64, 65, 255, 256, wrapped, 65_536, u32::MAX, any])
}

/// Puts a number of `width` bytes where it lies within the bytes.
fn put(bytes: &mut [u8], at: usize, width: usize, value: u64) {
    if let Some(place) = bytes.get_mut(at..at + width) {
        place.copy_from_slice(&value.to_le_bytes()[..width]);
    }
}

/// A change of any bytes: cut, lengthened, or one byte changed.
fn any_fault(random: &mut Random, bytes: &mut Vec<u8>) {
    match random.below(8) {
        0 => bytes.truncate(random.between(0, bytes.len() as u32) as usize),
        1 => {
            let cut = random.between(0, 3) as usize;
            bytes.truncate(bytes.len().saturating_sub(cut));
        }
        2 => {
            let extra = random.between(1, 4) as usize;
            bytes.extend(random.bytes(extra));
        }
        _ if bytes.is_empty() => bytes.push(0),
        _ => {
            let at = random.below(bytes.len() as u32) as usize;
            bytes[at] = changed(random, bytes[at]);
        }
    }
}

/// Another value for a byte, near it or at an edge.
fn changed(random: &mut Random, byte: u8) -> u8 {
    let any = random.byte();
    let bit = 1 << random.below(8);
    random.pick(&[0, 255, byte.wrapping_add(1), byte.wrapping_sub(1), byte ^ bit, any])
}

/// All values that a byte is changed to where every byte of an input is changed.
pub fn changes(byte: u8) -> Vec<u8> {
    let mut values = vec![0, 1, 2, 31, 32, 33, 63, 64, 65, 127, 128, 254, 255];
    values.extend([byte.wrapping_add(1), byte.wrapping_sub(1), byte ^ 0x10, byte ^ 0x80]);
    values.sort();
    values.dedup();
    values.retain(|&value| value != byte);
    values
}
