//! Rotas whose hours cut as finely as their number allows: the largest tables.

use reference::END;
use reference::hours::{Hours, HoursRef, Pair};
use reference::rota::{ANY_ORDER, Rota, Row};

use super::LIMITS;
use crate::random::Random;

/// What the roles have in the fields of a fine rota.
#[derive(Clone, Copy, Debug, PartialEq, Eq)]
pub enum Sets {
    /// Each role has the same users and permissions always: one derived role for each, and one row
    /// for each era.
    Same,
    /// One user of each role follows one of the hours: rows are joined over many cells.
    Few,
    /// Each role's users and permissions follow most of the hours: thousands of derived roles.
    Many,
}

/// The numbers below `count`, shuffled.
fn shuffled(random: &mut Random, count: u32) -> Vec<u32> {
    let mut numbers: Vec<u32> = (0..count).collect();
    random.shuffle(&mut numbers);
    numbers
}

/// A rota in which every begin and end cuts an era and every edge of a pair a cell:
/// 2 × hours + 1 eras, all longer than the cycle, and 2 × hours × pairs + 1 cells.
/// Each role keeps every field, so there is a row for each role, era and cell before rows that
/// touch are joined.
/// `pairs` are those of one record. With 32 hours of 8 pairs and 32 roles all is at its limit.
pub fn fine_rota(random: &mut Random, hours: u32, pairs: u32, roles: u32, sets: Sets) -> Rota {
    let cycle = LIMITS.cycle;
    let era = END / (2 * hours + 1);
    let cell = u32::from(cycle) / (2 * hours * pairs + 1);
    let mut all_hours = vec![Hours { begin: 0, end: 0, pairs: Vec::new() }; hours as usize];
    // All begin in one order and end in another, and likewise in each part of the cycle.
    for (i, number) in (1..).zip(shuffled(random, hours)) {
        all_hours[number as usize].begin = i * era;
    }
    for (i, number) in (1 + hours..).zip(shuffled(random, hours)) {
        all_hours[number as usize].end = i * era;
    }
    for part in 0..pairs {
        let first = 1 + 2 * hours * part;
        for (i, number) in (first..).zip(shuffled(random, hours)) {
            let offset = (i * cell) as u16;
            all_hours[number as usize].pairs.push(Pair { offset, length: 0 });
        }
        for (i, number) in (first + hours..).zip(shuffled(random, hours)) {
            let pair = &mut all_hours[number as usize].pairs[part as usize];
            pair.length = (i * cell) as u16 - pair.offset;
        }
    }
    with_roles(all_hours, roles, sets)
}

/// A rota of these hours, with roles that are always enabled and keep every field.
fn with_roles(hours: Vec<Hours>, roles: u32, sets: Sets) -> Rota {
    let count = hours.len() as u32;
    // Each role has its share of the rows, the first of them always.
    let rows = |from: u32| -> Vec<Row> {
        let share = (LIMITS.user_rows / roles).min(16);
        let row = |role: u32, i: u32| Row {
            number: (4 * i + role % 4) as u8,
            role: role as u8,
            hours: match sets {
                Sets::Many if i > 0 => HoursRef::Numbered(((from + i) % count) as u8),
                Sets::Few if from + i == 1 => HoursRef::Numbered((role % count) as u8),
                _ => HoursRef::Always,
            },
        };
        (0..roles).flat_map(|role| (0..share).map(move |i| row(role, i))).collect()
    };
    Rota {
        format: ANY_ORDER,
        cycle: LIMITS.cycle,
        hours,
        users: LIMITS.users as u8,
        permissions: LIMITS.permissions as u8,
        roles: vec![HoursRef::Always; roles as usize],
        user_rows: rows(0),
        permission_rows: rows(16),
    }
}

/// The numbers below `count` in an order that is theirs but for a disturbance.
fn disturbed(random: &mut Random, count: u32, by: u32) -> Vec<u32> {
    let mut numbers: Vec<(u32, u32)> = (0..count).map(|i| (i + random.below(by), i)).collect();
    numbers.sort();
    numbers.into_iter().map(|(_, i)| i).collect()
}

/// The records of hours by the order of their cuts. All eras are as long, and all cells. A record
/// stands twice among the cuts of the eras, where it begins and where it ends, and twice for each
/// pair among those of the cells.
pub fn cut_hours(hours: u8, eras: &[u8], cells: &[u8]) -> Vec<Hours> {
    let era = END / (eras.len() as u32 + 1);
    let cell = u32::from(LIMITS.cycle) / (cells.len() as u32 + 1);
    let edges = |cuts: &[u8], size: u32, number: u8| -> Vec<u32> {
        let all = (1..).zip(cuts).filter(|&(_, &cut)| cut == number);
        all.map(|(i, _)| i * size).collect()
    };
    let pair =
        |edges: &[u32]| Pair { offset: edges[0] as u16, length: (edges[1] - edges[0]) as u16 };
    let record = |number: u8| {
        let dates = edges(eras, era, number);
        let pairs = edges(cells, cell, number).chunks_exact(2).map(pair).collect();
        Hours { begin: dates[0], end: dates[1], pairs }
    };
    (0..hours).map(record).collect()
}

/// The 32 records, those that last longest in `most_sets_cuts` first. No row of `most_sets_rota`
/// names 0 and 16, so these are the shortest.
pub fn longest_first() -> Vec<u8> {
    (0..32).filter(|number| number % 16 != 0).chain([0, 16]).collect()
}

/// Cuts of eras and of cells that give more sets of hours than equal shares do: the hours that
/// last longest have most of the pairs, and each holds for most of the cycle, so that the sets of
/// two neighbouring eras or cells seldom agree.
pub fn most_sets_cuts(random: &mut Random) -> (Vec<u8>, Vec<u8>) {
    /// Pairs of each record, from the hours that last longest; 256 in all.
    const PAIRS: [u32; 32] = [
        37, 37, 30, 25, 21, 17, 14, 12, 10, 8, 7, 5, 5, 4, 3, 3, //
        2, 2, 1, 1, 1, 1, 1, 1, 1, 1, 1, 1, 1, 1, 1, 1,
    ];
    const TURN: u32 = 1 << 20;
    let numbers = longest_first();
    let begins = disturbed(random, LIMITS.hours, 30);
    let ends = disturbed(random, LIMITS.hours, 6);
    let begins = begins.into_iter().map(|rank| numbers[rank as usize]);
    let ends = ends.into_iter().map(|rank| numbers[31 - rank as usize]);
    let eras = begins.chain(ends).collect();
    // The pairs of one record come at even distances, a little disturbed, and hold for three
    // quarters of them. All edges in their order are the edges of the cells.
    let mut edges = Vec::new();
    for (&pairs, &number) in PAIRS.iter().zip(&numbers) {
        let slot = TURN / pairs;
        let first = random.below(slot / 4);
        for i in 0..pairs {
            for edge in [i * slot + first, i * slot + first + slot * 3 / 4] {
                edges.push((edge + random.below(slot / 5), number));
            }
        }
    }
    edges.sort();
    (eras, edges.into_iter().map(|(_, number)| number).collect())
}

/// The most rows, joined, that were found: one record lasts through all eras but the first and the
/// last and has nearly all pairs, so that hardly two neighbouring cells are alike. The others last
/// one within the other, with one pair each. Every role names all but two of the records.
pub fn most_rows_rota() -> Rota {
    // Record 1 is the long one; no row names 0 and 16.
    let others = longest_first().into_iter().skip(1);
    let eras: Vec<u8> = [1].into_iter().chain(others.clone()).collect();
    let eras = eras.iter().chain(eras.iter().rev()).copied().collect::<Vec<u8>>();
    let mut cells: Vec<u8> = others.clone().collect();
    let pairs = LIMITS.pairs as usize - cells.len();
    cells.extend(others.rev());
    // The long record has its edges before and after each of the others', and most in the middle.
    let (before, after) = cells.split_at(cells.len() / 2);
    let between = |cuts: &[u8]| -> Vec<u8> { cuts.iter().flat_map(|&cut| [1, cut]).collect() };
    let middle = vec![1; 2 * pairs - cells.len()];
    let cells = [between(before), middle, between(after)].concat();
    with_roles(cut_hours(LIMITS.hours as u8, &eras, &cells), LIMITS.roles, Sets::Many)
}

/// Everything at its limit, and more derived roles than by equal shares.
pub fn most_sets_rota(random: &mut Random) -> Rota {
    let (eras, cells) = most_sets_cuts(random);
    with_roles(cut_hours(32, &eras, &cells), LIMITS.roles, Sets::Many)
}
