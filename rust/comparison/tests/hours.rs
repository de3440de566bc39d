//! Hours records: judged at any place in any bytes, and asked at the minutes where they change.

use cases::case::{Case, Tally, cases, tallied};
use cases::generate;
use comparison::compare::hours::{self, TOTALS, bytes_of, compare_hold, compare_judge};
use comparison::{expected, ffi};
use reference::END;
use reference::hours::{Hours, Pair};

fn record(begin: u32, end: u32, pairs: &[(u16, u16)]) -> Vec<u8> {
    let pairs = pairs.iter().map(|&(offset, length)| Pair { offset, length }).collect();
    bytes_of(&Hours { begin, end, pairs })
}

#[test]
fn worked_records() {
    let case = Case::new("worked_records", 0);
    let refusal = |bytes: &[u8], cycle, total| {
        let judged = ffi::hours_judge(bytes, 0, cycle, total);
        case.same(judged, expected::hours_judge(bytes, 0, cycle, total), bytes, (cycle, total));
        judged.refusal
    };
    assert_eq!(refusal(&record(0, END, &[(0, 10)]), 10, 0), 0);
    assert_eq!(refusal(&record(0, END + 1, &[(0, 10)]), 10, 0), 6);
    assert_eq!(refusal(&record(7, 7, &[(0, 10)]), 10, 0), 6);
    assert_eq!(refusal(&record(0, 9, &[(3, 7)]), 10, 0), 0);
    assert_eq!(refusal(&record(0, 9, &[(3, 8)]), 10, 0), 8);
    assert_eq!(refusal(&record(0, 9, &[(0, 2), (2, 1)]), 10, 0), 8);
    assert_eq!(refusal(&record(0, 9, &[(0, 2), (3, 1)]), 10, 0), 0);
    assert_eq!(refusal(&record(0, 9, &[(65_535, 1)]), 10, 0), 8);
    assert_eq!(refusal(&record(0, 9, &[(0, 1)]), 10, 255), 0);
    assert_eq!(refusal(&record(0, 9, &[(0, 1)]), 10, 256), 7);
    assert_eq!(refusal(&record(0, 9, &[]), 10, 0), 7);
    assert_eq!(refusal(&record(0, 9, &[(0, 1)]), 0, 0), 8);
    assert_eq!(refusal(&[], 10, 0), 5);
    // A count of 257 is over the limit before its pairs are missed.
    let mut long = record(0, 9, &[(0, 1)]);
    long[8..10].copy_from_slice(&257u16.to_le_bytes());
    assert_eq!(refusal(&long, 10, 0), 7);
    long[8..10].copy_from_slice(&256u16.to_le_bytes());
    assert_eq!(refusal(&long, 10, 0), 5);
    // S: hours 0 hold at 3 and not at 4; hours 1 hold at 12 and 36, not at 37 and 40.
    let (first, second) = (record(0, 20, &[(0, 4), (6, 2)]), record(10, 40, &[(2, 5)]));
    assert_eq!([3, 4].map(|t| ffi::hours_hold(&first, 10, t).holds), [1, 0]);
    assert_eq!([12, 36, 37, 40].map(|t| ffi::hours_hold(&second, 10, t).holds), [1, 1, 0, 0]);
}

#[test]
fn records_at_any_place() {
    tallied("records_at_any_place", 30_000, hours::at_any_place).reached([0, 5, 6, 7, 8]);
}

#[test]
fn records_cut_and_changed() {
    let mut tally = Tally::new("records_cut_and_changed");
    cases("records_cut_and_changed", 500, |case| {
        let cycle = case.random.between(3, 300) as u16;
        let pairs = case.random.between(1, generate::room(cycle).min(5));
        let hours = generate::hours(&mut case.random, cycle, pairs);
        let whole = bytes_of(&hours);
        let cycle = u32::from(cycle);
        for len in 0..=whole.len() {
            for total in TOTALS {
                compare_judge(case, &mut tally, &whole[..len], 0, cycle, total);
            }
            compare_hold(case, &mut tally, &whole[..len], cycle, hours.begin);
        }
        for i in 0..whole.len() {
            for value in generate::changes(whole[i]) {
                let mut bytes = whole.clone();
                bytes[i] = value;
                compare_judge(case, &mut tally, &bytes, 0, cycle, 0);
                compare_hold(case, &mut tally, &bytes, cycle, hours.begin);
            }
        }
    });
    tally.reached([0, 5, 6, 7, 8]);
}

#[test]
fn records_with_several_faults() {
    tallied("records_with_several_faults", 50_000, hours::several_faults).reached([0, 5, 6, 7, 8]);
}

/// A cycle of 65,536 and more is no rota's, but a record can be judged for it: sums pass 16 bits.
#[test]
fn pairs_whose_sums_pass_16_bits() {
    let mut tally = Tally::new("pairs_whose_sums_pass_16_bits");
    let case = Case::new("pairs_whose_sums_pass_16_bits", 0);
    let edges = [0, 1, 2, 32_767, 32_768, 40_320, 65_534, 65_535];
    for first in edges {
        for length in edges {
            for second in edges {
                let bytes = record(0, END, &[(first, length), (second, 1)]);
                for cycle in [1, 65_535, 65_536, 131_070, 131_071, u32::MAX] {
                    compare_judge(&case, &mut tally, &bytes, 0, cycle, 0);
                    compare_hold(&case, &mut tally, &bytes, cycle, 65_536);
                    compare_hold(&case, &mut tally, &bytes, cycle, END - 1);
                }
            }
        }
    }
    tally.reached([0, 8]);
}

#[test]
fn holding_at_edges() {
    tallied("holding_at_edges", 4_000, hours::holding_at_edges)
        .reached([0])
        .also(&["holds", "does not hold"]);
}

#[test]
fn holding_minute_by_minute() {
    let mut tally = Tally::new("holding_minute_by_minute");
    cases("holding_minute_by_minute", 2_000, |case| {
        let cycle = case.random.between(1, 12) as u16;
        let pairs = case.random.between(1, generate::room(cycle));
        let hours = generate::hours(&mut case.random, cycle, pairs);
        let bytes = bytes_of(&hours);
        for t in (0..60).chain(END - 30..END + 2) {
            compare_hold(case, &mut tally, &bytes, cycle.into(), t);
        }
    });
    tally.reached([0]);
    tally.also(&["holds", "does not hold"]);
}
