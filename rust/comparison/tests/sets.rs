//! Sets of the numbers 0 to 63, against a set that is kept number by number.

use std::collections::BTreeSet;

use cases::case::{Case, cases};
use comparison::ffi;

fn numbers(set: u64) -> BTreeSet<u32> {
    (0..64).filter(|i| (set >> i) % 2 == 1).collect()
}

fn bits(numbers: &BTreeSet<u32>) -> u64 {
    numbers.iter().map(|&i| 1u64 << i).sum()
}

fn compare_one(case: &Case, set: u64, i: u32) {
    let given = |what| (what, set, i);
    let mut kept = numbers(set);
    case.same(ffi::set_has(set, i), kept.contains(&i).into(), &[], given("has"));
    if i < 64 {
        kept.insert(i);
    }
    case.same(ffi::set_with(set, i), bits(&kept), &[], given("with"));
    let mut kept = numbers(set);
    kept.remove(&i);
    case.same(ffi::set_without(set, i), bits(&kept), &[], given("without"));
}

fn compare_two(case: &Case, a: u64, b: u64) {
    let given = |what| (what, a, b);
    let (left, right) = (numbers(a), numbers(b));
    let union = left.union(&right).copied().collect();
    let difference: BTreeSet<u32> = left.difference(&right).copied().collect();
    let lost = difference.len() as u32;
    case.same(ffi::set_union(a, b), bits(&union), &[], given("union"));
    case.same(ffi::set_difference(a, b), bits(&difference), &[], given("difference"));
    case.same(ffi::set_count_lost(a, b), lost, &[], given("count lost"));
    case.same(ffi::set_count(a), left.len() as u32, &[], given("count"));
    case.same(ffi::set_is_empty(a), left.is_empty().into(), &[], given("is empty"));
}

/// Empty, full, single numbers, all but one, and runs from either end.
fn edge_sets() -> Vec<u64> {
    let mut sets = vec![0, u64::MAX, 0x5555_5555_5555_5555, 0xaaaa_aaaa_aaaa_aaaa];
    for i in 0..64 {
        sets.extend([1 << i, !(1 << i), u64::MAX << i, u64::MAX >> i]);
    }
    sets
}

#[test]
fn edge_sets_and_numbers() {
    let case = Case::new("edge_sets_and_numbers", 0);
    let over = [64, 65, 127, 128, 191, 255, 256, 257, 1 << 16, 1 << 31, u32::MAX - 1, u32::MAX];
    for set in edge_sets() {
        for i in (0..64).chain(over) {
            compare_one(&case, set, i);
        }
        for other in edge_sets() {
            compare_two(&case, set, other);
        }
    }
}

#[test]
fn random_sets() {
    cases("random_sets", 50_000, |case| {
        let random = &mut case.random;
        let a = match random.below(3) {
            0 => random.bits() & random.bits(),
            1 => random.bits() | random.bits(),
            _ => random.bits(),
        };
        // Some are near each other, as before and after one call.
        let b = if random.one_in(2) { random.bits() } else { a & random.bits() };
        let i = if random.one_in(8) { random.bits() as u32 } else { random.below(70) };
        compare_one(case, a, i);
        compare_two(case, a, b);
    });
}
