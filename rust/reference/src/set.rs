//! Sets of the numbers 0 to 63, one bit each.

/// Whether `i` is in the set; a number of 64 or more never is.
#[inline]
pub fn has(set: u64, i: u32) -> bool {
    i < 64 && set & (1 << i) != 0
}

/// The set with `i`; a number of 64 or more changes nothing.
#[inline]
pub fn with(set: u64, i: u32) -> u64 {
    if i < 64 { set | 1 << i } else { set }
}

/// The set without `i`.
#[inline]
pub fn without(set: u64, i: u32) -> u64 {
    if i < 64 { set & !(1 << i) } else { set }
}

/// The set of all numbers below `limit`.
#[inline]
pub fn below(limit: u32) -> u64 {
    if limit < 64 { (1 << limit) - 1 } else { u64::MAX }
}
