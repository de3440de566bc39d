//! What is written into an area, by the reference and by the proved code.

use std::fmt::Debug;

use cases::case::Case;

/// Bytes kept before and after the area, which nobody may touch.
const MARGIN: usize = 64;

/// What both told, and the area after the proved code wrote to it.
pub struct Written<T> {
    pub told: T,
    memory: Vec<u8>,
    from: usize,
}

impl<T> Written<T> {
    /// The first bytes of the area.
    pub fn first(&self, length: u64) -> &[u8] {
        &self.memory[self.from..self.from + length as usize]
    }
}

/// Has both write into an area of that size, filled at random, inside more such bytes: compares
/// what they tell and every byte. The area begins at any place, so that numbers lie at odd ones too.
pub fn compare<T: PartialEq + Debug + Copy>(
    case: &mut Case,
    bytes: &[u8],
    (name, size): (&'static str, usize),
    expected: impl FnOnce(&mut [u8]) -> T,
    proved: impl FnOnce(&mut [u8]) -> T,
) -> Written<T> {
    let from = MARGIN + case.random.below(8) as usize;
    let area = from..from + size;
    let filling = case.random.bytes((area.end + MARGIN).min(1 << 16));
    let mut expected_memory: Vec<u8> =
        filling.iter().copied().cycle().take(area.end + MARGIN).collect();
    let mut memory = expected_memory.clone();

    let told = expected(&mut expected_memory[area.clone()]);
    let given = proved(&mut memory[area]);
    let what = (name, "area", size);
    case.same(given, told, bytes, what);
    if memory != expected_memory {
        let differs = |i: &usize| memory[*i] != expected_memory[*i];
        let at = (0..memory.len()).find(differs).expect("they differ");
        // A byte's place is counted from the area's start; it may lie before it or past its end.
        let place = at as i64 - from as i64;
        case.same(memory[at], expected_memory[at], bytes, (what, "byte", place));
    }
    Written { told, memory, from }
}
