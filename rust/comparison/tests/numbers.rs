//! Numbers in bytes, low byte first: read and written at every place, within and outside.

use cases::case::{Case, cases};
use cases::random::Random;
use comparison::{expected, ffi};

const WIDTHS: [u32; 12] = [2, 4, 8, 0, 1, 3, 5, 6, 7, 9, 16, u32::MAX];

/// Places at and around both ends of the bytes, and near the end of the address space.
fn places(len: usize) -> Vec<usize> {
    let mut places: Vec<usize> = (0..len + 10).collect();
    places.extend((0..10).map(|k| usize::MAX - k));
    places.extend([1 << 31, (1 << 32) - 1, 1 << 32, isize::MAX as usize, 1 << 63]);
    places
}

/// Values that just fit a width, just do not, and any.
fn values(random: &mut Random) -> [u64; 9] {
    let any = random.bits();
    [0, 1, 0xffff, 0x1_0000, 0xffff_ffff, 0x1_0000_0000, u64::MAX, any, any & 0xffff]
}

fn compare_get(case: &Case, bytes: &[u8], at: usize, width: u32) {
    let proved = ffi::get(bytes, at, width);
    case.same(proved, expected::get(bytes, at, width), bytes, ("get", at, width));
}

/// Writes into the middle of a larger area; the bytes around it must stay too.
fn compare_put(case: &Case, area: &[u8], at: usize, width: u32, value: u64) {
    const MARGIN: usize = 16;
    let (mut proved, mut wanted) = (area.to_vec(), area.to_vec());
    let inside = MARGIN..area.len() - MARGIN;
    let given = ("put", at, width, value);
    let written = ffi::put(&mut proved[inside.clone()], at, width, value);
    let expected = expected::put(&mut wanted[inside], at, width, value);
    case.same(written, expected, area, given);
    case.same(proved, wanted, area, given);
}

#[test]
fn every_place_of_short_bytes() {
    let mut case = Case::new("every_place_of_short_bytes", 0);
    for len in 0..=20 {
        let bytes = case.random.bytes(len);
        let area = case.random.bytes(len + 32);
        for at in places(len) {
            for width in WIDTHS {
                compare_get(&case, &bytes, at, width);
                for value in values(&mut case.random) {
                    compare_put(&case, &area, at, width, value);
                }
            }
        }
    }
}

#[test]
fn random_bytes() {
    cases("random_bytes", 50_000, |case| {
        let len = case.random.below(300) as usize;
        let area = case.random.bytes(len + 32);
        let at = case.random.below(len as u32 + 8) as usize;
        let width = if case.random.one_in(10) {
            case.random.pick(&WIDTHS)
        } else {
            case.random.pick(&[2, 4, 8])
        };
        // Mostly as many bits as fit.
        let shift = 64 - (8 * width.clamp(1, 8)) + case.random.below(4) * case.random.below(3);
        let value = case.random.bits().checked_shr(shift).unwrap_or(0);
        compare_get(case, &area[..len], at, width);
        compare_put(case, &area, at, width, value);
    });
}
