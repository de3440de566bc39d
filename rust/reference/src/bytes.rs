//! Numbers in bytes, low byte first.

/// The number of `N` bytes at `at`; the caller has checked that it lies within the bytes.
fn at<const N: usize>(bytes: &[u8], at: usize) -> [u8; N] {
    bytes[at..at + N].try_into().expect("N bytes")
}

#[inline]
pub fn u16_at(bytes: &[u8], position: usize) -> u16 {
    u16::from_le_bytes(at(bytes, position))
}

#[inline]
pub fn u32_at(bytes: &[u8], position: usize) -> u32 {
    u32::from_le_bytes(at(bytes, position))
}

#[inline]
pub fn u64_at(bytes: &[u8], position: usize) -> u64 {
    u64::from_le_bytes(at(bytes, position))
}
