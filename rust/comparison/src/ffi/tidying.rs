//! Tidying a rota into an area.

#[repr(C)]
#[derive(Clone, Copy, Debug, Default, PartialEq, Eq)]
pub struct Tidied {
    pub refusal: u32,
    pub length: u64,
}

unsafe extern "C" {
    fn softlode_rota_tidy(s: *const u8, len: usize, out: *mut u8, out_len: usize) -> Tidied;
}

pub fn tidy(rota: &[u8], area: &mut [u8]) -> Tidied {
    unsafe { softlode_rota_tidy(rota.as_ptr(), rota.len(), area.as_mut_ptr(), area.len()) }
}

/// The tidy rota of an accepted one, in an area of its own length, which is enough.
pub fn tidied(rota: &[u8]) -> Vec<u8> {
    let mut area = vec![0; rota.len()];
    let tidied = tidy(rota, &mut area);
    assert_eq!(tidied.refusal, 0, "the rota is refused, or has no room");
    area.truncate(tidied.length as usize);
    area
}
