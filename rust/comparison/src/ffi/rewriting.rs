//! Rewriting a rota into an area, and how large one it takes.

#[repr(C)]
#[derive(Clone, Copy, Debug, Default, PartialEq, Eq)]
pub struct Rewritten {
    pub refusal: u32,
    pub derived: u32,
    pub rows: u32,
    pub length: u64,
}

unsafe extern "C" {
    fn softlode_rewrite(s: *const u8, len: usize, out: *mut u8, out_len: usize) -> Rewritten;
    fn softlode_rewrite_size(s: *const u8, len: usize) -> Rewritten;
}

pub fn rewrite(rota: &[u8], area: &mut [u8]) -> Rewritten {
    unsafe { softlode_rewrite(rota.as_ptr(), rota.len(), area.as_mut_ptr(), area.len()) }
}

pub fn size(rota: &[u8]) -> Rewritten {
    unsafe { softlode_rewrite_size(rota.as_ptr(), rota.len()) }
}

/// The table of an accepted rota, in an area that grows until it fits.
pub fn table(rota: &[u8]) -> Vec<u8> {
    let mut size = 4_096;
    loop {
        let mut area = vec![0; size];
        let rewritten = rewrite(rota, &mut area);
        match rewritten.refusal {
            0 => {
                area.truncate(rewritten.length as usize);
                return area;
            }
            20 => size *= 16,
            refusal => panic!("the rota is refused with {refusal}"),
        }
    }
}
