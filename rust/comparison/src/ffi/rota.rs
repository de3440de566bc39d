//! Reading a rota and asking it.

use reference::page::Question;

#[repr(C)]
#[derive(Clone, Copy, Debug, Default, PartialEq, Eq)]
pub struct RotaRead {
    pub refusal: u32,
    pub cycle: u32,
    pub hours: u32,
    pub users: u32,
    pub permissions: u32,
    pub roles: u32,
    pub user_rows: u32,
    pub permission_rows: u32,
    pub format: u32,
}

#[repr(C)]
#[derive(Clone, Copy, Debug, PartialEq, Eq)]
pub struct Answered {
    pub refusal: u32,
    pub yes: u32,
    pub role: u32,
}

#[repr(C)]
#[derive(Clone, Copy, Debug, PartialEq, Eq)]
pub struct Holders {
    pub refusal: u32,
    pub users: u64,
}

unsafe extern "C" {
    fn softlode_rota_read(s: *const u8, len: usize) -> RotaRead;
    fn softlode_rota_question(s: *const u8, len: usize, u: u32, p: u32, t: u32) -> Answered;
    fn softlode_rota_page(q: *mut Question, count: usize, s: *const u8, len: usize) -> u32;
    fn probe_rota_holders(s: *const u8, len: usize, t: u32) -> Holders;
}

pub fn read(bytes: &[u8]) -> RotaRead {
    unsafe { softlode_rota_read(bytes.as_ptr(), bytes.len()) }
}

pub fn question(bytes: &[u8], user: u32, permission: u32, t: u32) -> Answered {
    unsafe { softlode_rota_question(bytes.as_ptr(), bytes.len(), user, permission, t) }
}

pub fn page(bytes: &[u8], questions: &mut [Question]) -> u32 {
    let (list, count) = (questions.as_mut_ptr(), questions.len());
    unsafe { softlode_rota_page(list, count, bytes.as_ptr(), bytes.len()) }
}

pub fn holders(bytes: &[u8], t: u32) -> Holders {
    unsafe { probe_rota_holders(bytes.as_ptr(), bytes.len(), t) }
}
