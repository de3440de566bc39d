//! Reading a table and asking it.

use reference::page::Question;

use super::rota::{Answered, Holders};

#[repr(C)]
#[derive(Clone, Copy, Debug, Default, PartialEq, Eq)]
pub struct TableRead {
    pub refusal: u32,
    pub cycle: u32,
    pub users: u32,
    pub permissions: u32,
    pub roles: u32,
    pub derived: u32,
    pub rows: u32,
}

#[repr(C)]
#[derive(Clone, Copy, Debug, Default, PartialEq, Eq)]
pub struct NextUse {
    pub refusal: u32,
    pub found: u32,
    pub minute: u32,
}

#[repr(C)]
#[derive(Clone, Copy, Debug, PartialEq, Eq)]
pub struct Board {
    pub refusal: u32,
    pub rows: u32,
    pub rights: [u64; 64],
}

unsafe extern "C" {
    fn softlode_table_read(s: *const u8, len: usize) -> TableRead;
    fn softlode_table_question(s: *const u8, len: usize, u: u32, p: u32, t: u32) -> Answered;
    fn softlode_table_page(q: *mut Question, count: usize, s: *const u8, len: usize) -> u32;
    fn softlode_table_next(s: *const u8, len: usize, u: u32, p: u32, m: u32) -> NextUse;
    fn softlode_table_board(s: *const u8, len: usize, t: u32) -> Board;
    fn probe_table_holders(s: *const u8, len: usize, t: u32) -> Holders;
}

pub fn read(bytes: &[u8]) -> TableRead {
    unsafe { softlode_table_read(bytes.as_ptr(), bytes.len()) }
}

pub fn question(bytes: &[u8], user: u32, permission: u32, t: u32) -> Answered {
    unsafe { softlode_table_question(bytes.as_ptr(), bytes.len(), user, permission, t) }
}

pub fn page(bytes: &[u8], questions: &mut [Question]) -> u32 {
    let (list, count) = (questions.as_mut_ptr(), questions.len());
    unsafe { softlode_table_page(list, count, bytes.as_ptr(), bytes.len()) }
}

pub fn next_use(bytes: &[u8], user: u32, permission: u32, m: u32) -> NextUse {
    unsafe { softlode_table_next(bytes.as_ptr(), bytes.len(), user, permission, m) }
}

pub fn board(bytes: &[u8], t: u32) -> Board {
    unsafe { softlode_table_board(bytes.as_ptr(), bytes.len(), t) }
}

pub fn holders(bytes: &[u8], t: u32) -> Holders {
    unsafe { probe_table_holders(bytes.as_ptr(), bytes.len(), t) }
}
