//! The functions of include/softlode.h in safe forms. Nothing else in this crate is unsafe.
//!
//! What the safety comments rest on, all of it promised by the header: the functions take any
//! bytes and any numbers; they read within the length of what is lent, write only within an
//! output area, to a service record and to a list of questions, and keep no pointer. A reference to
//! lend is valid, and an exclusive one overlaps nothing else.

#![allow(unsafe_code)]

use crate::{DateTime, Lent, Question, Refusal, RotaCounts, Service, TableCounts, TableSize};

/// What a function tells: the number of a refusal, or 0 and values. All fields of the values are
/// `u32`, so that they lie as in the flat struct of the header.
#[repr(C)]
pub struct Told<T> {
    refusal: u32,
    values: T,
}

impl<T> Told<T> {
    pub fn values(self) -> Result<T, Refusal> {
        Refusal::judge(self.refusal).map(|()| self.values)
    }
}

/// The values of a question, and of a call of the service.
#[repr(C)]
pub struct Answer {
    yes: u32,
    value: u32,
}

impl Told<Answer> {
    /// A question: the role of a yes.
    pub fn role(self) -> Result<Option<u32>, Refusal> {
        self.values().map(|answer| (answer.yes != 0).then_some(answer.value))
    }

    /// An advance: how many sessions it closed.
    pub fn count(self) -> Result<u32, Refusal> {
        self.values().map(|answer| answer.value)
    }

    /// A call that gives nothing.
    pub fn done(self) -> Result<(), Refusal> {
        self.values().map(|_| ())
    }
}

/// The values of the next use.
#[repr(C)]
pub struct NextUse {
    found: u32,
    minute: u32,
}

impl Told<NextUse> {
    /// The minute, where there is one.
    pub fn minute(self) -> Result<Option<u32>, Refusal> {
        self.values().map(|next| (next.found != 0).then_some(next.minute))
    }
}

/// Its length has 64 bits, so it lies flat.
#[repr(C)]
pub struct TidiedTold {
    pub refusal: u32,
    pub length: u64,
}

/// Its length has 64 bits, so it lies flat.
#[repr(C)]
pub struct WrittenTold {
    pub refusal: u32,
    pub derived: u32,
    pub rows: u32,
    pub length: u64,
}

impl WrittenTold {
    pub fn size(self) -> Result<TableSize, Refusal> {
        let WrittenTold { refusal, derived, rows, length } = self;
        Refusal::judge(refusal).map(|()| TableSize { derived, rows, length: length as usize })
    }
}

/// Its sets have 64 bits, so it lies flat.
#[repr(C)]
pub struct BoardTold {
    pub refusal: u32,
    pub rows: u32,
    pub rights: [u64; 64],
}

type Single = unsafe extern "C" fn(*const u8, usize, u32, u32, u32) -> Told<Answer>;
type Page = unsafe extern "C" fn(*mut Question, usize, *const u8, usize) -> u32;
type Call = unsafe extern "C" fn(*mut Service, *const u8, usize, u32) -> Told<Answer>;
type Ask = unsafe extern "C" fn(*mut Service, *const u8, usize, u32, u32) -> Told<Answer>;

#[rustfmt::skip]
unsafe extern "C" {
    safe fn softlode_version() -> u32;
    fn softlode_rota_read(rota: *const u8, length: usize) -> Told<RotaCounts>;
    fn softlode_table_read(table: *const u8, length: usize) -> Told<TableCounts>;
    fn softlode_rota_tidy(rota: *const u8, length: usize, area: *mut u8, size: usize) -> TidiedTold;
    fn softlode_rota_question(rota: *const u8, length: usize, volunteer: u32, right: u32, minute: u32) -> Told<Answer>;
    fn softlode_table_question(table: *const u8, length: usize, volunteer: u32, right: u32, minute: u32) -> Told<Answer>;
    fn softlode_rota_page(questions: *mut Question, count: usize, rota: *const u8, length: usize) -> u32;
    fn softlode_table_page(questions: *mut Question, count: usize, table: *const u8, length: usize) -> u32;
    fn softlode_table_next(table: *const u8, length: usize, volunteer: u32, right: u32, minute: u32) -> Told<NextUse>;
    fn softlode_table_board(table: *const u8, length: usize, minute: u32) -> BoardTold;
    fn softlode_rewrite(rota: *const u8, length: usize, area: *mut u8, size: usize) -> WrittenTold;
    fn softlode_rewrite_size(rota: *const u8, length: usize) -> WrittenTold;
    fn softlode_rota_advance(service: *mut Service, rota: *const u8, length: usize, minute: u32) -> Told<Answer>;
    fn softlode_table_advance(service: *mut Service, table: *const u8, length: usize, minute: u32) -> Told<Answer>;
    fn softlode_rota_open(service: *mut Service, rota: *const u8, length: usize, volunteer: u32) -> Told<Answer>;
    fn softlode_table_open(service: *mut Service, table: *const u8, length: usize, volunteer: u32) -> Told<Answer>;
    fn softlode_rota_close(service: *mut Service, rota: *const u8, length: usize, volunteer: u32) -> Told<Answer>;
    fn softlode_table_close(service: *mut Service, table: *const u8, length: usize, volunteer: u32) -> Told<Answer>;
    fn softlode_rota_ask(service: *mut Service, rota: *const u8, length: usize, volunteer: u32, right: u32) -> Told<Answer>;
    fn softlode_table_ask(service: *mut Service, table: *const u8, length: usize, volunteer: u32, right: u32) -> Told<Answer>;
    safe fn softlode_date(minute: u32) -> Told<DateTime>;
    safe fn softlode_minute(year: u32, month: u32, day: u32, hour: u32, minute: u32) -> Told<u32>;
}

pub fn version() -> u32 {
    softlode_version()
}

pub fn rota_read(rota: &[u8]) -> Told<RotaCounts> {
    // SAFETY: the bytes are lent for the time of the call.
    unsafe { softlode_rota_read(rota.as_ptr(), rota.len()) }
}

pub fn table_read(table: &[u8]) -> Told<TableCounts> {
    // SAFETY: the bytes are lent for the time of the call.
    unsafe { softlode_table_read(table.as_ptr(), table.len()) }
}

pub fn tidy(rota: &[u8], area: &mut [u8]) -> TidiedTold {
    // SAFETY: the bytes and the area are lent for the time of the call, the area exclusively.
    unsafe { softlode_rota_tidy(rota.as_ptr(), rota.len(), area.as_mut_ptr(), area.len()) }
}

pub fn rewrite(rota: &[u8], area: &mut [u8]) -> WrittenTold {
    // SAFETY: the bytes and the area are lent for the time of the call, the area exclusively.
    unsafe { softlode_rewrite(rota.as_ptr(), rota.len(), area.as_mut_ptr(), area.len()) }
}

pub fn rewrite_size(rota: &[u8]) -> WrittenTold {
    // SAFETY: the bytes are lent for the time of the call.
    unsafe { softlode_rewrite_size(rota.as_ptr(), rota.len()) }
}

/// The one of two functions that is for what is lent, and the bytes.
fn choose<'a, F>(lent: Lent<'a>, for_rota: F, for_table: F) -> (F, &'a [u8]) {
    match lent {
        Lent::Rota(bytes) => (for_rota, bytes),
        Lent::Table(bytes) => (for_table, bytes),
    }
}

pub fn question(lent: Lent, volunteer: u32, right: u32, minute: u32) -> Told<Answer> {
    let (function, bytes) = choose::<Single>(lent, softlode_rota_question, softlode_table_question);
    // SAFETY: the bytes are lent for the time of the call.
    unsafe { function(bytes.as_ptr(), bytes.len(), volunteer, right, minute) }
}

pub fn page(lent: Lent, questions: &mut [Question]) -> u32 {
    let (function, bytes) = choose::<Page>(lent, softlode_rota_page, softlode_table_page);
    // SAFETY: the bytes and the questions are lent for the time of the call, the questions
    // exclusively.
    unsafe { function(questions.as_mut_ptr(), questions.len(), bytes.as_ptr(), bytes.len()) }
}

pub fn table_next(table: &[u8], volunteer: u32, right: u32, minute: u32) -> Told<NextUse> {
    // SAFETY: the bytes are lent for the time of the call.
    unsafe { softlode_table_next(table.as_ptr(), table.len(), volunteer, right, minute) }
}

pub fn table_board(table: &[u8], minute: u32) -> BoardTold {
    // SAFETY: the bytes are lent for the time of the call.
    unsafe { softlode_table_board(table.as_ptr(), table.len(), minute) }
}

fn call(service: &mut Service, lent: Lent, rota: Call, table: Call, number: u32) -> Told<Answer> {
    let (function, bytes) = choose(lent, rota, table);
    // SAFETY: the bytes and the record are lent for the time of the call, the record exclusively;
    // a `Call` is one of the functions above.
    unsafe { function(service, bytes.as_ptr(), bytes.len(), number) }
}

pub fn advance(service: &mut Service, lent: Lent, minute: u32) -> Told<Answer> {
    call(service, lent, softlode_rota_advance, softlode_table_advance, minute)
}

pub fn open(service: &mut Service, lent: Lent, volunteer: u32) -> Told<Answer> {
    call(service, lent, softlode_rota_open, softlode_table_open, volunteer)
}

pub fn close(service: &mut Service, lent: Lent, volunteer: u32) -> Told<Answer> {
    call(service, lent, softlode_rota_close, softlode_table_close, volunteer)
}

pub fn ask(service: &mut Service, lent: Lent, volunteer: u32, right: u32) -> Told<Answer> {
    let (function, bytes) = choose::<Ask>(lent, softlode_rota_ask, softlode_table_ask);
    // SAFETY: the bytes and the record are lent for the time of the call, the record exclusively.
    unsafe { function(service, bytes.as_ptr(), bytes.len(), volunteer, right) }
}

pub fn date(minute: u32) -> Told<DateTime> {
    softlode_date(minute)
}

pub fn minute(year: u32, month: u32, day: u32, hour: u32, minute: u32) -> Told<u32> {
    softlode_minute(year, month, day, hour, minute)
}

#[cfg(test)]
mod tests {
    use super::*;
    use crate::Place;
    use std::mem::{align_of, offset_of, size_of};
    use std::ptr::{null, null_mut};

    /// hosts/host.c asserts the same numbers of the header's structs.
    #[test]
    fn layouts() {
        assert_eq!(size_of::<Told<RotaCounts>>(), 36);
        assert_eq!(size_of::<Told<TableCounts>>(), 28);
        assert_eq!(size_of::<Told<Answer>>(), 12);
        assert_eq!(size_of::<Told<NextUse>>(), 12);
        assert_eq!(size_of::<Told<DateTime>>(), 28);
        assert_eq!(size_of::<Told<u32>>(), 8);
        assert_eq!(offset_of!(Told<Answer>, values), 4);
        assert_eq!((size_of::<TidiedTold>(), offset_of!(TidiedTold, length)), (16, 8));
        assert_eq!((size_of::<WrittenTold>(), offset_of!(WrittenTold, length)), (24, 16));
        assert_eq!((size_of::<BoardTold>(), offset_of!(BoardTold, rights)), (520, 8));
        assert_eq!((size_of::<Place>(), size_of::<Question>()), (12, 24));
        assert_eq!((align_of::<Question>(), offset_of!(Question, answer)), (4, 12));
        assert_eq!((size_of::<Service>(), offset_of!(Service, open)), (16, 8));
        assert_eq!(align_of::<Service>(), 8);
    }

    /// A null pointer with length 0 is an empty input, or an area of no bytes.
    #[test]
    fn null_with_length_0() {
        let small = include_bytes!("../../../data/small.rota");
        let mut service = Service { now: 3, open: 1 };
        let told = |told: Told<Answer>| told.done().map_err(Refusal::number);
        // SAFETY: no byte is lent but those of `small` and the record.
        unsafe {
            assert_eq!(softlode_rota_read(null(), 0).refusal, 1);
            assert_eq!(softlode_table_read(null(), 0).refusal, 21);
            assert_eq!(softlode_rota_tidy(null(), 0, null_mut(), 0).refusal, 1);
            assert_eq!(softlode_rota_tidy(small.as_ptr(), small.len(), null_mut(), 0).refusal, 20);
            assert_eq!(softlode_rewrite(null(), 0, null_mut(), 0).refusal, 1);
            assert_eq!(softlode_rewrite(small.as_ptr(), small.len(), null_mut(), 0).refusal, 20);
            assert_eq!(softlode_rewrite_size(null(), 0).refusal, 1);
            for question in [softlode_rota_question as Single, softlode_table_question] {
                assert!(matches!(told(question(null(), 0, 0, 0, 0)), Err(1 | 21)));
            }
            let mut one = Question::new(0, 0, 3);
            for (page, bad) in [(softlode_rota_page as Page, 1), (softlode_table_page, 21)] {
                assert_eq!(page(null_mut(), 0, null(), 0), bad);
                assert_eq!(page(&mut one, 1, null(), 0), bad);
            }
            assert_eq!(one, Question::new(0, 0, 3));
            assert_eq!(softlode_rota_page(null_mut(), 0, small.as_ptr(), small.len()), 0);
            // More than 256 by the count alone: nothing is looked at.
            assert_eq!(softlode_rota_page(null_mut(), 257, null(), 0), 51);
            assert_eq!(softlode_table_page(null_mut(), usize::MAX, null(), 0), 51);
            assert_eq!(softlode_table_next(null(), 0, 0, 0, 0).refusal, 21);
            assert_eq!(softlode_table_board(null(), 0, 0).refusal, 21);
            for ask in [softlode_rota_ask as Ask, softlode_table_ask] {
                assert!(matches!(told(ask(&mut service, null(), 0, 0, 0)), Err(1 | 21)));
            }
            let calls: [Call; 6] = [
                softlode_rota_advance,
                softlode_rota_open,
                softlode_rota_close,
                softlode_table_advance,
                softlode_table_open,
                softlode_table_close,
            ];
            for (i, call) in calls.into_iter().enumerate() {
                let expected = if i < 3 { 1 } else { 21 };
                assert_eq!(told(call(&mut service, null(), 0, 0)), Err(expected));
            }
        }
        assert_eq!(service, Service { now: 3, open: 1 });
    }
}
