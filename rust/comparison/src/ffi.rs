//! The C functions of the proved code, and safe forms of them. Nothing else here is unsafe.
//! Bytes pass as a pointer and a length.

#![allow(unsafe_code)]

#[cfg(feature = "rewriting")]
pub mod rewriting;
#[cfg(feature = "rota")]
pub mod rota;
#[cfg(feature = "service")]
pub mod service;
#[cfg(feature = "table")]
pub mod table;
#[cfg(feature = "rewriting")]
pub mod tidying;

#[repr(C)]
#[derive(Clone, Copy, Debug, PartialEq, Eq)]
pub struct Found {
    pub found: u32,
    pub value: u64,
}

#[repr(C)]
#[derive(Clone, Copy, Debug, PartialEq, Eq)]
pub struct HoursJudged {
    pub refusal: u32,
    pub pairs: u32,
}

#[repr(C)]
#[derive(Clone, Copy, Debug, PartialEq, Eq)]
pub struct Held {
    pub refusal: u32,
    pub holds: u32,
}

#[repr(C)]
#[derive(Clone, Copy, Debug, PartialEq, Eq)]
pub struct Date {
    pub refusal: u32,
    pub year: u32,
    pub month: u32,
    pub day: u32,
    pub weekday: u32,
    pub hour: u32,
    pub minute: u32,
}

#[repr(C)]
#[derive(Clone, Copy, Debug, PartialEq, Eq)]
pub struct Minute {
    pub refusal: u32,
    pub minute: u32,
}

unsafe extern "C" {
    fn probe_get(s: *const u8, len: usize, at: usize, width: u32) -> Found;
    fn probe_put(d: *mut u8, len: usize, at: usize, width: u32, value: u64) -> u32;
    safe fn probe_set_has(set: u64, i: u32) -> u32;
    safe fn probe_set_with(set: u64, i: u32) -> u64;
    safe fn probe_set_without(set: u64, i: u32) -> u64;
    safe fn probe_set_union(a: u64, b: u64) -> u64;
    safe fn probe_set_difference(a: u64, b: u64) -> u64;
    safe fn probe_set_is_empty(a: u64) -> u32;
    safe fn probe_set_count(a: u64) -> u32;
    safe fn probe_set_count_lost(before: u64, after: u64) -> u32;
    fn probe_hours_judge(
        s: *const u8,
        len: usize,
        at: usize,
        cycle: u32,
        total: u32,
    ) -> HoursJudged;
    fn probe_hours_hold(s: *const u8, len: usize, cycle: u32, t: u32) -> Held;
    safe fn softlode_date(minute: u32) -> Date;
    safe fn softlode_minute(year: u32, month: u32, day: u32, hour: u32, minute: u32) -> Minute;
}

pub fn get(bytes: &[u8], at: usize, width: u32) -> Found {
    unsafe { probe_get(bytes.as_ptr(), bytes.len(), at, width) }
}

pub fn put(bytes: &mut [u8], at: usize, width: u32, value: u64) -> u32 {
    unsafe { probe_put(bytes.as_mut_ptr(), bytes.len(), at, width, value) }
}

pub fn set_has(set: u64, i: u32) -> u32 {
    probe_set_has(set, i)
}

pub fn set_with(set: u64, i: u32) -> u64 {
    probe_set_with(set, i)
}

pub fn set_without(set: u64, i: u32) -> u64 {
    probe_set_without(set, i)
}

pub fn set_union(a: u64, b: u64) -> u64 {
    probe_set_union(a, b)
}

pub fn set_difference(a: u64, b: u64) -> u64 {
    probe_set_difference(a, b)
}

pub fn set_is_empty(a: u64) -> u32 {
    probe_set_is_empty(a)
}

pub fn set_count(a: u64) -> u32 {
    probe_set_count(a)
}

pub fn set_count_lost(before: u64, after: u64) -> u32 {
    probe_set_count_lost(before, after)
}

pub fn hours_judge(bytes: &[u8], at: usize, cycle: u32, total: u32) -> HoursJudged {
    unsafe { probe_hours_judge(bytes.as_ptr(), bytes.len(), at, cycle, total) }
}

pub fn hours_hold(bytes: &[u8], cycle: u32, t: u32) -> Held {
    unsafe { probe_hours_hold(bytes.as_ptr(), bytes.len(), cycle, t) }
}

// The next two take nanoseconds, so that a call around the call would count in a benchmark.
#[inline]
pub fn date(minute: u32) -> Date {
    softlode_date(minute)
}

#[inline]
pub fn minute(year: u32, month: u32, day: u32, hour: u32, minute: u32) -> Minute {
    softlode_minute(year, month, day, hour, minute)
}
