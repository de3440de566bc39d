//! What the reference gives, in the form of the C functions.

use reference::calendar;
use reference::hours::Hours;

use crate::ffi::{Date, Found, Held, HoursJudged, Minute};

#[cfg(feature = "rewriting")]
pub mod rewriting;
#[cfg(feature = "rota")]
pub mod rota;
#[cfg(feature = "service")]
pub mod service;
#[cfg(feature = "table")]
pub mod table;
#[cfg(feature = "rewriting")]
pub mod tidying;

/// Where a number of `width` bytes at `at` lies within `len` bytes, and the width is one of ours.
fn place(len: usize, at: usize, width: u32) -> Option<std::ops::Range<usize>> {
    let end = at.checked_add(width as usize)?;
    (matches!(width, 2 | 4 | 8) && end <= len).then_some(at..end)
}

pub fn get(bytes: &[u8], at: usize, width: u32) -> Found {
    match place(bytes.len(), at, width) {
        None => Found { found: 0, value: 0 },
        Some(place) => {
            let value =
                bytes[place].iter().rev().fold(0, |high, &byte| high << 8 | u64::from(byte));
            Found { found: 1, value }
        }
    }
}

pub fn put(bytes: &mut [u8], at: usize, width: u32, value: u64) -> u32 {
    let fits = width >= 8 || value >> (8 * width) == 0;
    match place(bytes.len(), at, width) {
        Some(place) if fits => {
            for (i, byte) in bytes[place].iter_mut().enumerate() {
                *byte = (value >> (8 * i)) as u8;
            }
            1
        }
        _ => 0,
    }
}

pub fn hours_judge(bytes: &[u8], at: usize, cycle: u32, total: u32) -> HoursJudged {
    match Hours::parse(bytes, at, cycle, total) {
        Ok(hours) => HoursJudged { refusal: 0, pairs: hours.pairs.len() as u32 },
        Err(refusal) => HoursJudged { refusal, pairs: 0 },
    }
}

pub fn hours_hold(bytes: &[u8], cycle: u32, t: u32) -> Held {
    match Hours::parse(bytes, 0, cycle, 0) {
        Ok(hours) => Held { refusal: 0, holds: hours.hold(cycle, t).into() },
        Err(refusal) => Held { refusal, holds: 0 },
    }
}

pub fn date(minute: u32) -> Date {
    match calendar::date(minute) {
        Ok(date) => Date {
            refusal: 0,
            year: date.year,
            month: date.month,
            day: date.day,
            weekday: date.weekday,
            hour: date.hour,
            minute: date.minute,
        },
        Err(refusal) => Date { refusal, year: 0, month: 0, day: 0, weekday: 0, hour: 0, minute: 0 },
    }
}

pub fn minute(year: u32, month: u32, day: u32, hour: u32, minute: u32) -> Minute {
    match calendar::minute(year, month, day, hour, minute) {
        Ok(minute) => Minute { refusal: 0, minute },
        Err(refusal) => Minute { refusal, minute: 0 },
    }
}
