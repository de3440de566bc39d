//! The calendar, both ways.

use cases::case::{Case, Tally};
use reference::END;

use crate::{expected, ffi};

pub fn compare_date(case: &Case, tally: &mut Tally, minute: u32) {
    let expected = expected::date(minute);
    tally.add(expected.refusal);
    case.same(ffi::date(minute), expected, &[], ("date of minute", minute));
}

/// Year, month, day, hour, minute.
pub type Fields = (u32, u32, u32, u32, u32);

pub fn compare_minute(case: &Case, tally: &mut Tally, fields: Fields) {
    let (year, month, day, hour, minute) = fields;
    let proved = ffi::minute(year, month, day, hour, minute);
    let expected = expected::minute(year, month, day, hour, minute);
    tally.add(expected.refusal);
    case.same(proved, expected, &[], ("minute of date", fields));
}

/// A minute, any number as a minute, and a date near those that exist.
pub fn any(case: &mut Case, tally: &mut Tally) {
    let minute = case.random.below(END);
    compare_date(case, tally, minute);
    let any = case.random.bits() as u32;
    compare_date(case, tally, any);
    let random = &mut case.random;
    let fields = (
        random.between(1_990, 2_410),
        random.between(0, 13),
        random.between(0, 32),
        random.between(0, 24),
        random.between(0, 60),
    );
    compare_minute(case, tally, fields);
}
