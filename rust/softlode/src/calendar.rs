//! Minutes as dates of the Gregorian calendar, without summer time.

use std::fmt;

use crate::{Refusal, ffi};

/// The last minute: 23:59 on Sunday 31 December 2400. Minute 0 is 00:00 on Monday 1 January 2001.
pub const LAST_MINUTE: u32 = 210_379_679;

/// A minute of the calendar, as [`date`] gives it. It prints as `Sun 2004-02-29 00:00`.
#[repr(C)]
#[derive(Clone, Copy, Debug, PartialEq, Eq, Hash)]
pub struct DateTime {
    /// 2001 to 2400.
    pub year: u32,
    /// 1 to 12.
    pub month: u32,
    /// 1 to 31.
    pub day: u32,
    /// 0 Monday to 6 Sunday.
    pub weekday: u32,
    /// 0 to 23.
    pub hour: u32,
    /// 0 to 59.
    pub minute: u32,
}

impl fmt::Display for DateTime {
    fn fmt(&self, f: &mut fmt::Formatter<'_>) -> fmt::Result {
        const WEEKDAYS: [&str; 7] = ["Mon", "Tue", "Wed", "Thu", "Fri", "Sat", "Sun"];
        // Another number than `date` gives is the caller's own.
        let weekday = WEEKDAYS.get(self.weekday as usize).unwrap_or(&"???");
        let DateTime { year, month, day, hour, minute, .. } = self;
        write!(f, "{weekday} {year:04}-{month:02}-{day:02} {hour:02}:{minute:02}")
    }
}

/// The date and time of a minute, or 33.
///
/// ```
/// use softlode::{LAST_MINUTE, Refusal, date};
///
/// assert_eq!(date(1_661_760)?.to_string(), "Sun 2004-02-29 00:00");
/// assert_eq!(date(LAST_MINUTE)?.to_string(), "Sun 2400-12-31 23:59");
/// assert_eq!(date(LAST_MINUTE + 1), Err(Refusal::NO_SUCH_MINUTE));
/// # Ok::<(), Refusal>(())
/// ```
pub fn date(minute: u32) -> Result<DateTime, Refusal> {
    ffi::date(minute).values()
}

/// The minute of a date and time, or 50.
///
/// ```
/// use softlode::{Refusal, minute};
///
/// assert_eq!(minute(2004, 2, 29, 0, 0), Ok(1_661_760));
/// assert_eq!(minute(2005, 2, 29, 0, 0), Err(Refusal::NO_SUCH_DATE));
/// ```
pub fn minute(year: u32, month: u32, day: u32, hour: u32, minute: u32) -> Result<u32, Refusal> {
    ffi::minute(year, month, day, hour, minute).values()
}
