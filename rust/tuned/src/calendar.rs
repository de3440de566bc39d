//! Minutes and Gregorian dates. The years 2001 to 2400 are one whole period of the leap rule, so
//! the leap day is the last day of every fourth year, of every century but three, and of the whole.

use reference::calendar::Date;
use reference::{END, Refusal};

use crate::ensure;

const FIRST_YEAR: u32 = 2001;
const DAYS_PER_YEAR: u32 = 365;
const DAYS_PER_4_YEARS: u32 = 4 * DAYS_PER_YEAR + 1;
const DAYS_PER_CENTURY: u32 = 25 * DAYS_PER_4_YEARS - 1;

/// The days of a year before each month, and in all; of a year that is no leap year first.
const DAYS_BEFORE: [[u32; 13]; 2] = [
    [0, 31, 59, 90, 120, 151, 181, 212, 243, 273, 304, 334, 365],
    [0, 31, 60, 91, 121, 152, 182, 213, 244, 274, 305, 335, 366],
];

/// The months of the year that is that many years after 2001.
fn months(years: u32) -> &'static [u32; 13] {
    let year = years + 1;
    let each = |years| year.is_multiple_of(years);
    let is_leap = each(4) && (!each(100) || each(400));
    &DAYS_BEFORE[usize::from(is_leap)]
}

pub fn date(minute: u32) -> Result<Date, Refusal> {
    ensure(minute < END, 33)?;
    let (day, in_day) = (minute / 1_440, minute % 1_440);
    // The last day of the whole, and the last of four years, are beyond three centuries or years.
    let century = (day / DAYS_PER_CENTURY).min(3);
    let in_century = day - century * DAYS_PER_CENTURY;
    let (fours, in_fours) = (in_century / DAYS_PER_4_YEARS, in_century % DAYS_PER_4_YEARS);
    let one = (in_fours / DAYS_PER_YEAR).min(3);
    let in_year = in_fours - one * DAYS_PER_YEAR;
    let years = 100 * century + 4 * fours + one;
    let months = months(years);
    // No month has 32 days, so this is the month or the one before it.
    let guess = (in_year / 32) as usize;
    let month = guess + usize::from(months[guess + 1] <= in_year);
    Ok(Date {
        year: FIRST_YEAR + years,
        month: month as u32 + 1,
        day: in_year - months[month] + 1,
        weekday: day % 7,
        hour: in_day / 60,
        minute: in_day % 60,
    })
}

pub fn minute(year: u32, month: u32, day: u32, hour: u32, minute: u32) -> Result<u32, Refusal> {
    let years = year.wrapping_sub(FIRST_YEAR);
    ensure(years < 400 && (1..=12).contains(&month) && hour < 24 && minute < 60, 50)?;
    let months = months(years);
    let before = months[month as usize - 1];
    ensure(day > 0 && day <= months[month as usize] - before, 50)?;
    let days = years * DAYS_PER_YEAR + years / 4 - years / 100 + before + day - 1;
    Ok(days * 1_440 + hour * 60 + minute)
}
