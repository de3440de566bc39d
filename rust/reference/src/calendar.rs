//! Minutes and Gregorian dates, by arithmetic on years that start in March:
//! with February last, the leap day falls at a year's end and months follow one formula.

use crate::{END, Refusal};

#[derive(Clone, Copy, Debug, PartialEq, Eq)]
pub struct Date {
    pub year: u32,
    pub month: u32,
    pub day: u32,
    /// 0 is Monday.
    pub weekday: u32,
    pub hour: u32,
    pub minute: u32,
}

const MINUTES_PER_DAY: u32 = 1_440;
/// Days in 400 years.
const DAYS_PER_PERIOD: u32 = 146_097;
/// Days from 1 March of year 0 to 1 January 2001.
const FIRST_DAY: u32 = 730_791;

pub fn is_leap(year: u32) -> bool {
    year.is_multiple_of(4) && (!year.is_multiple_of(100) || year.is_multiple_of(400))
}

fn days_in_month(year: u32, month: u32) -> u32 {
    match month {
        2 if is_leap(year) => 29,
        2 => 28,
        4 | 6 | 9 | 11 => 30,
        _ => 31,
    }
}

/// The date and time of a minute; 33 where there is no such minute.
pub fn date(minute: u32) -> Result<Date, Refusal> {
    if minute >= END {
        return Err(33);
    }
    let (day_number, in_day) = (minute / MINUTES_PER_DAY, minute % MINUTES_PER_DAY);
    let days = day_number + FIRST_DAY;
    let (period, in_period) = (days / DAYS_PER_PERIOD, days % DAYS_PER_PERIOD);
    // The year within the period: take out the leap days, then divide.
    let leap_days = in_period / 1_460 + in_period / 146_096 - in_period / 36_524;
    let year = (in_period - leap_days) / 365;
    let in_year = in_period - (365 * year + year / 4 - year / 100);
    // Five months from March on, and from August on, have 153 days.
    let from_march = (5 * in_year + 2) / 153;
    let day = in_year - (153 * from_march + 2) / 5 + 1;
    let month = if from_march < 10 { from_march + 3 } else { from_march - 9 };
    Ok(Date {
        year: 400 * period + year + u32::from(month <= 2),
        month,
        day,
        weekday: day_number % 7,
        hour: in_day / 60,
        minute: in_day % 60,
    })
}

/// The minute of a date and time; 50 where it does not exist or is not in 2001 to 2400.
pub fn minute(year: u32, month: u32, day: u32, hour: u32, minute: u32) -> Result<u32, Refusal> {
    let exists = (2001..=2400).contains(&year)
        && (1..=12).contains(&month)
        && (1..=days_in_month(year, month)).contains(&day)
        && hour < 24
        && minute < 60;
    if !exists {
        return Err(50);
    }
    let (march_year, from_march) =
        if month > 2 { (year, month - 3) } else { (year - 1, month + 9) };
    let (period, in_period) = (march_year / 400, march_year % 400);
    let days = DAYS_PER_PERIOD * period
        + (365 * in_period + in_period / 4 - in_period / 100)
        + (153 * from_march + 2) / 5
        + (day - 1);
    Ok((days - FIRST_DAY) * MINUTES_PER_DAY + 60 * hour + minute)
}

#[cfg(test)]
mod tests {
    use super::*;

    #[test]
    fn worked_dates() {
        assert_eq!(minute(2001, 1, 1, 0, 0), Ok(0));
        assert_eq!(date(0).unwrap().weekday, 0);
        assert_eq!(minute(2004, 2, 29, 0, 0), Ok(1_661_760));
        assert_eq!(date(1_661_760).unwrap().weekday, 6);
        assert_eq!(minute(2400, 12, 31, 23, 59), Ok(END - 1));
        assert_eq!(date(END - 1).unwrap().weekday, 6);
        assert_eq!(date(END), Err(33));
        assert_eq!(date(u32::MAX), Err(33));
    }

    /// Walks day by day with nothing but month lengths and the leap rule.
    #[test]
    fn every_day_of_400_years_both_ways() {
        let (mut year, mut month, mut day, mut weekday) = (2001, 1, 1, 0);
        for number in 0..END / MINUTES_PER_DAY {
            for (hour, in_hour) in [(0, 0), (0, 59), (1, 0), (12, 34), (23, 59)] {
                let at = number * MINUTES_PER_DAY + 60 * hour + in_hour;
                let expected = Date { year, month, day, weekday, hour, minute: in_hour };
                assert_eq!(date(at), Ok(expected));
                assert_eq!(minute(year, month, day, hour, in_hour), Ok(at));
            }
            weekday = if weekday == 6 { 0 } else { weekday + 1 };
            day += 1;
            if day > days_in_month(year, month) {
                assert_eq!(minute(year, month, day, 0, 0), Err(50));
                (month, day) = (month + 1, 1);
            }
            if month > 12 {
                (year, month) = (year + 1, 1);
            }
        }
        assert_eq!((year, month, day, weekday), (2401, 1, 1, 0));
    }

    #[test]
    fn leap_years() {
        assert!(is_leap(2004) && is_leap(2400));
        assert!(!is_leap(2001) && !is_leap(2100) && !is_leap(2200) && !is_leap(2300));
    }

    #[test]
    fn dates_that_do_not_exist() {
        let cases = [
            (2000, 12, 31, 23, 59),
            (2401, 1, 1, 0, 0),
            (0, 1, 1, 0, 0),
            (u32::MAX, 1, 1, 0, 0),
            (2001, 0, 1, 0, 0),
            (2001, 13, 1, 0, 0),
            (2001, 257, 1, 0, 0),
            (2001, 1, 0, 0, 0),
            (2001, 1, 32, 0, 0),
            (2001, 1, 257, 0, 0),
            (2001, 2, 29, 0, 0),
            (2100, 2, 29, 0, 0),
            (2004, 2, 30, 0, 0),
            (2001, 4, 31, 0, 0),
            (2001, 1, 1, 24, 0),
            (2001, 1, 1, 256, 0),
            (2001, 1, 1, 0, 60),
            (2001, 1, 1, 0, 256),
            (2001, 1, u32::MAX, u32::MAX, u32::MAX),
        ];
        for (year, month, day, hour, in_hour) in cases {
            assert_eq!(minute(year, month, day, hour, in_hour), Err(50));
        }
    }
}
