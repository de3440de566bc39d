//! The calendar: every day both ways, and every date or time that does not exist.

use cases::case::{Case, Tally, tallied};
use comparison::compare::calendar::{self, compare_date, compare_minute};
use comparison::ffi;
use reference::END;

const MINUTES_PER_DAY: u32 = 1_440;

#[test]
fn worked_dates() {
    let leap_day =
        ffi::Date { refusal: 0, year: 2004, month: 2, day: 29, weekday: 6, hour: 0, minute: 0 };
    assert_eq!(ffi::date(1_661_760), leap_day);
    assert_eq!(ffi::minute(2004, 2, 29, 0, 0), ffi::Minute { refusal: 0, minute: 1_661_760 });
    assert_eq!(ffi::minute(2001, 1, 1, 0, 0), ffi::Minute { refusal: 0, minute: 0 });
    let last = ffi::Minute { refusal: 0, minute: END - 1 };
    assert_eq!(ffi::minute(2400, 12, 31, 23, 59), last);
    assert_eq!((ffi::date(0).weekday, ffi::date(END - 1).weekday), (0, 6));
    assert_eq!(ffi::date(END).refusal, 33);
    assert_eq!(ffi::minute(2401, 1, 1, 0, 0), ffi::Minute { refusal: 50, minute: 0 });
}

#[test]
fn every_day_both_ways() {
    let mut tally = Tally::new("every_day_both_ways");
    let mut case = Case::new("every_day_both_ways", 0);
    for day in 0..END / MINUTES_PER_DAY {
        let any = case.random.below(MINUTES_PER_DAY);
        for in_day in [0, 1, 59, 60, 719, 720, 1_380, 1_439, any] {
            let minute = day * MINUTES_PER_DAY + in_day;
            compare_date(&case, &mut tally, minute);
            let date = ffi::date(minute);
            let back = ffi::minute(date.year, date.month, date.day, date.hour, date.minute);
            case.same(back, ffi::Minute { refusal: 0, minute }, &[], ("back from", date));
        }
    }
    tally.reached([0]);
}

#[test]
fn every_minute_of_some_days() {
    let mut tally = Tally::new("every_minute_of_some_days");
    let case = Case::new("every_minute_of_some_days", 0);
    // Days 0 and 1, the leap day of 2004, the end of February 2100, and the last two days.
    for day in [0, 1, 1_154, 36_217, 36_218, 146_095, 146_096] {
        for minute in day * MINUTES_PER_DAY..(day + 1) * MINUTES_PER_DAY {
            compare_date(&case, &mut tally, minute);
        }
    }
    tally.reached([0]);
}

/// Every month and day number of every year, whether the date exists or not.
#[test]
fn every_date_existing_or_not() {
    let mut tally = Tally::new("every_date_existing_or_not");
    let case = Case::new("every_date_existing_or_not", 0);
    for year in 1999..=2402 {
        for month in 0..=14 {
            for day in 0..=33 {
                compare_minute(&case, &mut tally, (year, month, day, 0, 0));
            }
        }
    }
    tally.reached([0, 50]);
}

#[test]
fn fields_at_and_over_their_limits() {
    let mut tally = Tally::new("fields_at_and_over_their_limits");
    let case = Case::new("fields_at_and_over_their_limits", 0);
    let over = [255, 256, 257, 65_535, 65_536, 1 << 31, u32::MAX - 1, u32::MAX];
    let with = |some: &[u32]| -> Vec<u32> { some.iter().chain(&over).copied().collect() };
    let years = with(&[0, 1, 2000, 2001, 2004, 2100, 2400, 2401, 2001 + 65_536]);
    let months = with(&[0, 1, 2, 4, 12, 13, 258]);
    let days = with(&[0, 1, 28, 29, 30, 31, 32, 285]);
    let hours = with(&[0, 1, 23, 24]);
    let minutes = with(&[0, 1, 59, 60]);
    for &year in &years {
        for &month in &months {
            for &day in &days {
                for &hour in &hours {
                    for &minute in &minutes {
                        compare_minute(&case, &mut tally, (year, month, day, hour, minute));
                    }
                }
            }
        }
    }
    tally.reached([0, 50]);
}

#[test]
fn minutes_over_the_last() {
    let mut tally = Tally::new("minutes_over_the_last");
    let case = Case::new("minutes_over_the_last", 0);
    for minute in (END - 5..END + 5).chain(u32::MAX - 5..=u32::MAX).chain([1 << 28, 1 << 31]) {
        compare_date(&case, &mut tally, minute);
    }
    for bit in 0..32 {
        compare_date(&case, &mut tally, 1 << bit);
        compare_date(&case, &mut tally, (1 << bit) - 1);
    }
    tally.reached([0, 33]);
}

#[test]
fn random_minutes_and_dates() {
    tallied("random_minutes_and_dates", 50_000, calendar::any).reached([0, 33, 50]);
}
