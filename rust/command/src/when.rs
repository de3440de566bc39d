//! Minutes in words: dates and weekdays, and positions in the cycle of a rota. The calendar is the
//! library's.

use softlode::LAST_MINUTE;

use crate::hint::did_you_mean;
use crate::words::{self, Complaint, Cursor, Word, counted, digits, shown};

pub const HOUR: u32 = 60;
pub const DAY: u32 = 24 * HOUR;
pub const WEEK: u32 = 7 * DAY;
/// The minute after the last.
pub const END: u32 = LAST_MINUTE + 1;
/// The longest cycle.
pub const LONGEST_CYCLE: u32 = 4 * WEEK;

pub const WEEKDAYS: [&str; 7] = ["Mon", "Tue", "Wed", "Thu", "Fri", "Sat", "Sun"];

/// Whether an interval begins at a minute, or ends before it. 24:00 ends a day, and begins none.
#[derive(Clone, Copy, Debug, PartialEq, Eq)]
pub enum Edge {
    Begin,
    End,
}

/// A minute as its date: `Sun 2024-03-03 14:00`.
pub fn date(minute: u32) -> String {
    match softlode::date(minute) {
        Ok(date) => date.to_string(),
        Err(_) => format!("minute {minute}"),
    }
}

/// From one date to before another: `from Mon 2001-01-01 00:00 to the end of 2400`.
pub fn span(begin: u32, end: u32) -> String {
    if end == END {
        return format!("from {} to the end of 2400", date(begin));
    }
    format!("from {} to before {}", date(begin), date(end))
}

/// The cycle of a rota, in minutes.
#[derive(Clone, Copy, Debug, PartialEq, Eq)]
pub struct Cycle(pub u32);

/// The units of a cycle, each with its minutes.
pub const UNITS: [(&str, u32); 4] = [("week", WEEK), ("day", DAY), ("hour", HOUR), ("minute", 1)];

/// How positions in a cycle are written.
#[derive(Clone, Copy, Debug, PartialEq, Eq)]
enum Shape {
    /// `Mon 09:00`, and `week 2 Mon 09:00` where there are more.
    Weeks(u32),
    /// `09:00`, and `day 3 09:00` where there are more.
    Days(u32),
    /// `minute 6`.
    Minutes,
}

impl Cycle {
    fn shape(self) -> Shape {
        if self.0 % WEEK == 0 {
            Shape::Weeks(self.0 / WEEK)
        } else if self.0 % DAY == 0 {
            Shape::Days(self.0 / DAY)
        } else {
            Shape::Minutes
        }
    }

    /// Whether the cycle is a whole number of days.
    pub fn is_of_days(self) -> bool {
        self.0 % DAY == 0
    }

    /// The cycle in its largest unit: `1 week`.
    pub fn words(self) -> String {
        let (unit, minutes) =
            UNITS.into_iter().find(|unit| self.0 % unit.1 == 0).unwrap_or(UNITS[3]);
        counted(self.0 / minutes, unit)
    }

    /// A position in the cycle. An end at midnight is 24:00 of the day before, so that the end of
    /// the cycle can be said.
    pub fn position(self, minute: u32, edge: Edge) -> String {
        let is_midnight_end = edge == Edge::End && minute > 0 && minute % DAY == 0;
        let (day, time) = if is_midnight_end {
            (minute / DAY - 1, "24:00".to_string())
        } else {
            (minute / DAY, format!("{:02}:{:02}", minute % DAY / HOUR, minute % HOUR))
        };
        let weekday = WEEKDAYS[day as usize % 7];
        match self.shape() {
            Shape::Weeks(1) => format!("{weekday} {time}"),
            Shape::Weeks(_) => format!("week {} {weekday} {time}", day / 7 + 1),
            Shape::Days(1) => time,
            Shape::Days(_) => format!("day {} {time}", day + 1),
            Shape::Minutes => format!("minute {minute}"),
        }
    }

    /// From one position to before another: `from Mon 09:00 to before Mon 18:00`.
    pub fn interval(self, begin: u32, end: u32) -> String {
        let (begin, end) = (self.position(begin, Edge::Begin), self.position(end, Edge::End));
        format!("from {begin} to before {end}")
    }

    /// How a position is written, for a hint.
    fn example(self) -> String {
        match self.shape() {
            Shape::Minutes => "minute 6".to_string(),
            Shape::Days(1) => "09:00, or minute 540".to_string(),
            Shape::Weeks(_) | Shape::Days(_) => {
                format!("{}, or minute {}", self.position(9 * HOUR, Edge::Begin), 9 * HOUR)
            }
        }
    }

    /// Reads a position.
    pub fn read(self, cursor: &mut Cursor, edge: Edge) -> Result<u32, Complaint> {
        let start = cursor.clone();
        if cursor.take("minute") {
            return cursor.number("the number of a minute");
        }
        let wrong = |cursor: &Cursor| {
            let here = cursor.expected("a position in the cycle");
            Complaint {
                what: format!("{}; it is written as {}", here.what, self.example()),
                ..here
            }
        };
        let counted_days = |cursor: &mut Cursor, unit: &str, count: u32| {
            if !cursor.take(unit) {
                return Err(wrong(cursor));
            }
            let here = cursor.clone();
            let number = cursor.number(format_args!("the number of the {unit}"))?;
            if !(1..=count).contains(&number) {
                let what =
                    format!("there is no {unit} {number}: the cycle has {}", counted(count, unit));
                return Err(here.here(format!("{what}, from 1")));
            }
            Ok(number - 1)
        };
        let day = match self.shape() {
            Shape::Minutes => return Err(wrong(&start)),
            Shape::Days(1) => 0,
            Shape::Days(count) => counted_days(cursor, "day", count)?,
            Shape::Weeks(count) => {
                let week = if count > 1 { counted_days(cursor, "week", count)? } else { 0 };
                let Some(weekday) = take_weekday(cursor)? else { return Err(wrong(cursor)) };
                7 * week + weekday
            }
        };
        let is_time =
            cursor.peek().is_some_and(|word| !word.is_quoted && looks_like_time(&word.text));
        if !is_time {
            return Err(wrong(cursor));
        }
        Ok(day * DAY + time(cursor, edge)?)
    }
}

/// Passes a weekday if one is there. A word that is nearly one is a complaint.
fn take_weekday(cursor: &mut Cursor) -> Result<Option<u32>, Complaint> {
    let Some(word) = cursor.peek().filter(|word| !word.is_quoted) else { return Ok(None) };
    if let Some(weekday) = WEEKDAYS.iter().position(|&weekday| weekday == word.text) {
        cursor.take(WEEKDAYS[weekday]);
        return Ok(Some(weekday as u32));
    }
    let begins =
        |weekday: &&&str| word.text.get(..3).is_some_and(|text| text.eq_ignore_ascii_case(weekday));
    match WEEKDAYS.iter().find(begins) {
        Some(weekday) => {
            let what = format!("{} is no weekday; did you mean {weekday}?", word.shown());
            Err(cursor.here(what))
        }
        None => Ok(None),
    }
}

fn looks_like_time(text: &str) -> bool {
    text.contains(':') && text.bytes().all(|byte| byte.is_ascii_digit() || byte == b':')
}

/// A time of day, as minutes from midnight: `09:00`, or `9:00`.
fn time(cursor: &mut Cursor, edge: Edge) -> Result<u32, Complaint> {
    let here = cursor.clone();
    let word = cursor.word("a time such as 09:00")?;
    minutes_of_day(word, edge).map_err(|what| here.here(what))
}

fn minutes_of_day(word: &Word, edge: Edge) -> Result<u32, String> {
    let text = shown(&word.text);
    let spelled = word.text.split_once(':').filter(|(hour, minute)| {
        !word.is_quoted && (1..=2).contains(&hour.len()) && minute.len() == 2
    });
    let numbers = spelled.and_then(|(hour, minute)| Some((digits(hour)?, digits(minute)?)));
    let Some((hour, minute)) = numbers else {
        return Err(format!("{text} is no time; a time is written as 09:00"));
    };
    match (hour, minute) {
        (0..24, 0..60) => Ok(hour * HOUR + minute),
        (24, 0) if edge == Edge::End => Ok(DAY),
        (24, 0) => Err("24:00 ends a day; what begins then begins at 00:00 of the next day".into()),
        (24.., _) => Err(format!(
            "{text} does not exist; the last time of a day is 23:59, and an end can be 24:00"
        )),
        _ => Err(format!("{text} does not exist; an hour has the minutes 00 to 59")),
    }
}

/// Reads a date and time, with or without its weekday, or `minute N`.
pub fn read_date(cursor: &mut Cursor, edge: Edge) -> Result<u32, Complaint> {
    if cursor.take("minute") {
        let here = cursor.clone();
        let minute = cursor.number("the number of a minute")?;
        let last = if edge == Edge::End { END } else { LAST_MINUTE };
        if minute > last {
            return Err(
                here.here(format!("there is no minute {minute}: the last is {last}, with 2400"))
            );
        }
        return Ok(minute);
    }
    let start = cursor.clone();
    let weekday = take_weekday(cursor)?;
    let here = cursor.clone();
    let word = cursor.word("a date such as 2024-03-01")?;
    let Some((year, month, day)) = year_month_day(word) else {
        let what = format!("{} is no date; a date is written as 2024-03-01", word.shown());
        let known = WEEKDAYS.into_iter().chain(["minute", "the", "before"]);
        return Err(here.here(what + &did_you_mean(&word.text, known)));
    };
    let of_day = time(cursor, edge)?;
    let text = &word.text;
    // The one minute after 2400 is an end.
    let midnight = match (year, month, day) {
        (2401, 1, 1) if edge == Edge::End && of_day == 0 => Ok(END),
        _ => softlode::minute(year, month, day, 0, 0),
    };
    let midnight = midnight.map_err(|_| {
        let is_in_range = (2001..=2400).contains(&year);
        let why = if is_in_range { "does not exist" } else { "is not in 2001 to 2400" };
        here.here(format!("{text} {why}"))
    })?;
    let true_weekday = (midnight / DAY % 7) as usize;
    if weekday.is_some_and(|weekday| weekday as usize != true_weekday) {
        let weekday = start.peek().map_or("", |word| &word.text);
        return Err(start.here(format!("{text} is a {}, not a {weekday}", WEEKDAYS[true_weekday])));
    }
    Ok(midnight + of_day)
}

fn year_month_day(word: &Word) -> Option<(u32, u32, u32)> {
    let parts: Vec<&str> = word.text.split('-').collect();
    let [year, month, day] = parts.as_slice() else { return None };
    let is_spelled = !word.is_quoted && (year.len(), month.len(), day.len()) == (4, 2, 2);
    is_spelled.then_some(())?;
    Some((digits(year)?, digits(month)?, digits(day)?))
}

/// The minute that arguments of a command line name: a number, or a date and time in one argument
/// or in several, with or without its weekday, a T between the two or not. A number is the library's
/// to judge, also one that is past 2400.
pub fn read_when(arguments: &[&str]) -> Result<u32, String> {
    let mut text = arguments.join(" ");
    let is_digit = |text: &str, at: usize| text.as_bytes().get(at).is_some_and(u8::is_ascii_digit);
    let mut marks = text.match_indices('T').map(|(at, _)| at);
    if let Some(at) = marks.find(|&at| at > 0 && is_digit(&text, at - 1) && is_digit(&text, at + 1))
    {
        text.replace_range(at..=at, " ");
    }
    let read = || {
        let line = words::line(1, &text)?;
        let mut cursor = Cursor::new(&line);
        let is_number = line.words.len() == 1 && digits(&text).is_some();
        let minute = if is_number || cursor.take("minute") {
            cursor.number("the number of a minute")?
        } else {
            read_date(&mut cursor, Edge::Begin)?
        };
        cursor.done()?;
        Ok(minute)
    };
    read().map_err(|complaint: Complaint| {
        let hint =
            "a minute is written as 2024-03-03 14:00, or as minutes from 2001-01-01 00:00 on";
        format!("{}; {hint}", complaint.what)
    })
}
