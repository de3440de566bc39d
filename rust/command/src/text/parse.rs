//! Reads the text of a rota. Nothing has a default, and whatever is not known is a complaint.

use softlode::{Refusal, Rota};

use crate::hint::did_you_mean;
use crate::names::{Kind, Names, is_bare, name};
use crate::parts::{ALWAYS, Hours, Parts, Row};
use crate::place::{self, LIMITS, Part};
use crate::when::{self, Cycle, Edge, LONGEST_CYCLE, UNITS};
use crate::words::{self, Complaint, Cursor, Line, Word, counted};

/// A rota that was read from its text, and accepted by the library.
#[derive(Clone, Debug)]
pub struct Packed {
    pub bytes: Vec<u8>,
    pub names: Names,
}

/// Why a text is not packed.
#[derive(Clone, Debug, PartialEq, Eq)]
pub enum Unpacked {
    /// The text is at fault.
    Text(Complaint),
    /// The library refuses what it says: for what the text has at a line, where that can be told.
    Refused(Refusal, Option<(usize, String)>),
}

impl std::fmt::Display for Unpacked {
    fn fmt(&self, f: &mut std::fmt::Formatter<'_>) -> std::fmt::Result {
        match self {
            Unpacked::Text(complaint) => write!(f, "{complaint}"),
            Unpacked::Refused(refusal, None) => write!(f, "{refusal}"),
            Unpacked::Refused(refusal, Some((line, what))) => {
                write!(f, "line {line}: {refusal}\n  {what}")
            }
        }
    }
}

impl From<Complaint> for Unpacked {
    fn from(complaint: Complaint) -> Unpacked {
        Unpacked::Text(complaint)
    }
}

/// The lines of a text that say each part of the rota.
#[derive(Clone, Debug, Default)]
struct Lines {
    cycle: usize,
    /// The line of each record, and those of its intervals.
    hours: Vec<(usize, Vec<usize>)>,
    roles: Vec<usize>,
    volunteer_rows: Vec<usize>,
    right_rows: Vec<usize>,
}

impl Lines {
    /// The line of a part, and that of the one before it of its kind.
    fn of(&self, part: Part) -> Option<(usize, Option<usize>)> {
        let (lines, number) = match part {
            Part::Header | Part::File => return Some((self.cycle, None)),
            Part::Hours { record } => return Some((self.hours.get(record)?.0, None)),
            Part::Pair { record, pair } => (&self.hours.get(record)?.1, pair),
            Part::Role(number) => (&self.roles, number),
            Part::VolunteerRow(number) => (&self.volunteer_rows, number),
            Part::RightRow(number) => (&self.right_rows, number),
        };
        let before = number.checked_sub(1).and_then(|before| lines.get(before).copied());
        Some((*lines.get(number)?, before))
    }
}

/// The bytes and the names that a text says, judged by the library.
pub fn pack(text: &str) -> Result<Packed, Unpacked> {
    let (parts, names, lines) = parse(text)?;
    let bytes = parts.bytes();
    match Rota::read(&bytes) {
        Ok(_) => Ok(Packed { bytes, names }),
        Err(refusal) => {
            let fault = place::find(&bytes, refusal);
            let told = fault.and_then(|fault| {
                let (line, before) = lines.of(fault.part)?;
                let hint = match refusal {
                    Refusal::ROTA_ORDER => {
                        "; softlode tidy puts the rows of a rota of format 1 in order"
                    }
                    Refusal::HOURS_PAIR => "; open lines stand in order, with time between them",
                    _ => "",
                };
                let before = before.map_or(String::new(), |before| format!(" (line {before})"));
                Some((line, format!("{}{before}{hint}", fault.what)))
            });
            Err(Unpacked::Refused(refusal, told))
        }
    }
}

/// What a line refers to: a number or a name, and where it stands.
struct Reference<'a> {
    target: Target<'a>,
    line: usize,
    column: usize,
}

enum Target<'a> {
    Always,
    Number(u32),
    Name(&'a str),
}

/// A row whose references are not looked up yet.
struct RowWords<'a> {
    subject: Reference<'a>,
    role: Reference<'a>,
    hours: Reference<'a>,
}

/// What the lines have said so far. Names may be used before they are given, so references are
/// looked up when all lines are read.
#[derive(Default)]
struct Reader<'a> {
    format: Option<u16>,
    cycle: Option<u16>,
    hours: Vec<HoursWords>,
    volunteers: u32,
    rights: u32,
    roles: Vec<Reference<'a>>,
    volunteer_rows: Vec<RowWords<'a>>,
    right_rows: Vec<RowWords<'a>>,
    names: Names,
    lines: Lines,
    /// The line above belongs to an hours record, so that dates or intervals may follow.
    is_in_hours: bool,
}

/// An hours record whose dates may not have come yet.
#[derive(Default)]
struct HoursWords {
    dates: Option<(u32, u32)>,
    pairs: Vec<(u16, u16)>,
}

const STATEMENTS: [&str; 8] =
    ["rota", "cycle", "hours", "dates", "open", "volunteer", "right", "role"];

fn parse(text: &str) -> Result<(Parts, Names, Lines), Complaint> {
    let mut failed = None;
    let lines = words::lines(text)
        .map_while(|line| line.map_err(|complaint| failed = Some(complaint)).ok());
    let lines: Vec<Line> = lines.collect();
    let mut reader = Reader::default();
    for line in &lines {
        reader.statement(line)?;
    }
    if let Some(complaint) = failed {
        return Err(complaint);
    }
    reader.parts(text)
}

impl<'a> Reader<'a> {
    fn statement(&mut self, line: &'a Line<'a>) -> Result<(), Complaint> {
        let mut cursor = Cursor::new(line);
        let Some(first) = cursor.peek() else { return Ok(()) };
        // The format and the cycle come first, since they say how the rest is read.
        if self.format.is_none() && !cursor.is("rota") {
            let what = "a rota begins with the line rota format 1, or rota format 3";
            return Err(cursor.here(what));
        }
        if self.format.is_some() && self.cycle.is_none() && !cursor.is("cycle") {
            return Err(cursor.here("the second line is the cycle, such as cycle 1 week"));
        }
        let was_in_hours = std::mem::take(&mut self.is_in_hours);
        let statement = if first.is_quoted { "" } else { first.text.as_ref() };
        match statement {
            "rota" => self.rota_line(&mut cursor)?,
            "cycle" => self.cycle_line(&mut cursor, line.number)?,
            "hours" => self.hours_line(&mut cursor, line.number)?,
            "dates" | "open" if !was_in_hours => {
                return Err(
                    cursor.here(format!("a line of {statement} stands below its hours line"))
                );
            }
            "dates" => self.dates_line(&mut cursor)?,
            "open" => self.open_line(&mut cursor, line.number)?,
            "role" => self.role_line(&mut cursor, line)?,
            "volunteer" => self.person_or_right(Kind::Volunteer, &mut cursor, line)?,
            "right" => self.person_or_right(Kind::Right, &mut cursor, line)?,
            _ => self.named_row(&mut cursor, line, first)?,
        }
        cursor.done()
    }

    fn rota_line(&mut self, cursor: &mut Cursor) -> Result<(), Complaint> {
        if self.format.is_some() {
            return Err(cursor.here("the format is said already"));
        }
        cursor.expect(&["rota", "format"])?;
        let here = cursor.clone();
        match cursor.number("the format, 1 or 3,")? {
            format @ (1 | 3) => self.format = Some(format as u16),
            format => {
                return Err(here.here(format!("there is no rota of format {format}; it is 1 or 3")));
            }
        }
        Ok(())
    }

    fn cycle_line(&mut self, cursor: &mut Cursor, line: usize) -> Result<(), Complaint> {
        if self.cycle.is_some() {
            return Err(cursor.here("the cycle is said already"));
        }
        cursor.expect(&["cycle"])?;
        let here = cursor.clone();
        let count = cursor.number("the length of the cycle, such as 1 week,")?;
        let unit = cursor.clone();
        let word = cursor.word("minutes, hours, days or weeks")?;
        let known = |word: &Word| {
            let is = |unit: &str| {
                !word.is_quoted && word.text.strip_suffix('s').unwrap_or(&word.text) == unit
            };
            UNITS.into_iter().find(|&(unit, _)| is(unit))
        };
        let Some((_, minutes)) = known(word) else {
            let hint = did_you_mean(&word.text, UNITS.map(|(unit, _)| unit));
            return Err(unit.here(unit.expected("minutes, hours, days or weeks").what + &hint));
        };
        let length = u64::from(count) * u64::from(minutes);
        if !(1..=u64::from(LONGEST_CYCLE)).contains(&length) {
            return Err(here.here(format!(
                "a cycle has 1 to {LONGEST_CYCLE} minutes, which are 4 weeks, not {length}"
            )));
        }
        self.cycle = Some(length as u16);
        self.lines.cycle = line;
        Ok(())
    }

    /// The number of a declaration, which is the next of its kind.
    fn declared(
        &self,
        cursor: &mut Cursor,
        kind: Kind,
        next: u32,
        limit: u32,
    ) -> Result<u32, Complaint> {
        let here = cursor.clone();
        let number = cursor.number(format_args!("the number of the {}", kind.word()))?;
        if number != next {
            let why = match next {
                0 => "the numbers begin with 0".to_string(),
                _ => format!("{} {} is the last before it", kind.word(), next - 1),
            };
            return Err(
                here.here(format!("{} {next} comes next, not {number}: {why}", kind.word()))
            );
        }
        if number >= limit {
            return Err(here.here(format!("a rota has at most {}", kind.counted(limit))));
        }
        Ok(number)
    }

    /// A name, where one comes next that ends the line or stands before these words.
    fn named(
        &mut self,
        cursor: &mut Cursor<'a>,
        kind: Kind,
        number: u32,
        words: &[&str],
    ) -> Result<(), Complaint> {
        if cursor.peek().is_none() || words.iter().any(|word| cursor.is(word)) {
            return Ok(());
        }
        let here = cursor.clone();
        let name = name(cursor)?;
        self.names.give(kind, number, name).map_err(|what| here.here(what))
    }

    fn hours_line(&mut self, cursor: &mut Cursor<'a>, line: usize) -> Result<(), Complaint> {
        self.last_hours_are_whole()?;
        cursor.expect(&["hours"])?;
        let number = self.declared(cursor, Kind::Hours, self.hours.len() as u32, LIMITS.hours)?;
        self.named(cursor, Kind::Hours, number, &[])?;
        self.hours.push(HoursWords::default());
        self.lines.hours.push((line, Vec::new()));
        self.is_in_hours = true;
        Ok(())
    }

    /// Dates and an interval have come for the last hours record, if there is one.
    fn last_hours_are_whole(&self) -> Result<(), Complaint> {
        let (Some(hours), Some((line, _))) = (self.hours.last(), self.lines.hours.last()) else {
            return Ok(());
        };
        let missing = match hours {
            HoursWords { dates: None, .. } => {
                "dates line, such as dates from 2024-03-01 00:00 to the end of 2400"
            }
            HoursWords { pairs, .. } if pairs.is_empty() => "open line",
            _ => return Ok(()),
        };
        let what = format!("hours {} has no {missing}", self.hours.len() - 1);
        Err(Complaint { line: *line, column: 1, what })
    }

    fn dates_line(&mut self, cursor: &mut Cursor) -> Result<(), Complaint> {
        self.is_in_hours = true;
        let number = self.hours.len().saturating_sub(1);
        let Some(hours) = self.hours.last_mut() else { return Ok(()) };
        if hours.dates.is_some() {
            return Err(cursor.here(format!("hours {number} has its dates already")));
        }
        cursor.expect(&["dates", "from"])?;
        let begin = when::read_date(cursor, Edge::Begin)?;
        cursor.expect(&["to"])?;
        let mut here = cursor.clone();
        let end = if cursor.take("the") {
            cursor.expect(&["end", "of", "2400"])?;
            when::END
        } else if cursor.take("before") {
            here = cursor.clone();
            when::read_date(cursor, Edge::End)?
        } else {
            return Err(cursor.expected("before and a date, or the end of 2400,"));
        };
        if begin >= end {
            let (begin, end) = (when::date(begin), when::date(end));
            let what = format!("the dates end at {end}, not after they begin, at {begin}");
            return Err(here.here(what));
        }
        hours.dates = Some((begin, end));
        Ok(())
    }

    fn open_line(&mut self, cursor: &mut Cursor, line: usize) -> Result<(), Complaint> {
        self.is_in_hours = true;
        let cycle = Cycle(self.cycle.unwrap_or(1).into());
        let total: usize = self.hours.iter().map(|hours| hours.pairs.len()).sum();
        let Some(hours) = self.hours.last_mut() else { return Ok(()) };
        if hours.dates.is_none() {
            return Err(cursor.here("the dates line of hours comes before their open lines"));
        }
        if total >= LIMITS.pairs as usize {
            return Err(
                cursor.here(format!("a rota has at most {} open lines in all", LIMITS.pairs))
            );
        }
        cursor.expect(&["open", "from"])?;
        let start = cursor.clone();
        let begin = cycle.read(cursor, Edge::Begin)?;
        cursor.expect(&["to", "before"])?;
        let here = cursor.clone();
        let end = cycle.read(cursor, Edge::End)?;
        if begin >= cycle.0 || end > cycle.0 {
            let (place, minute) = if begin >= cycle.0 { (start, begin) } else { (here, end) };
            let what = format!(
                "minute {minute} is past the cycle, which has {}",
                counted(cycle.0, "minute")
            );
            return Err(place.here(what));
        }
        if begin >= end {
            let [last, first] =
                [cycle.position(cycle.0, Edge::End), cycle.position(0, Edge::Begin)];
            let what = format!(
                "it ends at {}, not after it begins, at {}",
                cycle.position(end, Edge::End),
                cycle.position(begin, Edge::Begin)
            );
            let hint = format!(
                "; across the end of the cycle stand two lines, to before {last} and from {first}"
            );
            return Err(here.here(what + &hint));
        }
        hours.pairs.push((begin as u16, (end - begin) as u16));
        let lines = self.lines.hours.last_mut();
        lines.map(|(_, intervals)| intervals.push(line));
        Ok(())
    }

    fn role_line(&mut self, cursor: &mut Cursor<'a>, line: &Line) -> Result<(), Complaint> {
        cursor.expect(&["role"])?;
        let number = self.declared(cursor, Kind::Role, self.roles.len() as u32, LIMITS.roles)?;
        self.named(cursor, Kind::Role, number, &["in", "always"])?;
        let hours = in_hours(cursor, line)?;
        self.roles.push(hours);
        self.lines.roles.push(line.number);
        Ok(())
    }

    /// A volunteer or a right, declared, or a row that begins with its number.
    fn person_or_right(
        &mut self,
        kind: Kind,
        cursor: &mut Cursor<'a>,
        line: &'a Line<'a>,
    ) -> Result<(), Complaint> {
        let start = cursor.clone();
        cursor.expect(&[kind.word()])?;
        let mut after = cursor.clone();
        let is_row = after.number("").is_ok() && (after.is("is") || after.is("to"));
        if is_row {
            *cursor = start;
            let subject = reference(cursor, kind, line)?;
            let verb = verb(kind);
            if !cursor.take(verb) {
                return Err(
                    cursor.expected(format_args!("a {} {verb} a role; {verb}", kind.word()))
                );
            }
            return self.row(kind, subject, cursor, line);
        }
        let (next, limit) = match kind {
            Kind::Volunteer => (self.volunteers, LIMITS.volunteers),
            _ => (self.rights, LIMITS.rights),
        };
        let number = self.declared(cursor, kind, next, limit)?;
        self.named(cursor, kind, number, &[])?;
        *(if kind == Kind::Volunteer { &mut self.volunteers } else { &mut self.rights }) += 1;
        Ok(())
    }

    /// A row that begins with a name.
    fn named_row(
        &mut self,
        cursor: &mut Cursor<'a>,
        line: &'a Line<'a>,
        first: &'a Word<'a>,
    ) -> Result<(), Complaint> {
        let mut after = cursor.clone();
        let _ = after.word("");
        let kind = match (after.is("is"), after.is("to")) {
            (true, _) => Kind::Volunteer,
            (_, true) => Kind::Right,
            _ if first.is_quoted || is_bare(&first.text) => {
                let hint = did_you_mean(&first.text, STATEMENTS);
                if hint.is_empty() {
                    return Err(
                        after.expected(format_args!("is or to after the name {}", first.shown()))
                    );
                }
                return Err(cursor.here(format!("unknown word {}{hint}", first.shown())));
            }
            _ => {
                let hint = did_you_mean(&first.text, STATEMENTS);
                return Err(cursor.here(format!("no line begins with {}{hint}", first.shown())));
            }
        };
        let subject = reference(cursor, kind, line)?;
        cursor.expect(&[verb(kind)])?;
        self.row(kind, subject, cursor, line)
    }

    fn row(
        &mut self,
        kind: Kind,
        subject: Reference<'a>,
        cursor: &mut Cursor<'a>,
        line: &'a Line<'a>,
    ) -> Result<(), Complaint> {
        let role = reference(cursor, Kind::Role, line)?;
        let hours = in_hours(cursor, line)?;
        let (rows, lines) = match kind {
            Kind::Volunteer => (&mut self.volunteer_rows, &mut self.lines.volunteer_rows),
            _ => (&mut self.right_rows, &mut self.lines.right_rows),
        };
        if rows.len() >= LIMITS.rows as usize {
            let what = format!("a rota has at most {} rows of a {}", LIMITS.rows, kind.word());
            return Err(cursor.at(1, what));
        }
        rows.push(RowWords { subject, role, hours });
        lines.push(line.number);
        Ok(())
    }

    /// Looks every reference up, when all is read.
    fn parts(self, text: &str) -> Result<(Parts, Names, Lines), Complaint> {
        let (Some(format), Some(cycle)) = (self.format, self.cycle) else {
            let missing = if self.format.is_none() { "rota format 1" } else { "cycle 1 week" };
            let line = text.lines().count().max(1);
            return Err(Complaint {
                line,
                column: 1,
                what: format!("a line such as {missing} is missing"),
            });
        };
        self.last_hours_are_whole()?;
        let counts =
            [self.hours.len() as u32, self.volunteers, self.rights, self.roles.len() as u32];
        let look_up = |reference: &Reference, kind: Kind| {
            let count = counts[kind as usize];
            let number = match reference.target {
                Target::Always => return Ok(ALWAYS),
                Target::Name(name) => self.names.number(kind, name),
                Target::Number(number) if number < count => Ok(number),
                Target::Number(number) => Err(format!(
                    "{} {number}: the text has {}",
                    kind.there_is_no(),
                    kind.counted(count)
                )),
            };
            let number = number.map_err(|what| Complaint {
                line: reference.line,
                column: reference.column,
                what,
            })?;
            Ok(number as u8)
        };
        let rows = |rows: &[RowWords], kind: Kind| {
            let row = |row: &RowWords| {
                Ok(Row {
                    number: look_up(&row.subject, kind)?,
                    role: look_up(&row.role, Kind::Role)?,
                    hours: look_up(&row.hours, Kind::Hours)?,
                })
            };
            rows.iter().map(row).collect::<Result<Vec<Row>, Complaint>>()
        };
        let hours = |hours: &HoursWords| {
            let (begin, end) = hours.dates.unwrap_or_default();
            Hours { begin, end, pairs: hours.pairs.clone() }
        };
        let parts = Parts {
            format,
            cycle,
            hours: self.hours.iter().map(hours).collect(),
            volunteers: self.volunteers as u8,
            rights: self.rights as u8,
            roles: self
                .roles
                .iter()
                .map(|hours| look_up(hours, Kind::Hours))
                .collect::<Result<_, _>>()?,
            volunteer_rows: rows(&self.volunteer_rows, Kind::Volunteer)?,
            right_rows: rows(&self.right_rows, Kind::Right)?,
        };
        Ok((parts, self.names, self.lines))
    }
}

/// A volunteer is something, and a right goes to it.
fn verb(kind: Kind) -> &'static str {
    if kind == Kind::Volunteer { "is" } else { "to" }
}

/// A name, or the kind's word and a number.
fn reference<'a>(
    cursor: &mut Cursor<'a>,
    kind: Kind,
    line: &Line,
) -> Result<Reference<'a>, Complaint> {
    let word = kind.word();
    let column = cursor.peek().map_or(line.end, |word| word.column);
    let target = if cursor.take(word) {
        Target::Number(cursor.number(format_args!("the number of the {word}"))?)
    } else if cursor.peek().is_none() {
        return Err(cursor.expected(format_args!("a name, or {word} and a number,")));
    } else {
        Target::Name(name(cursor)?)
    };
    Ok(Reference { target, line: line.number, column })
}

/// `always`, or `in` and hours.
fn in_hours<'a>(cursor: &mut Cursor<'a>, line: &Line) -> Result<Reference<'a>, Complaint> {
    let column = cursor.peek().map_or(line.end, |word| word.column);
    if cursor.take("always") {
        return Ok(Reference { target: Target::Always, line: line.number, column });
    }
    if !cursor.take("in") {
        return Err(cursor.expected("always, or in and hours,"));
    }
    reference(cursor, Kind::Hours, line)
}
