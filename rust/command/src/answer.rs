//! ask, next, board and list: what the library answers, in words.

use std::io::Write;

use softlode::Table;

use crate::args::Call;
use crate::names::{Kind, Names};
use crate::parts::low_first;
use crate::progress::Progress;
use crate::run::{Failure, Io, Status};
use crate::subject::{Judged, Subject, number};
use crate::when::{Cycle, date, read_when, span};
use crate::words::counted;

/// The minute that the arguments from this one on name.
pub fn minute_of(call: &Call, first: usize) -> Result<u32, Failure> {
    let words: Vec<String> = (first..call.arguments.len()).map(|i| call.text(i)).collect();
    let words: Vec<&str> = words.iter().map(String::as_str).collect();
    read_when(&words).map_err(Failure::Wrong)
}

/// A question about a volunteer, a right and a minute, to a rota or a table.
struct Question<'a> {
    judged: Judged<'a>,
    names: Names,
    volunteer: u32,
    right: u32,
    minute: u32,
}

impl Question<'_> {
    fn of<'a>(subject: &'a Subject, call: &Call, io: &mut Io) -> Result<Question<'a>, Failure> {
        let minute = minute_of(call, 3)?;
        let judged = subject.judged()?;
        let names = subject.names(call, judged, io)?;
        let volunteer = number(&names, Kind::Volunteer, &call.text(1))?;
        let right = number(&names, Kind::Right, &call.text(2))?;
        Ok(Question { judged, names, volunteer, right, minute })
    }

    fn who(&self) -> String {
        self.names.shown(Kind::Volunteer, self.volunteer)
    }

    /// What the right lets do.
    fn what(&self) -> String {
        let is_named = self.names.get(Kind::Right, self.right).is_some();
        let verb = if is_named { "" } else { "use " };
        format!("{verb}{}", self.names.shown(Kind::Right, self.right))
    }
}

/// May a volunteer use a right at a minute?
pub fn ask(call: &Call, io: &mut Io) -> Result<Status, Failure> {
    let subject = Subject::read(call, io)?;
    let question = Question::of(&subject, call, io)?;
    let Question { judged, ref names, volunteer, right, minute } = question;
    let (who, what, when) = (question.who(), question.what(), date(minute));
    let line = match judged.lent().may(volunteer, right, minute)? {
        Some(role) => {
            let role = names.shown(Kind::Role, role);
            let role = role.strip_prefix("role ").unwrap_or(&role);
            format!("yes, by role {role}: {who} may {what} on {when}{}\n", judged.by())
        }
        None => format!("no: {who} may not {what} on {when}{}\n", judged.by()),
    };
    io.print(line)?;
    Ok(Status::Done)
}

/// When may a volunteer next use a right?
pub fn next(call: &Call, io: &mut Io) -> Result<Status, Failure> {
    let subject = Subject::read(call, io)?;
    let question = Question::of(&subject, call, io)?;
    let Question { judged, volunteer, right, minute, .. } = question;
    let table = judged.table(io)?;
    let next = Table::read(&table)?.next_use(volunteer, right, minute)?;
    let (who, what, from) = (question.who(), question.what(), date(minute));
    let line = match next.map(date) {
        Some(next) => format!("{next}: the first minute from {from} on at which {who} may {what}"),
        None => format!("none: {who} may not {what} from {from} to the end of 2400"),
    };
    io.print(format!("{line}{}\n", judged.by()))?;
    Ok(Status::Done)
}

/// What may everyone use at a minute?
pub fn board(call: &Call, io: &mut Io) -> Result<Status, Failure> {
    let minute = minute_of(call, 1)?;
    let subject = Subject::read(call, io)?;
    let judged = subject.judged()?;
    let names = subject.names(call, judged, io)?;
    let table = judged.table(io)?;
    let table = Table::read(&table)?;
    let board = table.board(minute)?;
    let volunteers = table.counts().volunteers;
    let mut text = format!("on {}{}:\n", date(minute), judged.by());
    let mut idle = 0;
    for volunteer in 0..volunteers {
        let set = board.rights_of(volunteer).fold(0, |set, right| set | 1 << right);
        if set == 0 {
            idle |= 1 << volunteer;
            continue;
        }
        let (who, what) =
            (names.shown(Kind::Volunteer, volunteer), names.shown_set(Kind::Right, set));
        text += &format!("{who} may use rights: {what}\n");
    }
    if idle != 0 {
        text += &format!("may use nothing: {}\n", names.shown_set(Kind::Volunteer, idle));
    }
    io.print(text)?;
    Ok(Status::Done)
}

/// A derived role of a table's bytes.
struct Entry {
    source: u8,
    volunteers: u64,
    rights: u64,
}

/// A row of a table's bytes.
pub(crate) struct Row {
    derived: u32,
    pub(crate) begin: u32,
    pub(crate) end: u32,
    pub(crate) offset: u16,
    pub(crate) length: u16,
}

/// The bytes of an accepted table, taken apart one by one.
pub(crate) struct Listed<'a> {
    entries: &'a [u8],
    rows: &'a [u8],
}

impl<'a> Listed<'a> {
    pub(crate) fn of(table: &Table<'a>) -> Listed<'a> {
        let (entries, rows) = table.bytes()[16..].split_at(17 * table.counts().derived as usize);
        Listed { entries, rows }
    }

    fn entries(&self) -> impl Iterator<Item = Entry> + use<'a> {
        self.entries.chunks_exact(17).map(|bytes| Entry {
            source: bytes[0],
            volunteers: low_first(&bytes[1..9]),
            rights: low_first(&bytes[9..17]),
        })
    }

    pub(crate) fn rows(&self) -> impl Iterator<Item = Row> + use<'a> {
        self.rows.chunks_exact(16).map(|bytes| Row {
            derived: low_first(&bytes[..4]) as u32,
            begin: low_first(&bytes[4..8]) as u32,
            end: low_first(&bytes[8..12]) as u32,
            offset: low_first(&bytes[12..14]) as u16,
            length: low_first(&bytes[14..]) as u16,
        })
    }
}

/// The table, whatever its size.
pub fn list(call: &Call, io: &mut Io) -> Result<Status, Failure> {
    let subject = Subject::read(call, io)?;
    let judged = subject.judged()?;
    let names = subject.names(call, judged, io)?;
    let bytes = judged.table(io)?;
    let table = Table::read(&bytes)?;
    let is_shown = io.complaints_are_terminal && !io.output_is_terminal;
    let _progress = Progress::begin(is_shown, "listing the table");
    if call.plain { list_plain(&table, io.output) } else { list_words(&table, &names, io.output) }
        .map_err(Failure::output)?;
    Ok(Status::Done)
}

/// As the proved listing program prints it.
fn list_plain(table: &Table, out: &mut dyn Write) -> std::io::Result<()> {
    let (counts, listed) = (table.counts(), Listed::of(table));
    writeln!(out, "table {} {} {}", counts.cycle, counts.derived, counts.rows)?;
    for (number, Entry { source, volunteers, rights }) in listed.entries().enumerate() {
        writeln!(out, "role {number} {source} {volunteers:016x} {rights:016x}")?;
    }
    for Row { derived, begin, end, offset, length } in listed.rows() {
        writeln!(out, "row {derived} {begin} {end} {offset} {length}")?;
    }
    Ok(())
}

/// Each derived role with its rows.
fn list_words(table: &Table, names: &Names, out: &mut dyn Write) -> std::io::Result<()> {
    let (counts, listed) = (table.counts(), Listed::of(table));
    let cycle = Cycle(counts.cycle);
    writeln!(
        out,
        "a table of cycle {}, {}, {}",
        cycle.words(),
        counted(counts.derived, "derived role"),
        counted(counts.rows, "row")
    )?;
    // The rows of each derived role, in their order.
    let mut rows: Vec<Row> = listed.rows().collect();
    rows.sort_by_key(|row| row.derived);
    let mut rows = rows.into_iter().peekable();
    for (number, entry) in (0..).zip(listed.entries()) {
        let source = names.shown(Kind::Role, entry.source.into());
        writeln!(out, "\nderived role {number}, of {source}")?;
        writeln!(out, "    volunteers: {}", names.shown_set(Kind::Volunteer, entry.volunteers))?;
        writeln!(out, "    rights: {}", names.shown_set(Kind::Right, entry.rights))?;
        let mut dates = None;
        while let Some(row) = rows.next_if(|row| row.derived == number) {
            if dates.replace((row.begin, row.end)) != Some((row.begin, row.end)) {
                writeln!(out, "    dates {}", span(row.begin, row.end))?;
            }
            let begin = u32::from(row.offset);
            writeln!(out, "        open {}", cycle.interval(begin, begin + u32::from(row.length)))?;
        }
    }
    Ok(())
}
