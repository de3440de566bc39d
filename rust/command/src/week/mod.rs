//! week: who may do what through a week, to be looked at. A cycle that is no week is shown by its
//! own length.

pub mod html;
pub mod model;
pub mod terminal;
pub mod times;
mod width;

use std::cmp::Ordering;
use std::time::{SystemTime, UNIX_EPOCH};

use softlode::{LAST_MINUTE, Table};

use crate::answer::minute_of;
use crate::args::Call;
use crate::files::{Pending, Source};
use crate::names::{Kind, Names};
use crate::parts::Parts;
use crate::progress::Progress;
use crate::run::{Failure, Io, Status};
use crate::subject::{Judged, Subject, number};
use crate::when::{Cycle, DAY, WEEK, date, read_when};
use crate::words::shown;
use model::{Cuts, Run, Section, Turn, Week};
use times::{date_of_end, day, listed};

/// Shows a week, or writes it as a page.
pub fn week(call: &Call, io: &mut Io) -> Result<Status, Failure> {
    let today = if call.arguments.len() == 1 { Some(today()?) } else { None };
    let minute = today.map_or_else(|| minute(call), Ok)?;
    softlode::date(minute)?;
    let subject = Subject::read(call, io)?;
    let judged = subject.judged()?;
    let names = subject.names(call, judged, io)?;
    let bytes = judged.table(io)?;
    let table = Table::read(&bytes)?;
    let cuts = match judged {
        Judged::Rota(rota) => Cuts::of_rota(&Parts::of(&rota)),
        Judged::Table(table) => Cuts::of_table(&table),
    };
    let progress = Progress::begin(io.complaints_are_terminal, "asking for the boards");
    let week = Week::of(&table, &cuts, minute)?;
    drop(progress);
    let chosen = chosen(call, &week, &names)?;
    let source = source(&subject.source);
    let report = Report { week, names, source, by: judged.by(), today, chosen };
    let Some(out) = &call.html else {
        let look = io.output_is_terminal.then(terminal::Look::here);
        io.print(terminal::print(&report, look.as_ref()))?;
        return Ok(Status::Done);
    };
    let page = html::page(&report);
    match Source::of(out) {
        Source::Standard => io.print(page)?,
        Source::File(path) => {
            Pending::write(&path, page.as_bytes())?.commit()?;
            io.print(format!("wrote {}: the {}\n", path.display(), report.title()))?;
        }
    }
    Ok(Status::Done)
}

/// The minute that the arguments name; a day alone is meant from its beginning.
fn minute(call: &Call) -> Result<u32, Failure> {
    let text = (1..call.arguments.len()).map(|i| call.text(i)).collect::<Vec<_>>().join(" ");
    let last = text.split_whitespace().next_back().unwrap_or("");
    let is_day = last.matches('-').count() == 2 && !last.contains(':');
    if is_day {
        return read_when(&[&text, "00:00"]).map_err(Failure::Wrong);
    }
    minute_of(call, 1)
}

/// The minute that it is by the computer's clock, in UTC.
fn today() -> Result<u32, Failure> {
    /// From 1970 to 2001, in minutes.
    const TO_2001: u64 = 16_305_120;
    let since_1970 = SystemTime::now().duration_since(UNIX_EPOCH).ok();
    let minute = since_1970.and_then(|time| (time.as_secs() / 60).checked_sub(TO_2001));
    let minute = minute.and_then(|minute| u32::try_from(minute).ok());
    minute.filter(|&minute| minute <= LAST_MINUTE).ok_or_else(|| {
        Failure::Wrong("this computer's clock is not in 2001 to 2400: name a date".into())
    })
}

/// The rights and volunteers that are to be shown alone.
fn chosen(call: &Call, week: &Week, names: &Names) -> Result<Option<Vec<(Kind, u32)>>, Failure> {
    let mut chosen = Vec::new();
    for (kind, wanted) in [(Kind::Right, &call.right), (Kind::Volunteer, &call.volunteer)] {
        let Some(wanted) = wanted else { continue };
        let number = number(names, kind, &wanted.to_string_lossy())?;
        if number >= week.count(kind) {
            let count = kind.counted(week.count(kind));
            return Err(Failure::Wrong(format!(
                "there is no {} {number}: there are {count}, from 0",
                kind.word()
            )));
        }
        chosen.push((kind, number));
    }
    Ok((!chosen.is_empty()).then_some(chosen))
}

/// What the file is called, without the folders that it is in.
fn source(source: &Source) -> String {
    match source {
        Source::Standard => source.shown(),
        Source::File(path) => {
            shown(&path.file_name().unwrap_or(path.as_os_str()).to_string_lossy())
        }
    }
}

/// A week with all that is said of it.
pub struct Report {
    pub week: Week,
    pub names: Names,
    /// What was read.
    pub source: String,
    /// What is added where a table gave the answers.
    pub by: &'static str,
    /// The minute that it was, where no date was named.
    pub today: Option<u32>,
    /// What is shown alone.
    pub chosen: Option<Vec<(Kind, u32)>>,
}

impl Report {
    /// What a turn of the cycle is called.
    pub fn unit(&self) -> &'static str {
        match self.week.cycle {
            Cycle(WEEK) => "week",
            Cycle(DAY) => "day",
            _ => "turn",
        }
    }

    /// `week from Mon 2024-02-26 to Sun 2024-03-03`.
    pub fn title(&self) -> String {
        match self.unit() {
            "day" => format!("day {}", day(self.week.turn.begin)),
            "week" => format!("week from {}", self.dates(self.week.turn)),
            _ => {
                let (cycle, dates) = (self.week.cycle.words(), self.dates(self.week.turn));
                format!("turn of the cycle of {cycle} from {dates}")
            }
        }
    }

    /// From when to when a turn is.
    fn dates(&self, turn: Turn) -> String {
        if self.week.cycle.is_of_days() {
            return format!("{} to {}", day(turn.begin), day(turn.end - 1));
        }
        format!("{} to before {}", date(turn.begin), date_of_end(turn.end))
    }

    /// All of a kind that are shown, of the kinds that are shown where none is chosen.
    pub fn sections(&self, kind: Kind, kinds: &[Kind]) -> Vec<Section> {
        let numbers: Vec<u32> = match &self.chosen {
            Some(chosen) => chosen.iter().filter(|one| one.0 == kind).map(|one| one.1).collect(),
            None if kinds.contains(&kind) => (0..self.week.count(kind)).collect(),
            None => Vec::new(),
        };
        numbers.into_iter().map(|number| self.week.section(kind, number)).collect()
    }

    pub fn name(&self, section: &Section) -> String {
        self.names.shown(section.kind, section.number)
    }

    /// What holds of the whole, sentence by sentence.
    pub fn remarks(&self) -> Vec<String> {
        let (unit, Week { cycle, turn, .. }) = (self.unit(), &self.week);
        let mut remarks = Vec::new();
        if let Some(minute) = self.today {
            remarks.push(format!(
                "No date was named: this is today's {unit}, by this computer's clock, on which it is \
                 {} in UTC.",
                day(minute)
            ));
        }
        if turn.length() < cycle.0 {
            remarks.push("It is cut off by the end of 2400.".into());
        }
        remarks.push(
            "Times are from a minute to before another, by the archive's clock, which keeps no \
             summer time."
                .into(),
        );
        let (before, within, after) = &self.week.changes;
        let dates = |minutes: &[u32]| {
            const MOST: usize = 8;
            let mut dates: Vec<String> = minutes.iter().take(MOST).map(|&at| date(at)).collect();
            if minutes.len() > MOST {
                dates.push(format!("{} more dates", minutes.len() - MOST));
            }
            listed(&dates)
        };
        let mut changes = vec![match within.as_slice() {
            [] => format!("No hours begin or end in this {unit}"),
            within => format!("Hours begin or end in this {unit} on {}", dates(within)),
        }];
        changes.extend(before.map(|at| format!("before it last on {}", dates(&[at]))));
        changes.extend(after.map(|at| format!("after it next on {}", dates(&[at]))));
        if changes.len() == 1 && within.is_empty() {
            changes = vec!["No hours begin or end on a date".into()];
        }
        remarks.push(changes.join("; ") + ".");
        remarks
    }

    /// How a turn beside is called: 0 is the one before, 1 the one after.
    pub fn beside(&self, which: usize) -> String {
        format!("the {} {}", self.unit(), ["before", "after"][which])
    }

    /// What differs from a turn beside, of which a section that is shown knows; and how far the two
    /// can be compared.
    pub fn compared(&self, which: usize, known: Option<&Section>, differing: String) -> String {
        let (unit, beside) = (self.unit(), self.beside(which));
        let Some(section) = known else {
            return format!("There is nothing to compare with {beside}.");
        };
        let Some(against) = &section.against[which] else {
            let ends = ["2001 begins", "2400 ends"][which];
            return format!(
                "There is no {unit} {}: {ends} with this one.",
                ["before", "after"][which]
            );
        };
        let [here, there] = [self.week.turn, against.turn].map(Turn::length);
        let so_far = match here.cmp(&there) {
            Ordering::Equal => "",
            Ordering::Less => " Only its beginning is compared: 2400 ends in this one.",
            Ordering::Greater => " Only the beginning is compared: 2400 ends in it.",
        };
        if differing.is_empty() {
            return format!("Nothing shown here is otherwise in {beside}.{so_far}");
        }
        format!("Otherwise in {beside}: {differing}.{so_far}")
    }
}

/// What differs in the turns beside, each list with what it is called: what is here alone, and what
/// is there alone.
pub fn differences<'a>(report: &Report, section: &'a Section) -> Vec<(String, &'a [Run])> {
    let mut all = Vec::new();
    for (which, against) in section.against.iter().enumerate() {
        let Some(against) = against else { continue };
        let beside = report.beside(which);
        for (name, runs) in
            [(format!("not {beside}"), &against.here), (format!("{beside} also"), &against.there)]
        {
            if !runs.is_empty() {
                all.push((name, runs.as_slice()));
            }
        }
    }
    all
}
