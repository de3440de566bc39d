//! A week for a terminal: for each right a line of blocks, and its times. What is no terminal gets
//! the times alone.

use super::model::{Section, Turn};
use super::times::{by_time, day, who};
use super::{Report, differences, width};
use crate::names::Kind;
use crate::when::{DAY, HOUR, date};
use crate::words::counted;

/// How a line of blocks is drawn.
pub struct Look {
    /// The columns of the terminal.
    pub width: usize,
    /// For nobody, for somebody in a part of it, and all the time.
    pub blocks: [char; 3],
}

impl Look {
    /// As the terminal is, by the environment. Where no locale says UTF-8, plain characters do.
    pub fn here() -> Look {
        let set = |name: &&str| std::env::var(name).ok().filter(|value| !value.is_empty());
        let locale = ["LC_ALL", "LC_CTYPE", "LANG"].iter().find_map(set).unwrap_or_default();
        let locale = locale.to_lowercase();
        let is_utf_8 = locale.contains("utf-8") || locale.contains("utf8");
        Look {
            width: width::columns(),
            blocks: if is_utf_8 { ['·', '▒', '█'] } else { ['.', '+', '#'] },
        }
    }
}

/// A line of blocks: the part of a turn that it shows, and of how many minutes each character is.
struct Lines {
    parts: Vec<Turn>,
    cell: u32,
    /// After how many minutes a bar stands.
    bar: u32,
}

/// How far lines and blocks stand from the left.
const INDENT: usize = 2;

impl Lines {
    fn of(report: &Report, width: usize) -> Lines {
        let turn = report.week.turn;
        let room = width.saturating_sub(INDENT);
        if !report.week.cycle.is_of_days() {
            let room = room.saturating_sub(2).clamp(1, DAY as usize) as u32;
            return Lines {
                parts: vec![turn],
                cell: turn.length().div_ceil(room),
                bar: turn.length(),
            };
        }
        const WEEK: u32 = 7;
        let days = turn.length() / DAY;
        let of_line = days.min(WEEK);
        let part = |line: u32| {
            let begin = turn.begin + line * WEEK * DAY;
            Turn { begin, end: (begin + WEEK * DAY).min(turn.end) }
        };
        // Whole hours, or parts of an hour: as many characters a day as there is room for.
        let fits = |&characters: &u32| of_line as usize * (characters as usize + 1) < room;
        let a_day = [144, 96, 72, 48, 24, 12, 8, 6, 4, 3, 2].into_iter().find(fits).unwrap_or(1);
        Lines { parts: (0..days.div_ceil(WEEK)).map(part).collect(), cell: DAY / a_day, bar: DAY }
    }

    /// A line of characters, one for each cell, with a bar before the first, after the last and
    /// between days.
    fn line(&self, part: Turn, character: impl Fn(u32, u32) -> char) -> String {
        let mut line = String::from("|");
        let mut at = part.begin;
        while at < part.end {
            let bar = (at - part.begin) / self.bar * self.bar + part.begin + self.bar;
            let end = (at + self.cell).min(bar).min(part.end);
            line.push(character(at, end));
            if end == bar || end == part.end {
                line.push('|');
            }
            at = end;
        }
        line
    }

    /// What stands over a line: its days, or when it begins.
    fn label(&self, part: Turn) -> String {
        if self.bar != DAY {
            return format!(" {}", date(part.begin));
        }
        let room = (DAY / self.cell) as usize;
        let mut line = String::new();
        for minute in (part.begin..part.end).step_by(DAY as usize) {
            let day = day(minute);
            // The weekday, with as much of the date as there is room for.
            let dated = |from: usize| format!("{} {}", &day[..3], &day[from..]);
            let words = [day.clone(), dated(9), dated(12), day[..3].into()];
            let fitting = words.into_iter().find(|words| words.len() <= room);
            line += &format!(" {:room$}", fitting.unwrap_or_else(|| day[..room.min(1)].into()));
        }
        line.trim_end().to_string()
    }

    fn print(&self, report: &Report, section: &Section, look: &Look) -> String {
        let mut text = String::new();
        for &part in &self.parts {
            let covered = self.line(part, |begin, end| {
                let minutes: u32 = section.runs.iter().map(|run| run.within(begin, end)).sum();
                look.blocks[usize::from(minutes > 0) + usize::from(minutes == end - begin)]
            });
            let marks = self.line(part, |begin, end| {
                let [before, after] = [0, 1].map(|which| {
                    let Some(against) = &section.against[which] else { return false };
                    let there = against.there_in(report.week.turn);
                    let mut all = against.here.iter().copied().chain(there);
                    all.any(|run| run.within(begin, end) > 0)
                });
                match (before, after) {
                    (false, false) => ' ',
                    (true, false) => '<',
                    (false, true) => '>',
                    (true, true) => 'x',
                }
            });
            for line in [self.label(part), covered, marks.replace('|', " ")] {
                if !line.trim().is_empty() {
                    text += &format!("{:INDENT$}{}\n", "", line.trim_end());
                }
            }
        }
        text
    }

    fn legend(&self, report: &Report, look: &Look) -> String {
        let cell = match self.cell {
            minutes if minutes % HOUR == 0 => counted(minutes / HOUR, "hour"),
            minutes => counted(minutes, "minute"),
        };
        let [nobody, part, all] = look.blocks;
        let [before, after] = [0, 1].map(|which| report.beside(which));
        format!(
            "A character is {cell}: {all} somebody all the time, {part} for a part of it, {nobody} \
             nobody. Below: < otherwise in {before}, > in {after}, x in both."
        )
    }
}

/// A line that is broken at blanks where it is too long; what follows stands farther in.
fn wrapped(indent: usize, line: &str, look: Option<&Look>) -> String {
    const FARTHER: usize = 4;
    let Some(look) = look else { return format!("{:indent$}{line}\n", "") };
    let (mut text, mut column) = (String::new(), 0);
    for word in line.split(' ') {
        let length = word.chars().count();
        if column > 0 && column + 1 + length > look.width {
            text.push('\n');
            column = 0;
        }
        let before = match (column, text.is_empty()) {
            (0, true) => indent,
            (0, false) => indent + FARTHER,
            _ => 1,
        };
        text += &format!("{:before$}{word}", "");
        column += before + length;
    }
    text.push('\n');
    text
}

/// The week as text; in blocks too where it is looked at on a terminal.
pub fn print(report: &Report, look: Option<&Look>) -> String {
    let lines = look.map(|look| (Lines::of(report, look.width), look));
    let kinds = [Kind::Right];
    let sections: Vec<Section> = [Kind::Right, Kind::Volunteer]
        .into_iter()
        .flat_map(|kind| report.sections(kind, &kinds))
        .collect();
    let mut text =
        wrapped(0, &format!("The {}, by {}{}", report.title(), report.source, report.by), look);
    for remark in report.remarks() {
        text += &wrapped(0, &remark, look);
    }
    for which in [0, 1] {
        let differing = sections.iter().filter(|section| section.differs(which));
        let differing: Vec<String> = differing.map(|section| report.name(section)).collect();
        text += &wrapped(0, &report.compared(which, sections.first(), differing.join(", ")), look);
    }
    if let Some((lines, look)) = &lines {
        text += &wrapped(0, &lines.legend(report, look), Some(look));
    }
    for section in &sections {
        text += &format!("\n{}\n", report.name(section));
        if let Some((lines, look)) = &lines {
            text += &lines.print(report, section, look);
        }
        text += &times(report, section, look);
    }
    text
}

/// The times of a section, and then what differs.
fn times(report: &Report, section: &Section, look: Option<&Look>) -> String {
    let (cycle, others) = (report.week.cycle, section.others());
    let line = |(times, set): (super::times::Times, u64)| {
        let shown = |number| report.names.shown(others, number);
        format!("{}: {}", times.words(cycle), who(&report.names, others, set, shown))
    };
    let mut text = String::new();
    if section.runs.is_empty() {
        let nobody = if section.kind == Kind::Right { "nobody" } else { "nothing" };
        text += &wrapped(INDENT, &format!("{nobody} in this {}", report.unit()), look);
    }
    for times in by_time(&section.runs, cycle) {
        text += &wrapped(INDENT, &line(times), look);
    }
    for (name, runs) in differences(report, section) {
        for times in by_time(runs, cycle) {
            text += &wrapped(INDENT, &format!("{name}: {}", line(times)), look);
        }
    }
    text
}
