//! A week as a page: one file, without network and without script, for a screen, a telephone, paper
//! and a screen reader. It is well-formed XML as well.

use std::collections::HashMap;

use super::model::{Run, Section, Turn};
use super::times::{self, Times, by_set, by_time, day};
use super::{Report, differences};
use crate::names::Kind;
use crate::when::{DAY, HOUR, WEEKDAYS, date};
use crate::words::counted;

/// Text as it stands in a page; characters that no page may have are spelled out.
fn escaped(text: &str) -> String {
    let mut out = String::with_capacity(text.len());
    for c in text.chars() {
        match c {
            '&' => out.push_str("&amp;"),
            '<' => out.push_str("&lt;"),
            '>' => out.push_str("&gt;"),
            '"' => out.push_str("&quot;"),
            '\'' => out.push_str("&#39;"),
            c if c.is_control() || is_no_character(c) => out.extend(c.escape_unicode()),
            c => out.push(c),
        }
    }
    out
}

fn is_no_character(c: char) -> bool {
    u32::from(c) & 0xfffe == 0xfffe || ('\u{fdd0}'..='\u{fdef}').contains(&c)
}

/// A volunteer or a right as a page shows it. A name that may be written from right to left does
/// not turn around what is beside it, and any other keeps its number beside its last word, unless
/// that is long.
fn shown(report: &Report, kind: Kind, number: u32) -> String {
    let whole = report.names.shown(kind, number);
    match report.names.get(kind, number) {
        Some(name) if name.chars().any(|c| c >= '\u{590}') => {
            format!("<bdi>{}</bdi> ({number})", escaped(name))
        }
        Some(name) => {
            let before = name.rfind(' ').map_or(0, |blank| blank + 1);
            let (first, last) = whole.split_at(before);
            match last.len() {
                0..=20 => format!("{}<span>{}</span>", escaped(first), escaped(last)),
                _ => escaped(&whole),
            }
        }
        None => escaped(&whole),
    }
}

/// All of a set.
fn who(report: &Report, kind: Kind, set: u64) -> String {
    times::who(&report.names, kind, set, |number| shown(report, kind, number))
}

/// How a set is called in a picture: A to Z, then AA, AB and so on.
fn key(mut number: usize) -> String {
    let mut letters = Vec::new();
    loop {
        letters.insert(0, char::from(b'A' + (number % 26) as u8));
        match (number / 26).checked_sub(1) {
            Some(rest) => number = rest,
            None => return letters.into_iter().collect(),
        }
    }
}

/// The tones, from the least number of members on that each is for.
const TONES: [u32; 4] = [1, 2, 4, 8];

fn tone(set: u64) -> usize {
    TONES.iter().filter(|&&least| set.count_ones() >= least).count()
}

/// Words of times as they stand in a page: a weekday and its date stay on one line.
fn dated(words: &str) -> String {
    let mut text = String::new();
    let mut words = words.split(' ').peekable();
    while let Some(word) = words.next() {
        let with_date = words.next_if(|_| WEEKDAYS.contains(&word));
        text += &match with_date {
            Some(date) => format!("<span>{word} {date}</span>"),
            None => word.to_string(),
        };
        text += if words.peek().is_some() { " " } else { "" };
    }
    text
}

/// A part of a whole in percent, exact to far less than a minute.
fn percent(part: u32, whole: u32) -> String {
    let text = format!("{:.4}", f64::from(part) * 100.0 / f64::from(whole));
    text.trim_end_matches('0').trim_end_matches('.').to_string()
}

/// Where a section is on the page.
fn anchor(section: &Section) -> String {
    format!("{}-{}", section.kind.word(), section.number)
}

/// The page.
pub fn page(report: &Report) -> String {
    let groups = [Kind::Right, Kind::Volunteer].map(|kind| {
        let sections = report.sections(kind, &[Kind::Right, Kind::Volunteer]);
        (kind, sections)
    });
    let title = report.title();
    let counts = [Kind::Right, Kind::Volunteer].map(|kind| kind.counted(report.week.count(kind)));
    let mut page = format!(
        "<!DOCTYPE html>\n<html lang='en'>\n<head>\n<meta charset='utf-8' />\n\
         <meta name='viewport' content='width=device-width, initial-scale=1' />\n\
         <title>{source}: {title}</title>\n<style>\n{css}</style>\n</head>\n<body>\n<header>\n\
         <h1>Who may do what in the {dated_title}</h1>\n\
         <p>By {source}{by}: {counts}, a cycle of {cycle}. {remarks}</p>\n",
        source = escaped(&report.source),
        dated_title = dated(&title),
        css = include_str!("page.css"),
        by = report.by,
        counts = counts.join(", "),
        cycle = report.week.cycle.words(),
        remarks = dated(&report.remarks().join(" ")),
    );
    page += &compared(report, &groups);
    page += &contents(report, &groups);
    page += "</header>\n<main>\n";
    page += &legend(report);
    for (kind, sections) in &groups {
        if sections.is_empty() {
            continue;
        }
        let (id, heading) = plural(*kind);
        page += &format!("<h2 id='{id}'>{heading}</h2>\n<div class='{id}'>\n");
        page.extend(sections.iter().map(|section| one(report, section)));
        page += "</div>\n";
    }
    page += &format!(
        "</main>\n<footer><p><small>Made by softlode {}. Every time here is asked of the proved \
         library, at each minute at which something can change.</small></p></footer>\n\
         </body>\n</html>\n",
        env!("CARGO_PKG_VERSION")
    );
    page
}

fn plural(kind: Kind) -> (&'static str, &'static str) {
    if kind == Kind::Right { ("rights", "Rights") } else { ("volunteers", "Volunteers") }
}

fn name(report: &Report, section: &Section) -> String {
    shown(report, section.kind, section.number)
}

/// Links to sections.
fn links<'a>(report: &Report, sections: impl Iterator<Item = &'a Section>) -> String {
    let link =
        |section: &Section| format!("<a href='#{}'>{}</a>", anchor(section), name(report, section));
    sections.map(link).collect::<Vec<_>>().join(", ")
}

/// What differs in the turns beside, so that nobody reads one for all.
fn compared(report: &Report, groups: &[(Kind, Vec<Section>); 2]) -> String {
    let mut text = String::new();
    for which in [0, 1] {
        let sections = || groups.iter().flat_map(|(_, sections)| sections);
        let differing = sections().filter(|section| section.differs(which));
        text += &format!(
            "<p>{}</p>\n",
            report.compared(which, sections().next(), links(report, differing))
        );
    }
    text
}

/// Everything that is on the page, to go there.
fn contents(report: &Report, groups: &[(Kind, Vec<Section>); 2]) -> String {
    let mut text = String::from("<nav aria-label='Contents'>\n");
    for (kind, sections) in groups.iter().filter(|(_, sections)| !sections.is_empty()) {
        let (id, heading) = plural(*kind);
        text += &format!(
            "<p><a href='#{id}'><b>{heading}</b></a>: {}</p>\n",
            links(report, sections.iter())
        );
    }
    text + "</nav>\n"
}

/// How the pictures are read.
fn legend(report: &Report) -> String {
    let mut text = String::from(
        "<p class='legend'>\n\
         <span>A letter leads to a row of the table. How many at once:</span>\n",
    );
    for (i, least) in TONES.iter().enumerate() {
        let most = TONES.get(i + 1).map(|next| next - 1);
        let words = match most {
            Some(most) if most == *least => format!("{least}"),
            Some(most) => format!("{least} to {most}"),
            None => format!("{least} or more"),
        };
        text += &format!(
            "<span><svg width='22' height='14' aria-hidden='true'><g class='t{}'>\
             <rect x='1' y='1' width='20' height='12' rx='2' /></g></svg> \
             {words}</span>\n",
            i + 1
        );
    }
    let [before, after] = [0, 1].map(|which| report.beside(which));
    let unit = report.unit();
    for (class, words) in [
        ("here", format!("here, not in the other {unit}")),
        ("there", format!("in the other {unit}, not here")),
    ] {
        text += &format!(
            "<span><svg width='22' height='6' aria-hidden='true'>\
             <rect class='{class}' x='1' y='1' width='20' height='4' /></svg> {words}</span>\n"
        );
    }
    text + &format!(
        "<span>A bar above a block compares with {before}, one below with {after}.</span>\n</p>\n"
    )
}

/// A right or a volunteer.
fn one(report: &Report, section: &Section) -> String {
    let (id, title) = (anchor(section), name(report, section));
    let rows = by_set(&section.runs, report.week.cycle);
    let keys = (0..).zip(&rows).map(|(i, row)| (row.0, key(i))).collect();
    format!(
        "<section class='one' id='{id}' aria-labelledby='{id}-name'>\n\
         <h3 id='{id}-name'>{title}</h3>\n\
         <div class='pair'>\n<div>\n{}{}</div>\n<div>\n{}</div>\n</div>\n</section>\n",
        Picture::of(report, keys).print(section),
        differing(report, section),
        table(report, section, &rows)
    )
}

/// From where the rows of a picture begin, and how high each is.
const TOP: usize = 18;
const ROW: usize = 36;

/// A picture: hours across, days down.
struct Picture<'a> {
    report: &'a Report,
    /// The part of the turn that each row shows.
    rows: Vec<Turn>,
    /// The minutes of a row.
    across: u32,
    /// How each set is called.
    keys: HashMap<u64, String>,
}

/// What a row shows of a run: its first minute in the row, and the one that it ends before.
fn part(run: &Run, row: Turn) -> Option<(u32, u32)> {
    let (begin, end) = (run.begin.max(row.begin), run.end.min(row.end));
    (begin < end).then(|| (begin - row.begin, end - row.begin))
}

impl Picture<'_> {
    fn of(report: &Report, keys: HashMap<u64, String>) -> Picture<'_> {
        let Turn { begin, end } = report.week.turn;
        let row = |from: u32| Turn { begin: from, end: (from + DAY).min(end) };
        let rows: Vec<Turn> = (begin..end).step_by(DAY as usize).map(row).collect();
        Picture { report, across: rows[0].length(), rows, keys }
    }

    fn print(&self, section: &Section) -> String {
        let is_of_days = self.report.week.cycle.is_of_days();
        let (id, title) = (anchor(section), escaped(&self.report.name(section)));
        let labels: String = self.rows.iter().map(|row| label(self.report, *row)).collect();
        let (what, unit) =
            if is_of_days { ("Hours across, days down", "day") } else { ("Minutes across", "row") };
        let mut svg = format!(
            "<figure>\n<div class='picture'>\n\
             <div class='days' aria-hidden='true'>\n{labels}</div>\n\
             <svg role='img' aria-labelledby='{id}-title {id}-desc' width='100%' height='{}'>\n\
             <title id='{id}-title'>{title} in the {}</title>\n\
             <desc id='{id}-desc'>{what}, {}. The exact times are in the table that \
             follows.</desc>\n",
            TOP + ROW * self.rows.len(),
            self.report.title(),
            counted(self.rows.len() as u32, unit),
        );
        svg += &axis(self.across, is_of_days, self.rows.len());
        for (i, row) in self.rows.iter().enumerate() {
            let y = TOP + ROW * i;
            for run in &section.runs {
                if let Some(part) = part(run, *row) {
                    svg += &self.block(run, part, y);
                }
            }
            for (against, y) in section.against.iter().zip([y + 2, y + ROW - 6]) {
                let Some(against) = against else { continue };
                let there = against.there_in(self.report.week.turn).map(|run| (run, "there"));
                let here = against.here.iter().map(|run| (*run, "here"));
                for (run, class) in here.chain(there) {
                    if let Some(part) = part(&run, *row) {
                        let place = self.place(part);
                        svg += &format!("<rect class='{class}' {place} y='{y}' height='4' />\n");
                    }
                }
            }
        }
        svg + "</svg>\n</div>\n</figure>\n"
    }

    /// Where a part of a row is, and how wide.
    fn place(&self, (begin, end): (u32, u32)) -> String {
        let [x, width] = [begin, end - begin].map(|minutes| percent(minutes, self.across));
        format!("x='{x}%' width='{width}%'")
    }

    /// A block, with the letters of its set where there is room for them.
    fn block(&self, run: &Run, (begin, end): (u32, u32), y: usize) -> String {
        let key = &self.keys[&run.set];
        // A letter takes a twenty-fourth of a row on a telephone, and a third of that on a screen.
        let room = (end - begin) * 72 / self.across;
        let class = match key.len() as u32 {
            letters if room >= 3 * letters => Some(""),
            letters if room >= letters => Some(" class='wide'"),
            _ => None,
        };
        let text = class.map(|class| {
            let middle = percent(begin + end, 2 * self.across);
            format!("<text{class} x='{middle}%' y='{}'>{key}</text>", y + ROW / 2 + 4)
        });
        let times = Times::Through { begin: run.begin, end: run.end }.words(self.report.week.cycle);
        format!(
            "<g class='t{}'><title>{key}: {times}</title>\
             <rect {} y='{}' height='{}' rx='2' />{}</g>\n",
            tone(run.set),
            self.place((begin, end)),
            y + 8,
            ROW - 16,
            text.unwrap_or_default()
        )
    }
}

/// What stands before a row: its day, or the minute of the cycle and when that is.
fn label(report: &Report, row: Turn) -> String {
    let (first, second) = if report.week.cycle.is_of_days() {
        let day = day(row.begin);
        (day[..3].to_string(), day[4..].to_string())
    } else {
        (format!("minute {}", row.begin - report.week.turn.begin), date(row.begin))
    };
    format!("<div><b>{first}</b><span>{second}</span></div>\n")
}

/// The lines of a picture, and its hours, or its minutes where a row is no day.
fn axis(across: u32, is_of_days: bool, rows: usize) -> String {
    const STEPS: [u32; 13] =
        [1, 2, 5, 10, 15, 20, 30, HOUR, 2 * HOUR, 3 * HOUR, 4 * HOUR, 6 * HOUR, 12 * HOUR];
    let step = STEPS.into_iter().find(|step| across <= 8 * step).unwrap_or(DAY);
    let bottom = TOP + ROW * rows;
    let mut svg = String::new();
    for at in (0..=across).step_by(step as usize) {
        let x = percent(at, across);
        let number = if is_of_days { at / HOUR } else { at };
        // On a telephone there is not room for all of the longer ones.
        let class = if number > 99 && at / step % 2 == 1 { " class='wide'" } else { "" };
        let anchor = match at {
            0 => "start",
            _ if at == across => "end",
            _ => "middle",
        };
        svg += &format!(
            "<line x1='{x}%' y1='{TOP}' x2='{x}%' y2='{bottom}' />\
             <text{class} x='{x}%' y='12' text-anchor='{anchor}'>{number}</text>\n"
        );
    }
    for row in 0..=rows {
        let y = TOP + ROW * row;
        svg += &format!("<line x1='0' y1='{y}' x2='100%' y2='{y}' />\n");
    }
    svg
}

/// The exact times: for each set, when and who.
fn table(report: &Report, section: &Section, rows: &[(u64, Vec<Times>)]) -> String {
    let title = name(report, section);
    if rows.is_empty() {
        let nobody = if section.kind == Kind::Right { "Nobody" } else { "Nothing" };
        return format!("<p>{nobody} in this {}.</p>\n", report.unit());
    }
    let (_, others) = plural(section.others());
    let mut text = format!(
        "<table>\n<caption>{title}: exact times</caption>\n<thead><tr><th scope='col'>Key</th>\
         <th scope='col'>When</th><th scope='col'>{others}</th></tr></thead>\n<tbody>\n"
    );
    for (i, (set, times)) in rows.iter().enumerate() {
        let times: String = times
            .iter()
            .map(|times| format!("<li>{}</li>", dated(&times.words(report.week.cycle))))
            .collect();
        text += &format!(
            "<tr><th scope='row' class='k'><i class='t{}'>{}</i></th><td><ul>{times}</ul></td>\
             <td>{}</td></tr>\n",
            tone(*set),
            key(i),
            who(report, section.others(), *set)
        );
    }
    text + "</tbody>\n</table>\n"
}

/// What differs in the turns beside, in words.
fn differing(report: &Report, section: &Section) -> String {
    let mut text = String::new();
    for (heading, runs) in differences(report, section) {
        let mut letters = heading.chars();
        let first = letters.next().map_or(String::new(), |first| first.to_uppercase().collect());
        text += &format!("<dt>{first}{}</dt>\n", letters.as_str());
        for (times, set) in by_time(runs, report.week.cycle) {
            let who = who(report, section.others(), set);
            text += &format!("<dd>{}: {who}</dd>\n", dated(&times.words(report.week.cycle)));
        }
    }
    if text.is_empty() { text } else { format!("<dl class='differs'>\n{text}</dl>\n") }
}
