//! Runs of minutes in words: the same times on several days are said once, and exactly.

use super::model::Run;
use crate::names::{Kind, Names};
use crate::when::{Cycle, DAY, Edge, date};

/// When something is so.
#[derive(Clone, Debug, PartialEq, Eq)]
pub enum Times {
    /// On each of these days, by their first minutes, from a time of the day for so many minutes.
    Days { days: Vec<u32>, time: u32, length: u32 },
    /// From a minute to before another.
    Through { begin: u32, end: u32 },
}

impl Times {
    fn first(&self) -> u32 {
        match self {
            Times::Days { days, time, .. } => days[0] + time,
            Times::Through { begin, .. } => *begin,
        }
    }

    /// In words; a cycle that is no whole number of days has its minutes as well.
    pub fn words(&self, cycle: Cycle) -> String {
        let clock = |minute: u32, edge: Edge| Cycle(DAY).position(minute, edge);
        match self {
            Times::Through { begin, end } => {
                let words = format!("from {} to before {}", date(*begin), date_of_end(*end));
                if cycle.is_of_days() {
                    return words;
                }
                let position = begin % cycle.0;
                let to = position + (end - begin);
                format!("{words} (minute {position} to before {to} of the cycle)")
            }
            Times::Days { days, time, length } => {
                let from = clock(*time, Edge::Begin);
                let end = time + length;
                let to = match end.checked_sub(DAY).filter(|&over| over > 0) {
                    None => clock(end, Edge::End),
                    Some(over) => format!("{} of the next day", clock(over, Edge::End)),
                };
                let each = if days.len() == 1 { "" } else { ", each day" };
                format!("{}{each} from {from} to before {to}", days_words(days))
            }
        }
    }
}

/// The day of a minute: `Sun 2024-03-03`.
pub fn day(minute: u32) -> String {
    let mut words = date(minute);
    words.truncate("Sun 2024-03-03".len());
    words
}

/// The date before which something ends; midnight is 24:00 of the day before.
pub fn date_of_end(minute: u32) -> String {
    if minute % DAY == 0 && minute > 0 {
        format!("{} 24:00", day(minute - 1))
    } else {
        date(minute)
    }
}

/// `Mon 2024-02-26 to Wed 2024-02-28 and Fri 2024-03-01`.
fn days_words(days: &[u32]) -> String {
    let mut items = Vec::new();
    for together in days.chunk_by(|one, next| one + DAY == *next) {
        match together {
            [first, _, .., last] => items.push(format!("{} to {}", day(*first), day(*last))),
            few => items.extend(few.iter().map(|&one| day(one))),
        }
    }
    listed(&items)
}

/// `one, two and three`.
pub fn listed(items: &[String]) -> String {
    match items {
        [] => String::new(),
        [one] => one.clone(),
        [first @ .., last] => format!("{} and {last}", first.join(", ")),
    }
}

/// The times of runs, those of one length at one time of the day together.
fn times(runs: &[Run], cycle: Cycle) -> Vec<Times> {
    let mut all: Vec<Times> = Vec::new();
    for run in runs {
        let (time, length) = (run.begin % DAY, run.end - run.begin);
        if !cycle.is_of_days() || length > DAY {
            all.push(Times::Through { begin: run.begin, end: run.end });
            continue;
        }
        let same = all.iter_mut().find_map(|times| match times {
            Times::Days { days, time: its, length: long } if (*its, *long) == (time, length) => {
                Some(days)
            }
            _ => None,
        });
        match same {
            Some(days) => days.push(run.begin - time),
            None => all.push(Times::Days { days: vec![run.begin - time], time, length }),
        }
    }
    // On one day alone, both days of a night are said.
    for times in &mut all {
        if let Times::Days { days, time, length } = times
            && days.len() == 1
            && *time + *length > DAY
        {
            let begin = days[0] + *time;
            *times = Times::Through { begin, end: begin + *length };
        }
    }
    all
}

/// Each set of the runs with its times, both in the order in which they come first.
pub fn by_set(runs: &[Run], cycle: Cycle) -> Vec<(u64, Vec<Times>)> {
    let mut sets: Vec<(u64, Vec<Run>)> = Vec::new();
    let mut places = std::collections::HashMap::new();
    for run in runs {
        let place = *places.entry(run.set).or_insert(sets.len());
        if place == sets.len() {
            sets.push((run.set, Vec::new()));
        }
        sets[place].1.push(*run);
    }
    sets.into_iter().map(|(set, runs)| (set, times(&runs, cycle))).collect()
}

/// The times of the runs, each with its set, in the order of their first minutes.
pub fn by_time(runs: &[Run], cycle: Cycle) -> Vec<(Times, u64)> {
    let each = |(set, times): (u64, Vec<Times>)| times.into_iter().map(move |times| (times, set));
    let mut all: Vec<(Times, u64)> = by_set(runs, cycle).into_iter().flat_map(each).collect();
    all.sort_by_key(|(times, _)| times.first());
    all
}

/// All of a set: `Ruth (5), volunteers 2, 7`. Those who have names come first, each as it is shown
/// by its number.
pub fn who(names: &Names, kind: Kind, set: u64, shown: impl Fn(u32) -> String) -> String {
    let (named, bare): (Vec<u32>, Vec<u32>) = (0..64)
        .filter(|number| set >> number & 1 == 1)
        .partition(|&number| names.get(kind, number).is_some());
    let plural = if bare.len() == 1 { "" } else { "s" };
    let numbers: Vec<String> = bare.iter().map(u32::to_string).collect();
    let bare =
        (!bare.is_empty()).then(|| format!("{}{plural} {}", kind.word(), numbers.join(", ")));
    named.into_iter().map(shown).chain(bare).collect::<Vec<_>>().join(", ")
}
