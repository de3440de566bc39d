//! What everyone may use through a turn of the cycle, and what differs in the turns beside it.
//! Which minutes to ask about is seen in the bytes; every answer is a board of the library.

use std::collections::BTreeSet;

use softlode::{Refusal, Table};

use crate::answer::Listed;
use crate::names::Kind;
use crate::parts::Parts;
use crate::when::{Cycle, END};

/// Where something can change: on a date at which hours begin or end, and at a position in the
/// cycle at which they open or close.
pub struct Cuts {
    cycle: u32,
    dates: BTreeSet<u32>,
    positions: BTreeSet<u32>,
}

impl Cuts {
    fn new(cycle: u32) -> Cuts {
        Cuts { cycle, dates: BTreeSet::new(), positions: BTreeSet::new() }
    }

    fn add(&mut self, dates: [u32; 2], offset: u16, length: u16) {
        self.dates.extend(dates);
        self.positions.extend([u32::from(offset), u32::from(offset) + u32::from(length)]);
    }

    /// Those of a rota's hours records.
    pub fn of_rota(parts: &Parts) -> Cuts {
        let mut cuts = Cuts::new(parts.cycle.into());
        for hours in &parts.hours {
            for &(offset, length) in &hours.pairs {
                cuts.add([hours.begin, hours.end], offset, length);
            }
        }
        cuts
    }

    /// Those of a table's rows.
    pub fn of_table(table: &Table) -> Cuts {
        let mut cuts = Cuts::new(table.counts().cycle);
        for row in Listed::of(table).rows() {
            cuts.add([row.begin, row.end], row.offset, row.length);
        }
        cuts
    }

    /// The minutes of a turn from which on something can be otherwise; the first is its first.
    fn within(&self, turn: Turn) -> Vec<u32> {
        let positions = self.positions.iter().map(|position| turn.begin + position);
        let dates = self.dates.range(turn.begin..turn.end).copied();
        let all: BTreeSet<u32> =
            positions.filter(|&minute| minute < turn.end).chain(dates).collect();
        [turn.begin]
            .into_iter()
            .chain(all.into_iter().filter(|&minute| minute > turn.begin))
            .collect()
    }
}

/// A turn of the cycle: from a minute to before another. The last turn ends with 2400.
#[derive(Clone, Copy, Debug, PartialEq, Eq)]
pub struct Turn {
    pub begin: u32,
    pub end: u32,
}

impl Turn {
    /// The turn that holds a minute.
    fn of(minute: u32, cycle: u32) -> Turn {
        let begin = minute - minute % cycle;
        Turn { begin, end: (begin + cycle).min(END) }
    }

    pub fn length(self) -> u32 {
        self.end - self.begin
    }

    /// The turns before and after, where time has them.
    fn beside(self, cycle: u32) -> [Option<Turn>; 2] {
        let before = self.begin.checked_sub(cycle).map(|begin| Turn::of(begin, cycle));
        [before, (self.end < END).then(|| Turn::of(self.end, cycle))]
    }
}

/// From a minute to before another: a set of volunteers or rights, which is not empty.
#[derive(Clone, Copy, Debug, PartialEq, Eq)]
pub struct Run {
    pub begin: u32,
    pub end: u32,
    pub set: u64,
}

impl Run {
    /// The same at the same positions of another turn.
    pub fn moved(self, from: Turn, to: Turn) -> Run {
        let at = |minute: u32| minute - from.begin + to.begin;
        Run { begin: at(self.begin), end: at(self.end), ..self }
    }

    /// How many of the minutes from one to before another it has.
    pub fn within(&self, begin: u32, end: u32) -> u32 {
        self.end.min(end).saturating_sub(self.begin.max(begin))
    }
}

/// Adds a run; it is joined with the last one where the two touch and have one set, and left out
/// where nobody or nothing is in it.
fn push(runs: &mut Vec<Run>, run: Run) {
    if run.set == 0 || run.begin >= run.end {
        return;
    }
    match runs.last_mut() {
        Some(last) if (last.end, last.set) == (run.begin, run.set) => last.end = run.end,
        _ => runs.push(run),
    }
}

/// What the one has and the other has not.
fn without(runs: &[Run], others: &[Run]) -> Vec<Run> {
    let mut left = Vec::new();
    let mut first = 0;
    for run in runs {
        let mut at = run.begin;
        while others.get(first).is_some_and(|other| other.end <= at) {
            first += 1;
        }
        for other in &others[first..] {
            let (begin, end) = (other.begin.clamp(at, run.end), other.end.min(run.end));
            if begin >= run.end {
                break;
            }
            push(&mut left, Run { begin: at, end: begin, set: run.set });
            push(&mut left, Run { begin, end, set: run.set & !other.set });
            at = end;
        }
        push(&mut left, Run { begin: at, ..*run });
    }
    left
}

/// What differs between a turn and one beside it, by the same positions in the cycle.
#[derive(Clone, Debug, PartialEq, Eq)]
pub struct Against {
    /// The turn beside.
    pub turn: Turn,
    /// What is so here and not there.
    pub here: Vec<Run>,
    /// What is so there and not here, at the minutes of the turn beside.
    pub there: Vec<Run>,
}

impl Against {
    /// What is so there alone, at the minutes of this turn, for a picture of it.
    pub fn there_in(&self, turn: Turn) -> impl Iterator<Item = Run> {
        self.there.iter().map(move |run| run.moved(self.turn, turn))
    }
}

/// A right and who may use it, or a volunteer and what they may use.
#[derive(Clone, Debug, PartialEq, Eq)]
pub struct Section {
    pub kind: Kind,
    pub number: u32,
    pub runs: Vec<Run>,
    /// The turns before and after.
    pub against: [Option<Against>; 2],
}

impl Section {
    /// The kind of those in the sets of the runs.
    pub fn others(&self) -> Kind {
        if self.kind == Kind::Right { Kind::Volunteer } else { Kind::Right }
    }

    /// Whether it differs from the turn before, 0, or after, 1.
    pub fn differs(&self, which: usize) -> bool {
        let against = self.against[which].as_ref();
        against.is_some_and(|against| !against.here.is_empty() || !against.there.is_empty())
    }
}

/// From a minute to before another: what each volunteer may use.
struct Stretch {
    begin: u32,
    end: u32,
    rights: [u64; 64],
}

/// The stretches of a turn, one after the other.
struct Stretches {
    turn: Turn,
    all: Vec<Stretch>,
}

impl Stretches {
    fn of(table: &Table, cuts: &Cuts, turn: Turn) -> Result<Stretches, Refusal> {
        let mut all: Vec<Stretch> = Vec::new();
        let minutes = cuts.within(turn);
        let ends = minutes.iter().skip(1).copied().chain([turn.end]);
        for (&begin, end) in minutes.iter().zip(ends) {
            let rights = table.board(begin)?.rights;
            match all.last_mut() {
                Some(last) if last.rights == rights => last.end = end,
                _ => all.push(Stretch { begin, end, rights }),
            }
        }
        Ok(Stretches { turn, all })
    }

    /// Who has a right, or what a volunteer has, until so many minutes of the turn are over.
    fn runs(&self, kind: Kind, number: u32, length: u32) -> Vec<Run> {
        let mut runs = Vec::new();
        for stretch in &self.all {
            let set = if kind == Kind::Right {
                let who = stretch.rights.iter().enumerate();
                who.fold(0, |set, (volunteer, rights)| set | (rights >> number & 1) << volunteer)
            } else {
                stretch.rights[number as usize]
            };
            let end = stretch.end.min(self.turn.begin + length);
            push(&mut runs, Run { begin: stretch.begin, end, set });
        }
        runs
    }
}

/// Who may do what through a turn of the cycle: for most rotas, a week.
pub struct Week {
    pub cycle: Cycle,
    pub volunteers: u32,
    pub rights: u32,
    pub turn: Turn,
    stretches: Stretches,
    /// The turns before and after.
    beside: [Option<Stretches>; 2],
    /// The dates at which something can change: before the turn the last, those within it, and
    /// after it the first.
    pub changes: (Option<u32>, Vec<u32>, Option<u32>),
}

impl Week {
    /// The turn that holds a minute, which is in time.
    pub fn of(table: &Table, cuts: &Cuts, minute: u32) -> Result<Week, Refusal> {
        let counts = table.counts();
        let turn = Turn::of(minute, cuts.cycle);
        let [before, after] = turn
            .beside(cuts.cycle)
            .map(|beside| beside.map(|beside| Stretches::of(table, cuts, beside)).transpose());
        // Nothing changes with the first minute of time, or after the last.
        let dates = |from: u32, to: u32| cuts.dates.range(from.max(1)..to.max(1)).copied();
        Ok(Week {
            cycle: Cycle(cuts.cycle),
            volunteers: counts.volunteers,
            rights: counts.rights,
            turn,
            stretches: Stretches::of(table, cuts, turn)?,
            beside: [before?, after?],
            changes: (
                dates(0, turn.begin).next_back(),
                dates(turn.begin, turn.end).collect(),
                dates(turn.end, END).next(),
            ),
        })
    }

    /// How many rights or volunteers there are.
    pub fn count(&self, kind: Kind) -> u32 {
        if kind == Kind::Right { self.rights } else { self.volunteers }
    }

    /// A right with those who may use it, or a volunteer with what they may use.
    pub fn section(&self, kind: Kind, number: u32) -> Section {
        let runs = self.stretches.runs(kind, number, self.turn.length());
        let against = self.beside.each_ref().map(|beside| {
            let beside = beside.as_ref()?;
            // The last turn may be shorter; what it does not have cannot differ.
            let length = self.turn.length().min(beside.turn.length());
            let here = self.stretches.runs(kind, number, length);
            let there = beside.runs(kind, number, length);
            let moved = |runs: &[Run], from: Turn, to: Turn| -> Vec<Run> {
                runs.iter().map(|run| run.moved(from, to)).collect()
            };
            Some(Against {
                turn: beside.turn,
                here: without(&here, &moved(&there, beside.turn, self.turn)),
                there: without(&there, &moved(&here, self.turn, beside.turn)),
            })
        });
        Section { kind, number, runs, against }
    }
}
