//! Searches for rotas that take the proved code long, by hill climbing: a changed rota is kept
//! where it takes longer. It starts from each rota of `cases::worst` in turn, prints what each
//! comes to, and stores the worst of all where it is told to.
//!
//! What is timed is one of: rewrite, into 40 MB; refuse, the same into 64 KiB, where that gives
//! 20; tidy, read, question, rota-page, rota-minute, rota-advance, on the rota; table-read,
//! table-question, table-page, table-next, table-board, table-minute, table-advance, on its table. A
//! page has 256 questions, each for a minute of its own. Everyone is open at first, and an advance is
//! of one minute, or over 400 years.

use std::hint::black_box;
use std::time::{Duration, Instant};

use cases::case::seed;
use cases::random::Random;
use cases::worst::{self, Cut, jumps};
use comparison::ffi;
use reference::END;
use reference::page::{LIMIT, Question};
use reference::rota::Rota;
use reference::service::{Call, State};

/// Room for every table of a rota: 1,067,040 derived roles and as many rows are under 36 MB.
const LARGE: usize = 40_000_000;
const SMALL: usize = 65_536;

/// How many questions or advances make a call that is timed.
const ASKED: u32 = 7;

/// Minutes in several eras and cells, for what is asked of a rota or of a table.
fn minutes() -> impl Iterator<Item = u32> {
    (1..=ASKED).map(|i| END / 8 * i + 5_003 * i)
}

fn questions<T>(ask: impl Fn(u32, u32, u32) -> T) {
    for (i, minute) in (0..).zip(minutes()) {
        black_box(ask(9 * i, 9 * i, minute));
    }
}

fn page() -> Vec<Question> {
    let question = |i: u32| Question {
        user: i % 64,
        permission: i / 4,
        minute: END / 257 * i + 5_003 * i,
        ..Question::default()
    };
    (0..LIMIT as u32).map(question).collect()
}

fn advances(call: impl Fn(State, Call) -> ffi::service::Stepped) {
    for minute in minutes() {
        black_box(call(State { now: minute - 1, open: u64::MAX }, Call::Advance(minute)));
    }
}

fn jump(call: impl Fn(State, Call) -> ffi::service::Stepped) {
    black_box(call(State { now: 0, open: u64::MAX }, Call::Advance(END - 1)));
}

/// What a search starts from, and comes to.
#[derive(Clone)]
enum Place {
    Cut(Cut),
    Rota(Rota),
}

impl Place {
    fn bytes(&self) -> Vec<u8> {
        match self {
            Place::Cut(cut) => cut.rota().encode(),
            Place::Rota(rota) => rota.encode(),
        }
    }

    fn changed(&self, random: &mut Random) -> Place {
        match self {
            Place::Cut(cut) => Place::Cut(cut.changed(random)),
            Place::Rota(rota) => Place::Rota(jumps::changed(rota, random)),
        }
    }
}

/// For an advance over 400 years also the rotas in which everyone stays.
fn starts(what: &str) -> Vec<(&'static str, Place)> {
    let cuts = worst::cuts().into_iter();
    let mut starts: Vec<_> = cuts.map(|(name, cut)| (name, Place::Cut(cut))).collect();
    if what.ends_with("advance") {
        starts.push(("all stay, by cuts", Place::Cut(jumps::all_stay())));
        starts.extend(jumps::rotas().into_iter().map(|(name, rota)| (name, Place::Rota(rota))));
    }
    starts
}

struct Search {
    what: String,
    area: Vec<u8>,
}

impl Search {
    /// Seconds of what is timed, on this rota: the quickest of so many rounds.
    fn seconds(&mut self, rota: &[u8], times: u32) -> f64 {
        let asked =
            ["question", "next", "board", "minute"].iter().any(|what| self.what.ends_with(what));
        self.round(rota, times) / if asked { ASKED.into() } else { 1.0 }
    }

    fn round(&mut self, rota: &[u8], times: u32) -> f64 {
        let area = &mut self.area[..];
        let table: &[u8] = if self.what.starts_with("table") {
            let written = tuned::rewriting::rewrite(rota, area).expect("a table has room");
            &area[..written.length]
        } else {
            &[]
        };
        let on_rota = |state, call| ffi::service::on_rota(rota, state, call);
        let on_table = |state, call| ffi::service::on_table(table, state, call);
        match self.what.as_str() {
            "tidy" => quickest(times, || ffi::tidying::tidy(rota, &mut area[..SMALL])),
            "read" => quickest(times, || ffi::rota::read(rota)),
            "question" => {
                quickest(times, || questions(|u, p, t| ffi::rota::question(rota, u, p, t)))
            }
            "rota-page" => {
                let mut page = page();
                quickest(times, || ffi::rota::page(rota, &mut page))
            }
            "rota-minute" => quickest(times, || advances(on_rota)),
            "rota-advance" => quickest(times, || jump(on_rota)),
            "table-read" => quickest(times, || ffi::table::read(table)),
            "table-question" => {
                quickest(times, || questions(|u, p, t| ffi::table::question(table, u, p, t)))
            }
            "table-page" => {
                let mut page = page();
                quickest(times, || ffi::table::page(table, &mut page))
            }
            "table-next" => {
                quickest(times, || questions(|u, p, m| ffi::table::next_use(table, u, p, m)))
            }
            "table-board" => quickest(times, || questions(|_, _, t| ffi::table::board(table, t))),
            "table-minute" => quickest(times, || advances(on_table)),
            "table-advance" => quickest(times, || jump(on_table)),
            "rewrite" => quickest(times, || {
                assert_eq!(ffi::rewriting::rewrite(rota, &mut self.area).refusal, 0);
            }),
            "refuse" => {
                if ffi::rewriting::rewrite(rota, &mut self.area[..SMALL]).refusal != 20 {
                    return 0.0;
                }
                quickest(times, || ffi::rewriting::rewrite(rota, &mut self.area[..SMALL]))
            }
            other => panic!("nothing of that name is timed: {other}"),
        }
    }

    /// Both timed in turn, so that what else the machine does falls on both.
    fn in_turn(&mut self, one: &Place, other: &Place) -> (f64, f64) {
        let bytes = [one.bytes(), other.bytes()];
        let mut best = [f64::MAX; 2];
        for _ in 0..10 {
            for (best, bytes) in best.iter_mut().zip(&bytes) {
                *best = best.min(self.seconds(bytes, 1));
            }
        }
        (best[0], best[1])
    }

    /// Climbs from a rota for so long. What seems to take longer is timed again beside what it was
    /// changed from, and has to take longer by more than times mostly differ by chance. On a busy
    /// machine some changes pass that take less, so what was climbed to is timed beside the start at
    /// the end, and the longer of the two is given.
    fn climb(&mut self, start: Place, random: &mut Random, time: Duration) -> (Place, f64) {
        let (mut best, begun) = (start.clone(), Instant::now());
        let mut longest = self.seconds(&best.bytes(), 3);
        while begun.elapsed() < time {
            let changed = best.changed(random);
            if self.seconds(&changed.bytes(), 1) <= longest {
                continue;
            }
            let (before, after) = self.in_turn(&best, &changed);
            if after > 1.02 * before {
                (best, longest) = (changed, after);
            } else {
                longest = longest.min(before);
            }
        }
        let (first, last) = self.in_turn(&start, &best);
        if last > first { (best, last) } else { (start, first) }
    }
}

/// Seconds of one call, the quickest of so many rounds; a round is one call, or some milliseconds.
fn quickest<T>(rounds: u32, mut call: impl FnMut() -> T) -> f64 {
    let mut best = f64::MAX;
    for _ in 0..rounds {
        let (start, mut calls) = (Instant::now(), 0);
        while calls == 0 || start.elapsed() < Duration::from_millis(2) {
            black_box(call());
            calls += 1;
        }
        best = best.min(start.elapsed().as_secs_f64() / f64::from(calls));
    }
    best
}

fn main() {
    let mut arguments = std::env::args().skip(1);
    let what = arguments.next().expect("what to time");
    let seconds = arguments.next().map_or(10, |text| text.parse().expect("seconds for each"));
    let place = arguments.next();
    let mut random = Random::new(seed());
    let mut search = Search { what, area: vec![0; LARGE] };
    let mut worst_of_all = (Vec::new(), 0.0);
    for (name, start) in starts(&search.what) {
        let before = search.seconds(&start.bytes(), 3);
        let (best, longest) = search.climb(start, &mut random, Duration::from_secs(seconds));
        let bytes = best.bytes();
        println!("{}: {name}, {:.1} µs, then {:.1} µs", search.what, before * 1e6, longest * 1e6);
        if longest > worst_of_all.1 {
            worst_of_all = (bytes, longest);
        }
    }
    println!("{}: {:.1} µs, {} bytes", search.what, worst_of_all.1 * 1e6, worst_of_all.0.len());
    if let Some(place) = place {
        std::fs::write(&place, &worst_of_all.0).expect("the rota is stored");
    }
}
