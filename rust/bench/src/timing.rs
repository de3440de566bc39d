//! Times two functions in turn, so that what else the machine does falls on both.

use std::hint::black_box;
use std::time::{Duration, Instant};

/// Seconds for one call of each.
#[derive(Clone, Copy)]
pub struct Times {
    pub proved: f64,
    pub tuned: f64,
}

impl Times {
    /// How many times as long the proved code takes.
    pub fn ratio(&self) -> f64 {
        self.proved / self.tuned
    }
}

/// How long one round of calls is to take: short, so that some round is not interrupted.
const ROUND: Duration = Duration::from_millis(1);
/// How long the rounds of one function are to take together, and how many there are at least:
/// so many that some are quiet even where others wait for a core. What takes longer than a second
/// is called twice.
const ALL: Duration = Duration::from_millis(240);
const LEAST_ROUNDS: u32 = 15;
const LONG: Duration = Duration::from_secs(1);

/// A function with the number of calls that make a round, and its quickest round.
struct Timed<F> {
    call: F,
    calls: usize,
    best: Duration,
}

impl<T, F: FnMut(usize) -> T> Timed<F> {
    /// Finds how many calls take long enough to be timed. A round that was interrupted does not
    /// count as long enough, so the best of a few is taken.
    fn new(call: F) -> Self {
        let mut timed = Timed { call, calls: 1, best: Duration::MAX };
        loop {
            for _ in 0..3 {
                timed.round();
                if timed.best < ROUND || timed.best > LONG {
                    break;
                }
            }
            if timed.best >= ROUND {
                return timed;
            }
            timed.calls *= 2;
            timed.best = Duration::MAX;
        }
    }

    /// Forgets the rounds that found the number of calls: they followed each other.
    fn start_anew(&mut self, calls: usize) {
        (self.calls, self.best) = (calls, Duration::MAX);
    }

    /// Calls with the numbers from 0 on.
    fn round(&mut self) {
        let start = Instant::now();
        for i in 0..self.calls {
            black_box((self.call)(i));
        }
        self.best = self.best.min(start.elapsed());
    }

    /// Seconds for one call.
    fn seconds(&self) -> f64 {
        self.best.as_secs_f64() / self.calls as f64
    }
}

/// One call of each, for what takes minutes.
pub fn time_once<T, U>(proved: impl FnOnce() -> T, tuned: impl FnOnce() -> U) -> Times {
    Times { proved: seconds(proved), tuned: seconds(tuned) }
}

/// Seconds of one call, the quickest of so many: for what is many calls by itself.
pub fn quickest<T>(calls: usize, mut call: impl FnMut(usize) -> T) -> f64 {
    (0..calls).map(|i| seconds(|| call(i))).fold(f64::INFINITY, f64::min)
}

fn seconds<T>(call: impl FnOnce() -> T) -> f64 {
    let start = Instant::now();
    black_box(call());
    start.elapsed().as_secs_f64()
}

/// The quickest round of each; rounds alternate, and both have as many calls: what the first calls
/// of a round pay, since the other ran before, weighs the same for both. Where one call takes long
/// there are few rounds. Their number follows from the quickest, not from the time spent:
/// interrupted rounds use up nothing.
pub fn time<T, U>(proved: impl FnMut(usize) -> T, tuned: impl FnMut(usize) -> U) -> Times {
    let (mut proved, mut tuned) = (Timed::new(proved), Timed::new(tuned));
    let least = if proved.best.max(tuned.best) > LONG { 1 } else { LEAST_ROUNDS };
    let calls = proved.calls.max(tuned.calls);
    proved.start_anew(calls);
    tuned.start_anew(calls);
    let mut rounds = 0;
    while rounds < least || proved.best.max(tuned.best) * rounds < ALL {
        proved.round();
        tuned.round();
        rounds += 1;
    }
    Times { proved: proved.seconds(), tuned: tuned.seconds() }
}
