//! Runs seeded cases. Each case has numbers of its own, from the seed, the test's name and the
//! case's number, so that one case can be repeated without those before it.
//!
//! SOFTLODE_SEED sets the seed, SOFTLODE_CASES the number of cases of each random test, and
//! SOFTLODE_CASE runs only the case of that number.

use std::collections::BTreeMap;
use std::fmt::Debug;
use std::io::Write;

use crate::random::Random;

const DEFAULT_SEED: u64 = 2001;

pub struct Case {
    pub name: &'static str,
    pub seed: u64,
    pub number: u64,
    pub random: Random,
}

/// A number from the environment; one that cannot be read stops the tests.
pub fn setting(name: &str) -> Option<u64> {
    let text = std::env::var(name).ok()?;
    Some(text.parse().unwrap_or_else(|_| panic!("{name} is not a number: {text}")))
}

pub fn seed() -> u64 {
    setting("SOFTLODE_SEED").unwrap_or(DEFAULT_SEED)
}

impl Case {
    pub fn new(name: &'static str, number: u64) -> Case {
        let seed = seed();
        let named =
            name.bytes().fold(seed, |mixed, byte| Random::new(mixed ^ u64::from(byte)).bits());
        let random = Random::new(Random::new(named.wrapping_add(number)).bits());
        Case { name, seed, number, random }
    }

    /// Compares what the code under test gave with what the reference gives.
    /// A difference is printed with the arguments and the bytes.
    #[track_caller]
    pub fn same<T: PartialEq + Debug>(&self, gave: T, expected: T, bytes: &[u8], what: impl Debug) {
        if gave != expected {
            panic!(
                "{} differs: seed {} case {}\n  gave     {gave:?}\n  expected {expected:?}\n  \
                 given    {what:?}\n  bytes    {} ({} bytes)",
                self.name,
                self.seed,
                self.number,
                hex(bytes),
                bytes.len(),
            );
        }
    }
}

/// Runs a random test, `cases` times unless the environment says otherwise.
pub fn cases(name: &'static str, cases: u64, mut test: impl FnMut(&mut Case)) {
    if let Some(only) = setting("SOFTLODE_CASE") {
        return test(&mut Case::new(name, only));
    }
    for number in 0..setting("SOFTLODE_CASES").unwrap_or(cases) {
        test(&mut Case::new(name, number));
    }
}

/// Runs a random test in the same way, and gives what its cases reached.
pub fn tallied(name: &'static str, count: u64, test: impl Fn(&mut Case, &mut Tally)) -> Tally {
    let mut tally = Tally::new(name);
    cases(name, count, |case| test(case, &mut tally));
    tally
}

pub fn hex(bytes: &[u8]) -> String {
    bytes.iter().map(|byte| format!("{byte:02x}")).collect()
}

/// How often each refusal was reached, where 0 counts what was accepted, and what else was.
pub struct Tally {
    name: &'static str,
    refusals: [u64; 64],
    others: BTreeMap<&'static str, u64>,
}

impl Tally {
    pub fn new(name: &'static str) -> Tally {
        Tally { name, refusals: [0; 64], others: BTreeMap::new() }
    }

    pub fn add(&mut self, refusal: u32) {
        self.refusals[refusal as usize] += 1;
    }

    /// Counts something else that was reached.
    pub fn count(&mut self, what: &'static str) {
        self.count_more(1, what);
    }

    pub fn count_if(&mut self, is_reached: bool, what: &'static str) {
        self.count_more(is_reached.into(), what);
    }

    pub fn count_more(&mut self, times: u64, what: &'static str) {
        *self.others.entry(what).or_default() += times;
    }

    pub fn total(&self) -> u64 {
        self.refusals.iter().sum()
    }

    /// Adds what another one counted.
    pub fn join(&mut self, other: &Tally) {
        for (count, more) in self.refusals.iter_mut().zip(other.refusals) {
            *count += more;
        }
        for (what, &count) in &other.others {
            self.count_more(count, what);
        }
    }

    /// The counts in one line.
    pub fn line(&self) -> String {
        let mut line = format!("{}: {} outcomes; refusal: count", self.name, self.total());
        for (refusal, count) in self.refusals.iter().enumerate().filter(|(_, count)| **count > 0) {
            line += &format!(" {refusal}: {count}");
        }
        for (what, count) in &self.others {
            line += &format!(", {what}: {count}");
        }
        line
    }

    /// Those of these refusals that were not reached.
    pub fn missed(&self, refusals: impl IntoIterator<Item = u32>) -> Vec<u32> {
        let is_missed = |refusal: &u32| self.reached_times(*refusal) == 0;
        refusals.into_iter().filter(is_missed).collect()
    }

    /// Prints the counts, past the test harness, and asks that each of these was reached.
    pub fn reached(&self, refusals: impl IntoIterator<Item = u32>) -> &Tally {
        print(&self.line());
        if is_whole_run() {
            assert_eq!(self.missed(refusals), [], "{}: not reached", self.name);
        }
        self
    }

    /// How often a refusal was reached; 0 is for what was accepted.
    pub fn reached_times(&self, refusal: u32) -> u64 {
        self.refusals[refusal as usize]
    }

    /// How often something else was reached.
    pub fn counted(&self, what: &str) -> u64 {
        self.others.get(what).copied().unwrap_or(0)
    }

    /// Asks the same of what else was counted.
    pub fn also(&self, counted: &[&str]) {
        self.also_often(counted, 1);
    }

    /// Asks that each of these was counted at least so many times.
    pub fn also_often(&self, counted: &[&str], least: u64) {
        if is_whole_run() {
            for what in counted {
                let times = self.counted(what);
                assert!(times >= least, "{}: {what} reached {times} times", self.name);
            }
        }
    }
}

/// A single case, run again, reaches only its own.
fn is_whole_run() -> bool {
    setting("SOFTLODE_CASE").is_none()
}

/// A line past the test harness, which keeps what a passing test prints.
pub fn print(line: &str) {
    writeln!(std::io::stderr(), "{line}").expect("standard error is open");
}
