//! One service on a rota and one on its table, through all 400 years by irregular advances, with
//! opens, asks and closes between: both agree with the plain machine at every call. First the rota
//! of a week by short advances; then many times by jumps of a minute to decades, on that rota and on
//! others, once in four times tidied.
//! It prints what was done. SOFTLODE_SEED takes other lists of calls, and SOFTLODE_CASES sets how
//! many there are by jumps.

use std::time::Instant;

use cases::case::{Case, Tally, cases};
use cases::generate::{call, next_edge, relay_rota, small_rota, weekly_rota};
use cases::random::Random;
use comparison::compare::service::{Both, Run};
use reference::END;
use reference::calendar;
use reference::edges::Edges;
use reference::rota::Rota;
use reference::service::{Call, State};

/// A minute some way on: the same one, soon, at the next change, hours, days or weeks later.
fn next_minute(random: &mut Random, edges: &Edges, now: u32) -> u32 {
    let next = match random.below(64) {
        0..=3 => now,
        4..=19 => now + random.between(1, 60),
        20..=43 => next_edge(edges, now),
        44..=47 => next_edge(edges, now) - 1,
        48..=59 => now + random.between(60, 1_440),
        60..=62 => now + random.between(1_440, 10_080),
        _ => now + random.between(10_080, 40_320),
    };
    next.min(END - 1)
}

/// How many lists of calls go by jumps.
const JUMPING_LISTS: u64 = 10_000;

/// A minute some way on: minutes, hours, days, weeks, months, years or decades.
fn far_minute(random: &mut Random, edges: &Edges, now: u32) -> u32 {
    const DAY: u32 = 1_440;
    let most = random.pick(&[1, 60, DAY, 7 * DAY, 31 * DAY, 366 * DAY, 30 * 365 * DAY]);
    let next = now + random.between(1, most);
    let next = if random.one_in(4) { next_edge(edges, next.min(END)) } else { next };
    next.min(END - 1)
}

/// A rota for a list by jumps: that of a week, one in which users are handed on, or any small one.
fn jumped_rota(random: &mut Random) -> Rota {
    match random.below(4) {
        0 => weekly_rota(),
        1 => small_rota(random),
        _ => relay_rota(random),
    }
}

/// Where an advance goes to, from a minute.
type Next = fn(&mut Random, &Edges, u32) -> u32;

/// One list of calls through all 400 years.
fn soak(case: &mut Case, tally: &mut Tally, both: &Both, to: Next) {
    let mut run = Run::from(State::default());
    while run.machine.now < END - 1 {
        let m = to(&mut case.random, &both.edges, run.machine.now);
        run.call(case, tally, both, Call::Advance(m));
        for _ in 0..case.random.below(8) {
            let next = call(&mut case.random, both.rota(), &both.edges, run.machine);
            // Time passes by the advances above; here only those that are refused.
            match next {
                Call::Advance(m) if (run.machine.now..END).contains(&m) => (),
                _ => _ = run.call(case, tally, both, next),
            }
        }
    }
    for m in [END - 1, END, END + 1, u32::MAX, 0] {
        run.call(case, tally, both, Call::Advance(m));
    }
    run.assert_same_states();
    assert_eq!(run.machine.now, END - 1);
}

/// What a soak did, and how long it took; it has reached every refusal that it can.
fn report(what: &str, tally: &Tally, start: Instant) {
    println!(
        "{what}: {} calls on each of rota, table and machine in {:.1} s, all in agreement",
        tally.total(),
        start.elapsed().as_secs_f64(),
    );
    tally.reached([0, 33, 34, 35, 41, 42, 43, 44]).also(&["closed by them", "staying open"]);
}

fn main() {
    let both = Both::new(weekly_rota());
    let (mut case, mut tally) = (Case::new("soak", 0), Tally::new("soak"));
    let start = Instant::now();
    soak(&mut case, &mut tally, &both, next_minute);
    let last = calendar::date(END - 1).expect("a minute");
    println!(
        "each through {}-{:02}-{:02} {:02}:{:02}, minute {}; the first with rota {} bytes, table {} bytes",
        last.year,
        last.month,
        last.day,
        last.hour,
        last.minute,
        END - 1,
        both.rota_bytes.len(),
        both.table_bytes.len(),
    );
    report("one list by short advances", &tally, start);

    let (mut tally, start) = (Tally::new("soak by jumps"), Instant::now());
    let mut lists = 0;
    cases("soak by jumps", JUMPING_LISTS, |case| {
        let rota = jumped_rota(&mut case.random);
        let both = if case.random.one_in(4) { Both::tidied(rota) } else { Both::new(rota) };
        soak(case, &mut tally, &both, far_minute);
        lists += 1;
    });
    report(&format!("{lists} lists by jumps"), &tally, start);
}
