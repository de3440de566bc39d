//! The long run: the tests' comparisons of one random input each, with as many cases as are
//! wished. It ends with how many there were of each kind, how often each refusal was reached, and
//! how many cases disagreed.
//!
//! SOFTLODE_SEED takes other inputs, and SOFTLODE_CASES sets the number of cases. A kind's name as
//! an argument runs only that kind, and with SOFTLODE_CASE only its case of that number.

use std::panic::{AssertUnwindSafe, catch_unwind};
use std::process::ExitCode;
use std::time::Instant;

use cases::case::{Case, Tally, seed, setting};
use comparison::compare::{calendar, hours, page, rewriting, rota, service, table, tidying};

const DEFAULT_CASES: u64 = 10_000_000;

struct Kind {
    name: &'static str,
    /// How many of a thousand cases are of this kind: fewer where one takes long.
    share: u64,
    compare: fn(&mut Case, &mut Tally),
}

const fn kind(name: &'static str, share: u64, compare: fn(&mut Case, &mut Tally)) -> Kind {
    Kind { name, share, compare }
}

const KINDS: [Kind; 33] = [
    kind("rota well formed", 150, rota::well_formed),
    kind("rota several faults", 150, rota::several_faults),
    kind("rota damaged rows", 20, rota::damaged_rows),
    kind("rota any bytes", 50, rota::any_bytes),
    kind("table by hand", 100, table::by_hand),
    kind("table next uses", 30, table::next_uses),
    kind("table boards", 20, table::boards),
    kind("page on a rota", 5, page::on_rotas),
    kind("page on a table", 5, page::on_tables),
    kind("table rewritten", 30, table::rewritten),
    kind("table several faults", 150, table::several_faults),
    kind("table huge counts", 10, table::huge_counts),
    kind("tidying any size", 5, tidying::any_size),
    kind("tidying small", 10, tidying::small),
    kind("tidying damaged", 10, tidying::damaged),
    kind("tidying the same rota", 3, tidying::same_rota),
    kind("rewriting any size", 3, rewriting::any_size),
    kind("rewriting small", 28, rewriting::small),
    kind("rewriting joined and unjoined", 2, rewriting::joined_and_unjoined),
    kind("rewriting unused hours", 7, rewriting::unused_hours),
    kind("rewriting damaged", 20, rewriting::damaged),
    kind("rewriting sizes", 10, rewriting::sized),
    kind("service list", 10, service::list),
    kind("service list on a tidy rota", 2, service::list_on_a_tidy_rota),
    kind("service odd states", 20, service::odd_states),
    kind("service table by hand", 10, service::table_made_by_hand),
    kind("service jumps", 15, service::jumps),
    kind("service jumps, table by hand", 15, service::jumps_on_tables_made_by_hand),
    kind("service damaged", 20, service::damaged),
    kind("hours at any place", 20, hours::at_any_place),
    kind("hours several faults", 20, hours::several_faults),
    kind("hours holding at edges", 10, hours::holding_at_edges),
    kind("calendar", 40, calendar::any),
];

/// Every refusal that there is.
fn refusals() -> impl Iterator<Item = u32> {
    (1..=12).chain(20..=28).chain(33..=35).chain(40..=44).chain(50..=52)
}

/// What the cases of these numbers reached, and how many of them disagreed. Each of these has
/// printed what differs, as it does in a test.
fn run(kind: &Kind, numbers: impl Iterator<Item = u64>) -> (Tally, u64) {
    let mut tally = Tally::new(kind.name);
    let mut disagreements = 0;
    for number in numbers {
        let mut case = Case::new(kind.name, number);
        let compare = AssertUnwindSafe(|| (kind.compare)(&mut case, &mut tally));
        disagreements += u64::from(catch_unwind(compare).is_err());
    }
    (tally, disagreements)
}

fn main() -> ExitCode {
    assert_eq!(KINDS.iter().map(|kind| kind.share).sum::<u64>(), 1_000);
    let wanted = setting("SOFTLODE_CASES").unwrap_or(DEFAULT_CASES);
    let only = setting("SOFTLODE_CASE");
    let chosen: Vec<String> = std::env::args().skip(1).collect();
    let is_chosen = |kind: &&Kind| chosen.is_empty() || chosen.iter().any(|name| name == kind.name);

    let (mut all, mut cases, mut disagreements) = (Tally::new("all"), 0, 0);
    let start = Instant::now();
    for kind in KINDS.iter().filter(is_chosen) {
        let numbers = match only {
            Some(number) => number..number + 1,
            None => 0..(wanted * kind.share).div_ceil(1_000),
        };
        let (count, begun) = (numbers.end - numbers.start, Instant::now());
        let (tally, differing) = run(kind, numbers);
        let seconds = begun.elapsed().as_secs_f64();
        println!("{count} × {}\n  {seconds:.1} s, {differing} disagreements", tally.line());
        all.join(&tally);
        (cases, disagreements) = (cases + count, disagreements + differing);
    }

    println!("\nseed {}, {cases} cases in {:.1} s", seed(), start.elapsed().as_secs_f64());
    println!("outcomes compared: {}", all.total());
    println!("accepted: {}", all.reached_times(0));
    for refusal in refusals() {
        println!("refusal {refusal}: {}", all.reached_times(refusal));
    }
    let missed = all.missed(refusals());
    println!("refusals not reached: {missed:?}");
    println!("disagreements: {disagreements}");
    let is_whole = only.is_none() && chosen.is_empty();
    if disagreements == 0 && (missed.is_empty() || !is_whole) {
        ExitCode::SUCCESS
    } else {
        ExitCode::FAILURE
    }
}
