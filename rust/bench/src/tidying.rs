//! Tidying, on rotas by the order of their rows, beside both forms of the quick implementation.

use std::hint::black_box;

use cases::generate::{Sizes, rota_of, weekly_rota};
use cases::random::Random;
use cases::{data, tidying};
use comparison::ffi;
use reference::Refusal;
use reference::rota::{ANY_ORDER, Rota};
use tuned::tidying::{tidy, tidy_by_sets};

use crate::timing::{Times, time};
use crate::{Report, in_words};

/// About what a larger organization has.
const MIDDLE: Sizes = Sizes {
    cycle: 10_080,
    hours: 12,
    pairs: 60,
    users: 40,
    permissions: 20,
    roles: 12,
    user_rows: 60,
    permission_rows: 40,
};

/// The most rows are 512 of each kind, with everything at its limit.
fn rotas() -> Vec<(&'static str, Rota)> {
    let mut random = Random::new(3);
    let small = Rota::parse(&data::small_rota()).expect("well formed");
    let middle = rota_of(&mut random, &MIDDLE);
    let most = tidying::most_rows(&mut random);
    let repeats = tidying::most_repeats(&most, 8);
    let tidy = most.tidy();
    let in_order = Rota { format: ANY_ORDER, ..tidy.clone() };
    vec![
        ("small", small),
        ("weekly", weekly_rota()),
        ("middle, shuffled", middle),
        ("most rows, shuffled", most),
        ("most rows, in order", in_order),
        ("most rows, tidy", tidy),
        ("most rows, repeats", repeats),
    ]
}

type Quick = fn(&[u8], &mut [u8]) -> Result<usize, Refusal>;

/// Into an area of the rota's own size, which is always enough.
fn times(rota: &[u8], quick: Quick) -> Times {
    let (mut ours, mut theirs) = (vec![0; rota.len()], vec![0; rota.len()]);
    let times = time(
        |_| ffi::tidying::tidy(black_box(rota), &mut ours),
        |_| quick(black_box(rota), &mut theirs),
    );
    assert!(ours == theirs, "the two tidy rotas differ");
    times
}

/// Times all of them, and gives a table: how many rows there are before and after, the ratio to the
/// form that sorts with the time of the proved code, and the ratio to the form by sets.
pub fn table(report: &mut Report) -> String {
    let mut table =
        "\n| rota | rows | tidied | tidy | by sets |\n|---|---|---|---|---|\n".to_string();
    for (name, rota) in rotas() {
        let (bytes, tidied) = (rota.encode(), rota.tidy());
        let mut into = |operation: &str, quick: Quick| {
            let times = times(&bytes, quick);
            report.print(operation, name, times);
            times
        };
        let (sorted, by_sets) = (into("tidy", tidy), into("tidy, by sets", tidy_by_sets));
        table += &format!(
            "| {name} | {} + {} | {} + {} | {:.2} ({}) | {:.2} |\n",
            rota.user_rows.len(),
            rota.permission_rows.len(),
            tidied.user_rows.len(),
            tidied.permission_rows.len(),
            sorted.ratio(),
            in_words(sorted.proved),
            by_sets.ratio()
        );
    }
    table
}
