//! Advances that take long, with everyone open and staying: the worst rotas and their tables over 400
//! years, and tables that no rewriting makes over a week and over 400 years.

use std::hint::black_box;

use cases::worst::jumps;
use comparison::ffi;
use reference::service::{Call, Lent, Reply, State};
use reference::{END, rewriting};
use tuned::service::serve;
use tuned::table::Table;

use crate::in_words;
use crate::timing::{Times, time, time_once};

const WEEK: u32 = 10_080;

/// From minute 0 with everyone open.
const START: State = State { now: 0, open: u64::MAX };

fn proved(lent: Lent, m: u32) -> ffi::service::Stepped {
    match black_box(lent) {
        Lent::Rota(bytes) => ffi::service::on_rota(bytes, START, Call::Advance(m)),
        Lent::Table(bytes) => ffi::service::on_table(bytes, START, Call::Advance(m)),
    }
}

fn quick(lent: Lent, m: u32) -> (Result<Reply, u32>, State) {
    let mut state = START;
    (serve(black_box(lent), &mut state, Call::Advance(m)), state)
}

/// The times of an advance that closes nobody, by both.
fn advance(lent: Lent, m: u32, is_long: bool) -> Times {
    let stays = |state| assert_eq!(state, State { now: m, ..START }, "everyone stays");
    let (ours, theirs) = (|| stays(proved(lent, m).state()), || stays(quick(lent, m).1));
    if is_long { time_once(ours, theirs) } else { time(|_| ours(), |_| theirs()) }
}

fn read(table: &[u8]) -> Times {
    time(|_| ffi::table::read(black_box(table)), |_| Table::read(black_box(table)))
}

fn cell(times: Times) -> String {
    format!("{:.2} ({})", times.ratio(), in_words(times.proved))
}

/// How many times as long as a reading an advance on a table takes, the reading in it included.
fn readings(advance: Times, read: Times) -> String {
    format!("{:.1}, tuned {:.1}", advance.proved / read.proved, advance.tuned / read.tuned)
}

pub fn print_worst_rotas() {
    println!(
        "\n| 400 years, everyone stays | rota advance | table rows | table advance | table read | \
         readings |"
    );
    println!("|---|---|---|---|---|---|");
    for (name, rota) in jumps::rotas() {
        let on_rota = advance(Lent::Rota(&rota.encode()), END - 1, false);
        let unjoined = rewriting::unjoined(&rota);
        let joined = rewriting::joined(unjoined.clone());
        for (which, on_rota, table) in
            [("", cell(on_rota), joined), (", unjoined", "".into(), unjoined)]
        {
            let (rows, table) = (table.rows.len(), table.encode());
            let (on_table, read) = (advance(Lent::Table(&table), END - 1, false), read(&table));
            println!(
                "| {name}{which} | {on_rota} | {rows} | {} | {} | {} |",
                cell(on_table),
                cell(read),
                readings(on_table, read),
            );
        }
    }
}

/// All of them over a week.
pub fn print_worst_tables() {
    print_tables("a week", jumps::tables(), WEEK, false);
}

/// Over 400 years those that are named, or else the last, which is the worst.
pub fn print_worst_tables_of_years(named: &[String]) {
    let mut tables = jumps::tables();
    match named {
        [] => _ = tables.drain(..tables.len() - 1),
        _ => tables.retain(|(name, _)| named.iter().any(|named| named == name)),
    }
    print_tables("400 years", tables, END - 1, true);
}

fn print_tables(span: &str, tables: Vec<(&str, reference::table::Table)>, m: u32, is_long: bool) {
    println!("\n| {span}, everyone stays | bytes | rows | table advance | tuned | readings |");
    println!("|---|---|---|---|---|---|");
    for (name, table) in tables {
        let (rows, table) = (table.rows.len(), table.encode());
        let (advance, read) = (advance(Lent::Table(&table), m, is_long), read(&table));
        println!(
            "| {name} | {} | {rows} | {} | {} | {} |",
            table.len(),
            cell(advance),
            in_words(advance.tuned),
            readings(advance, read),
        );
    }
}
