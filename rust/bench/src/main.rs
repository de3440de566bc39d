//! Times each operation of the proved code against the quick implementation, on the same inputs in
//! one run, and prints the ratio. Readers are also shown beside a plain pass over the same bytes.
//! At the end all stands in one table; tidying, boards beside single questions, and advances that take
//! long, in tables of their own.

mod boards;
mod inputs;
mod jumps;
mod tidying;
mod timing;

use std::hint::black_box;

use cases::random::Random;
use comparison::ffi;
use reference::page::Question as Record;
use reference::rewriting::Written;
use reference::service::{Call, Lent, State};
use reference::{END, Refusal};
use tuned::policy::{holders, page, question};
use tuned::rota::Rota;
use tuned::service::serve;
use tuned::table::Table;
use tuned::{calendar, rewriting};

use inputs::{Input, Question, Rewriting, inputs};
use timing::{Times, time};

/// All that was timed, in the order of the lines that were printed.
#[derive(Default)]
struct Report {
    cells: Vec<(String, &'static str, Times)>,
}

impl Report {
    /// One line: both times, and how many times as long the proved code takes.
    fn print(&mut self, operation: &str, input: &'static str, times: Times) {
        println!(
            "{operation:<24} {input:<22} {} {} {:>9.3}",
            nanoseconds(times.proved),
            nanoseconds(times.tuned),
            times.ratio()
        );
        self.cells.push((operation.to_string(), input, times));
    }

    /// A reader's line goes on with its speed and that of a plain pass that adds up the bytes.
    fn print_reader(&mut self, operation: &str, input: &'static str, bytes: &[u8], times: Times) {
        self.print(operation, input, times);
        let sum = |bytes: &[u8]| bytes.iter().map(|&byte| u64::from(byte)).sum::<u64>();
        let pass = time(|_| sum(black_box(bytes)), |_| sum(black_box(bytes)));
        let speed = |seconds: f64| bytes.len() as f64 / seconds / 1e6;
        println!(
            "{:<24} {:<22} {:>9.0} MB/s {:>9.0} MB/s, plain pass {:.0} MB/s",
            "",
            format!("  {} bytes", bytes.len()),
            speed(times.proved),
            speed(times.tuned),
            speed(pass.proved.min(pass.tuned))
        );
    }

    /// A table of all operations by inputs: the ratio, and the time of the proved code.
    fn print_table(&self, inputs: &[Input]) {
        let names: Vec<&str> = inputs.iter().map(|input| input.name).collect();
        let mut operations: Vec<&str> = Vec::new();
        for (operation, input, _) in &self.cells {
            if names.contains(input) && !operations.contains(&operation.as_str()) {
                operations.push(operation);
            }
        }
        println!("\n| operation | {} |\n|---|{}", names.join(" | "), "---|".repeat(names.len()));
        for operation in operations {
            let cell = |name: &&str| {
                let found = self.cells.iter().find(|cell| cell.0 == operation && cell.1 == *name);
                found.map_or(String::new(), |(_, _, times)| {
                    format!("{:.2} ({})", times.ratio(), in_words(times.proved))
                })
            };
            let cells: Vec<String> = names.iter().map(cell).collect();
            println!("| {operation} | {} |", cells.join(" | "));
        }
    }
}

fn nanoseconds(seconds: f64) -> String {
    format!("{:>14.1}", seconds * 1e9)
}

/// A time in the unit that suits it.
fn in_words(seconds: f64) -> String {
    match seconds {
        ..1e-6 => format!("{:.0} ns", seconds * 1e9),
        ..1e-3 => format!("{:.1} µs", seconds * 1e6),
        ..1.0 => format!("{:.1} ms", seconds * 1e3),
        _ => format!("{seconds:.1} s"),
    }
}

/// Pages of so many questions, all for one minute or each for its own.
const PAGES: [(&str, usize, bool); 3] =
    [("page of 1", 1, true), ("page of 256", 256, false), ("page of 256, one minute", 256, true)];

fn pages(
    kind: &str,
    input: &Input,
    report: &mut Report,
    proved: impl Fn(&mut [Record]) -> u32,
    quick: impl Fn(&mut [Record]) -> Result<(), Refusal>,
) {
    for (operation, count, is_one_minute) in PAGES {
        let mut ours = input.page(count, is_one_minute);
        let mut theirs = ours.clone();
        let times = time(|_| proved(&mut ours), |_| quick(&mut theirs));
        assert!(ours == theirs, "the two pages differ");
        report.print(&format!("{kind} {operation}"), input.name, times);
    }
}

fn rota(input: &Input, report: &mut Report) {
    let (name, Some(bytes)) = (input.name, input.rota()) else { return };
    let times = time(|_| ffi::rota::read(black_box(bytes)), |_| Rota::read(black_box(bytes)));
    report.print_reader("rota read", name, bytes, times);
    let tidy = &input.tidy[..];
    let times = time(|_| ffi::rota::read(black_box(tidy)), |_| Rota::read(black_box(tidy)));
    report.print_reader("rota read, tidy", name, tidy, times);
    let times = time(
        |i| {
            let Question { user, permission, minute } = input.question(i);
            ffi::rota::question(black_box(bytes), user, permission, minute)
        },
        |i| {
            let Question { user, permission, minute } = input.question(i);
            Rota::read(black_box(bytes)).and_then(|rota| question(&rota, user, permission, minute))
        },
    );
    report.print("rota question", name, times);
    let quick = |questions: &mut [Record]| page(|| Rota::read(black_box(bytes)), questions);
    pages("rota", input, report, |questions| ffi::rota::page(black_box(bytes), questions), quick);
    let minute = |i: usize| input.question(i).minute;
    let times = time(
        |i| ffi::rota::holders(black_box(bytes), minute(i)),
        |i| Rota::read(black_box(bytes)).and_then(|rota| holders(&rota, minute(i))),
    );
    report.print("rota holders", name, times);
}

fn table(input: &Input, report: &mut Report) {
    let (name, bytes) = (input.name, &input.table[..]);
    let times = time(|_| ffi::table::read(black_box(bytes)), |_| Table::read(black_box(bytes)));
    report.print_reader("table read", name, bytes, times);
    let times = time(
        |i| {
            let Question { user, permission, minute } = input.question(i);
            ffi::table::question(black_box(bytes), user, permission, minute)
        },
        |i| {
            let Question { user, permission, minute } = input.question(i);
            let table = Table::read(black_box(bytes));
            table.and_then(|table| question(&table, user, permission, minute))
        },
    );
    report.print("table question", name, times);
    let quick = |questions: &mut [Record]| page(|| Table::read(black_box(bytes)), questions);
    pages("table", input, report, |questions| ffi::table::page(black_box(bytes), questions), quick);
    let minute = |i: usize| input.question(i).minute;
    let times = time(
        |i| ffi::table::holders(black_box(bytes), minute(i)),
        |i| Table::read(black_box(bytes)).and_then(|table| holders(&table, minute(i))),
    );
    report.print("table holders", name, times);
    let times = time(
        |i| ffi::table::board(black_box(bytes), minute(i)),
        |i| Table::read(black_box(bytes)).and_then(|table| table.board(minute(i))),
    );
    report.print("table board", name, times);
    let times = next_use_times(bytes, |i| input.question(i));
    report.print("table next", name, times);
    // Hardly a row begins too late to matter.
    let first = |i| Question { user: 0, minute: 0, ..input.question(i) };
    report.print("table next, none", name, next_use_times(&input.without_user, first));
}

fn next_use_times(bytes: &[u8], question: impl Fn(usize) -> Question) -> Times {
    time(
        |i| {
            let Question { user, permission, minute } = question(i);
            ffi::table::next_use(black_box(bytes), user, permission, minute)
        },
        |i| {
            let Question { user, permission, minute } = question(i);
            let table = Table::read(black_box(bytes));
            table.and_then(|table| table.next_use(user, permission, minute))
        },
    )
}

/// Into an area of the table's size, beside both forms of the quick implementation, into one of 64
/// KiB if that is too small for it, and the size alone.
fn rewrite(input: &Input, report: &mut Report) {
    let Some(Rewriting { rota, length, .. }) = &input.rewriting else { return };
    type Quick = fn(&[u8], &mut [u8]) -> Result<Written, Refusal>;
    let mut into = |operation: &str, size: usize, quick: Quick| {
        let (mut ours, mut theirs) = (vec![0; size], vec![0; size]);
        let times = time(
            |_| ffi::rewriting::rewrite(black_box(rota), &mut ours),
            |_| quick(black_box(rota), &mut theirs),
        );
        assert!(ours == theirs, "the two tables differ");
        report.print(operation, input.name, times);
    };
    into("rewrite", *length, rewriting::rewrite);
    into("rewrite, marks not kept", *length, rewriting::rewrite_twice);
    if *length > 65_536 {
        into("rewrite, 20 at 64 KiB", 65_536, rewriting::rewrite);
    }
    let told = [
        ffi::rewriting::size(rota).length as usize,
        rewriting::size(rota).map_or(0, |told| told.length),
    ];
    assert_eq!(told, [*length; 2], "the two sizes");
    let times =
        time(|_| ffi::rewriting::size(black_box(rota)), |_| rewriting::size(black_box(rota)));
    report.print("rewrite size", input.name, times);
}

/// Everyone is open, and time goes to the question's minute from the one before, or through all 400
/// years, or stands there; to open, nobody is.
fn service(input: &Input, report: &mut Report) {
    let calls = |i: usize| {
        let Question { user, permission, minute } = input.question(i);
        let minute = minute.max(1);
        let at = |now, open, call| (State { now, open }, call);
        [
            ("advance 1 minute", at(minute - 1, input.everyone, Call::Advance(minute))),
            ("advance 400 years", at(0, input.everyone, Call::Advance(END - 1))),
            ("open", at(minute, 0, Call::Open(user))),
            ("close", at(minute, input.everyone, Call::Close(user))),
            ("ask", at(minute, input.everyone, Call::Ask(user, permission))),
        ]
    };
    for (kind, (name, _)) in calls(0).into_iter().enumerate() {
        let call = |i: usize| calls(i)[kind].1;
        if let Some(rota) = input.rota() {
            report.print(&format!("rota {name}"), input.name, serve_times(Lent::Rota(rota), call));
        }
        let table = Lent::Table(&input.table);
        report.print(&format!("table {name}"), input.name, serve_times(table, call));
    }
}

fn serve_times(lent: Lent, call: impl Fn(usize) -> (State, Call)) -> Times {
    time(
        |i| {
            let (state, call) = call(i);
            match black_box(lent) {
                Lent::Rota(bytes) => ffi::service::on_rota(bytes, state, call),
                Lent::Table(bytes) => ffi::service::on_table(bytes, state, call),
            }
        },
        |i| {
            let (mut state, call) = call(i);
            (serve(black_box(lent), &mut state, call), state)
        },
    )
}

/// Minutes of all years in no order: few, so that a processor learns the course of each, and many,
/// so that it has to guess.
fn dates(report: &mut Report) {
    for (name, count) in [("256 minutes", 256), ("8,192 minutes", 8_192)] {
        let mut random = Random::new(1);
        let minutes: Vec<u32> = (0..count).map(|_| random.below(END)).collect();
        let dates: Vec<_> =
            minutes.iter().map(|&minute| calendar::date(minute).expect("a minute")).collect();
        let last = count - 1;
        let times = time(|i| ffi::date(minutes[i & last]), |i| calendar::date(minutes[i & last]));
        report.print("minute to date", name, times);
        let times = time(
            |i| {
                let date = &dates[i & last];
                ffi::minute(date.year, date.month, date.day, date.hour, date.minute)
            },
            |i| {
                let date = &dates[i & last];
                calendar::minute(date.year, date.month, date.day, date.hour, date.minute)
            },
        );
        report.print("date to minute", name, times);
    }
}

/// What each rota's rewriting goes through and comes to, and the table that is read and asked.
fn print_inputs(inputs: &[Input]) {
    println!(
        "| input | rota, bytes | fields | sets of hours | derived roles | rows | unjoined | \
         bytes | table read: rows | bytes |"
    );
    println!("|---|---|---|---|---|---|---|---|---|---|");
    for input in inputs {
        let rewritten = input.rewriting.as_ref().map_or(" | | ".into(), |rewriting| {
            let Rewriting { rota, fields, sets, .. } = rewriting;
            format!("{} | {fields} | {sets}", rota.len())
        });
        let written = input.rewriting.as_ref().map_or(" | | ".into(), |rewriting| {
            let Rewriting { rows, unjoined, length, .. } = rewriting;
            format!("{rows} | {unjoined} | {length}")
        });
        let (name, derived, rows) = (input.name, input.derived, input.rows);
        let bytes = input.table.len();
        println!("| {name} | {rewritten} | {derived} | {written} | {rows} | {bytes} |");
    }
}

fn main() {
    let inputs = inputs();
    print_inputs(&inputs);
    println!(
        "\n{:<24} {:<22} {:>14} {:>14} {:>9}",
        "operation", "input", "proved ns", "tuned ns", "ratio"
    );
    let mut report = Report::default();
    let chosen: Vec<String> = std::env::args().skip(1).collect();
    type Group = fn(&Input, &mut Report);
    let groups: [(&str, Group); 4] =
        [("rota", rota), ("table", table), ("rewrite", rewrite), ("service", service)];
    let is_chosen = |name: &str| chosen.is_empty() || chosen.iter().any(|group| group == name);
    for (name, group) in groups {
        if is_chosen(name) {
            inputs.iter().for_each(|input| group(input, &mut report));
        }
    }
    let tidied = is_chosen("tidy").then(|| tidying::table(&mut report));
    if is_chosen("calendar") {
        dates(&mut report);
    }
    report.print_table(&inputs);
    if let Some(tidied) = tidied {
        print!("{tidied}");
    }
    if is_chosen("boards") {
        boards::print_beside_questions(&inputs);
    }
    if is_chosen("jumps") {
        jumps::print_worst_rotas();
        jumps::print_worst_tables();
    }
    // It takes minutes, so only who asks for it gets it. After it come names of tables.
    if let Some(years) = chosen.iter().position(|group| group == "years") {
        jumps::print_worst_tables_of_years(&chosen[years + 1..]);
    }
}
