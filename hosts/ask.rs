//! One question, from Rust: may a volunteer use a right at a date and time, and if not, when next? ask.cpp and ask.py are the same in C++ and Python.
//!
//!     ask ROTA VOLUNTEER RIGHT YEAR MONTH DAY HOUR MINUTE
//!
//! Status: 0; 1 for a refusal; 2 for wrong use or a file that cannot be read.

use softlode::{Refusal, Rota, date, minute};
use std::process::ExitCode;

fn ask(file: &[u8], volunteer: u32, right: u32, when: Result<u32, Refusal>) -> Result<String, Refusal> {
    let rota = Rota::read(file)?;
    let minute = when?;
    if let Some(role) = rota.may(volunteer, right, minute)? {
        return Ok(format!("yes, by role {role}"));
    }
    match rota.to_table()?.next_use(volunteer, right, minute)? {
        Some(next) => Ok(format!("no, next on {}", date(next)?)),
        None => Ok("no, nor later".into()),
    }
}

fn fail(status: u8, why: impl std::fmt::Display) -> ExitCode {
    eprintln!("ask: {why}");
    ExitCode::from(status)
}

fn main() -> ExitCode {
    let arguments: Vec<String> = std::env::args().skip(1).collect();
    let numbers: Result<Vec<u32>, _> = arguments.iter().skip(1).map(|text| text.parse()).collect();
    let Ok([volunteer, right, year, month, day, hour, at]) = numbers.as_deref() else {
        return fail(2, "usage: ask ROTA VOLUNTEER RIGHT YEAR MONTH DAY HOUR MINUTE");
    };
    let Ok(file) = std::fs::read(&arguments[0]) else {
        return fail(2, format!("cannot read {}", arguments[0]));
    };
    match ask(&file, *volunteer, *right, minute(*year, *month, *day, *hour, *at)) {
        Ok(answer) => println!("{answer}"),
        Err(refusal) => return fail(1, refusal),
    }
    ExitCode::SUCCESS
}
