//! The one text of a rota.

use std::fmt::Write;

use crate::names::{Kind, Names, spelled};
use crate::parts::{ALWAYS, Parts, Row};
use crate::when::{Cycle, span};

/// The hours of a role or a row.
fn in_hours(names: &Names, hours: u8) -> String {
    if hours == ALWAYS {
        "always".into()
    } else {
        format!("in {}", names.reference(Kind::Hours, hours.into()))
    }
}

/// The text of a rota, with the names that there are.
pub fn print(parts: &Parts, names: &Names) -> String {
    let mut out = String::new();
    // A string takes every line.
    let mut line = |words: std::fmt::Arguments| _ = writeln!(out, "{words}");
    let cycle = Cycle(parts.cycle.into());
    let declared = |kind: Kind, number: u32| match names.get(kind, number) {
        Some(name) => format!("{} {number} {}", kind.word(), spelled(name)),
        None => format!("{} {number}", kind.word()),
    };
    line(format_args!("rota format {}", parts.format));
    line(format_args!("cycle {}", cycle.words()));
    for (number, hours) in (0..).zip(&parts.hours) {
        if number == 0 {
            line(format_args!(""));
        }
        line(format_args!("{}", declared(Kind::Hours, number)));
        line(format_args!("    dates {}", span(hours.begin, hours.end)));
        for &(offset, length) in &hours.pairs {
            let (begin, length) = (u32::from(offset), u32::from(length));
            line(format_args!("    open {}", cycle.interval(begin, begin + length)));
        }
    }
    if parts.volunteers > 0 || parts.rights > 0 || !parts.roles.is_empty() {
        line(format_args!(""));
    }
    for (kind, count) in [(Kind::Volunteer, parts.volunteers), (Kind::Right, parts.rights)] {
        for number in 0..count.into() {
            line(format_args!("{}", declared(kind, number)));
        }
    }
    for (number, &hours) in (0..).zip(&parts.roles) {
        line(format_args!("{} {}", declared(Kind::Role, number), in_hours(names, hours)));
    }
    if !parts.volunteer_rows.is_empty() || !parts.right_rows.is_empty() {
        line(format_args!(""));
    }
    let kinds =
        [(Kind::Volunteer, "is", &parts.volunteer_rows), (Kind::Right, "to", &parts.right_rows)];
    for (kind, verb, rows) in kinds {
        for &Row { number, role, hours } in rows {
            let subject = names.reference(kind, number.into());
            let role = names.reference(Kind::Role, role.into());
            line(format_args!("{subject} {verb} {role} {}", in_hours(names, hours)));
        }
    }
    out
}
