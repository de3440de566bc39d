//! The softlode command: a rota in words, for coordinators. Every answer comes from the proved
//! library; what is here are words, dates and files.

#![deny(unsafe_code)]
// For the tests alone: a later compiler's warnings are no reason to stop a build.
#![cfg_attr(test, deny(warnings))]

pub mod answer;
pub mod args;
pub mod convert;
pub mod files;
pub mod hint;
pub mod names;
pub mod parts;
pub mod place;
pub mod progress;
pub mod run;
pub mod subject;
pub mod text;
pub mod week;
pub mod when;
pub mod words;

use std::ffi::OsString;

use args::{Command, Opt};
use run::{Failure, Io, Status};

const NAMES: &[Opt] = &[Opt::Names, Opt::NoNames];

/// All commands.
pub const COMMANDS: &[Command] = &[
    Command {
        name: "check",
        takes: "FILE",
        arguments: (1, 1),
        options: NAMES,
        summary: "Judges a rota: accepted with its counts, or refused, why and where",
        help: "The number of a refusal is the library's. The place, where one can be told, is the record, the pair or\n\
               the row, the byte and what was found there; all of these count from 0.",
        run: convert::check,
    },
    Command {
        name: "text",
        takes: "FILE",
        arguments: (1, 1),
        options: &[Opt::Output, Opt::Names, Opt::NoNames],
        summary: "Prints a rota as text, which can be read, changed and packed again",
        help: TEXT_HELP,
        run: convert::text,
    },
    Command {
        name: "pack",
        takes: "TEXT",
        arguments: (1, 1),
        options: &[Opt::Output],
        summary: "Makes the bytes of a rota from its text",
        help: TEXT_HELP,
        run: convert::pack,
    },
    Command {
        name: "tidy",
        takes: "FILE",
        arguments: (1, 1),
        options: &[Opt::Output, Opt::Names, Opt::NoNames],
        summary: "Puts the rows of a rota in order, each once, so that two can be compared",
        help: "The result is of format 3. It gives the same answers as before.",
        run: convert::tidy,
    },
    Command {
        name: "ask",
        takes: "FILE VOLUNTEER RIGHT WHEN",
        arguments: (4, 6),
        options: NAMES,
        summary: "May the volunteer use the right then?",
        help: WHEN_HELP,
        run: answer::ask,
    },
    Command {
        name: "next",
        takes: "FILE VOLUNTEER RIGHT WHEN",
        arguments: (4, 6),
        options: NAMES,
        summary: "When, from then on, may the volunteer first use the right?",
        help: WHEN_HELP,
        run: answer::next,
    },
    Command {
        name: "board",
        takes: "FILE WHEN",
        arguments: (2, 4),
        options: NAMES,
        summary: "What may everyone use then?",
        help: "WHEN is 2024-03-03 14:00, or a number of minutes from 2001-01-01 00:00 on.",
        run: answer::board,
    },
    Command {
        name: "list",
        takes: "FILE",
        arguments: (1, 1),
        options: &[Opt::Names, Opt::NoNames, Opt::Plain],
        summary: "Lists the table of a rota, or a table: who has which rights, and when",
        help: "",
        run: answer::list,
    },
    Command {
        name: "week",
        takes: "FILE [DATE] [--html OUT]",
        arguments: (1, 4),
        options: &[Opt::Html, Opt::Right, Opt::Volunteer, Opt::Names, Opt::NoNames],
        summary: "Shows a week: who may use each right, and when",
        help: "DATE is 2024-02-28, a date and time, or a number of minutes from 2001-01-01 00:00 on; without it,\n\
               the week is today's. A cycle that is no week is shown by its own length. What is otherwise in the\n\
               week before or after is said.",
        run: week::week,
    },
];

const TEXT_HELP: &str = "A text is like this one. Names can be left out; # begins a comment.

    rota format 1
    cycle 1 week
    hours 0 opening
        dates from Mon 2001-01-01 00:00 to the end of 2400
        open from Mon 09:00 to before Mon 18:00
    volunteer 0 coordinator
    volunteer 1
    right 0 \"read a record\"
    role 0 reader in opening
    coordinator is reader in opening
    volunteer 1 is reader always
    \"read a record\" to role 0 always

The bytes of a rota have no names: pack -o OUT keeps them in OUT.names. It writes nothing unless the library
accepts the rota.";

const WHEN_HELP: &str = "VOLUNTEER and RIGHT are numbers or names. WHEN is 2024-03-03 14:00, or a number of minutes from\n\
     2001-01-01 00:00 on. It is by the archive's clock, which keeps no summer time.";

/// Runs a command line, without the program's name, and gives the status with which to end.
pub fn run(words: &[OsString], io: &mut Io) -> u8 {
    let status = args::run(COMMANDS, words, io);
    // What is not written yet may still fail.
    let status =
        status.and_then(|status| io.output.flush().map(|()| status).map_err(Failure::output));
    match status {
        Ok(Status::Done) | Err(Failure::Closed) => 0,
        Ok(Status::Refused) => 1,
        Err(Failure::Refused(what)) => {
            io.note(what);
            1
        }
        Err(Failure::Wrong(what)) => {
            io.note(what);
            2
        }
    }
}
