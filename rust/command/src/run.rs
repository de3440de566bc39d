//! What a command works with, and how it ends.

use std::io::{self, ErrorKind, Read, Write};

use softlode::Refusal;

use crate::files::plain;

/// Standard input, output and error, as a command has them.
pub struct Io<'a> {
    pub input: &'a mut dyn Read,
    pub output: &'a mut dyn Write,
    pub complaints: &'a mut dyn Write,
    pub output_is_terminal: bool,
    pub complaints_are_terminal: bool,
}

impl Io<'_> {
    /// Writes to standard output.
    pub fn print(&mut self, text: impl AsRef<[u8]>) -> Result<(), Failure> {
        self.output.write_all(text.as_ref()).map_err(Failure::output)
    }

    /// A line on standard error; where that cannot be written nothing can be said.
    pub fn note(&mut self, what: impl std::fmt::Display) {
        let _ = writeln!(self.complaints, "softlode: {what}");
    }
}

/// Why a command ends without its answer.
#[derive(Clone, Debug, PartialEq, Eq)]
pub enum Failure {
    /// Status 1: a file is refused, or a text is at fault.
    Refused(String),
    /// Status 2: wrong use, or a file that cannot be read or written.
    Wrong(String),
    /// Status 0: nobody reads standard output any more.
    Closed,
}

impl Failure {
    /// Standard output cannot be written.
    pub fn output(error: io::Error) -> Failure {
        match error.kind() {
            ErrorKind::BrokenPipe => Failure::Closed,
            _ => Failure::Wrong(format!("cannot write to standard output: {}", plain(&error))),
        }
    }
}

impl From<Refusal> for Failure {
    fn from(refusal: Refusal) -> Failure {
        Failure::Refused(refusal.to_string())
    }
}

/// How a command ends that has done its work: status 0, or 1 where what it says is a refusal.
#[derive(Clone, Copy, Debug, PartialEq, Eq)]
pub enum Status {
    Done,
    Refused,
}
