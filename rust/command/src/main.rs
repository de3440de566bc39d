//! The softlode command.

use std::ffi::OsString;
use std::io::{BufWriter, IsTerminal, stderr, stdin, stdout};
use std::process::ExitCode;

use command::run::Io;

fn main() -> ExitCode {
    let words: Vec<OsString> = std::env::args_os().skip(1).collect();
    let mut output = BufWriter::with_capacity(1 << 16, stdout().lock());
    let mut io = Io {
        input: &mut stdin().lock(),
        output: &mut output,
        complaints: &mut stderr(),
        output_is_terminal: stdout().is_terminal(),
        complaints_are_terminal: stderr().is_terminal(),
    };
    let status = command::run(&words, &mut io);
    // What could not be written is not tried again.
    let _ = output.into_parts();
    ExitCode::from(status)
}
