//! check, text, pack and tidy: a rota judged, and in its other forms.

use std::path::Path;

use softlode::{Rota, RotaCounts};

use crate::args::Call;
use crate::files::{Pending, Source, with_names};
use crate::names::{Head, Names, NamesFile};
use crate::parts::Parts;
use crate::run::{Failure, Io, Status};
use crate::subject::{Judged, Subject, explained};
use crate::text;
use crate::when::Cycle;
use crate::words::{self, counted};

/// Judges a rota: its counts, or why it is refused and where.
pub fn check(call: &Call, io: &mut Io) -> Result<Status, Failure> {
    let subject = Subject::read(call, io)?;
    let rota = match Rota::read(&subject.bytes) {
        Ok(rota) => rota,
        Err(refusal) => {
            io.print(format!("{}\n", explained(&subject.bytes, refusal)))?;
            return Ok(Status::Refused);
        }
    };
    let names = subject.names(call, Judged::Rota(rota), io)?;
    let named = if names.is_empty() { "" } else { ", with names that fit" };
    io.print(format!("accepted: {}{named}\n", counts_in_words(&rota.counts())))?;
    Ok(Status::Done)
}

fn counts_in_words(counts: &RotaCounts) -> String {
    let RotaCounts { cycle, hours, volunteers, rights, roles, volunteer_rows, right_rows, format } =
        *counts;
    format!(
        "a rota of format {format}, cycle {}, {}, {}, {}, {}, {}, {}",
        Cycle(cycle).words(),
        counted(hours, "hours record"),
        counted(volunteers, "volunteer"),
        counted(rights, "right"),
        counted(roles, "role"),
        counted(volunteer_rows, "volunteer row"),
        counted(right_rows, "right row")
    )
}

/// Prints a rota as text.
pub fn text(call: &Call, io: &mut Io) -> Result<Status, Failure> {
    let subject = Subject::read(call, io)?;
    let rota = subject.rota()?;
    let names = subject.names(call, Judged::Rota(rota), io)?;
    let text = text::print(&Parts::of(&rota), &names);
    match output(call) {
        None => io.print(text)?,
        Some(path) => {
            Pending::write(path, text.as_bytes())?.commit()?;
            io.print(format!("wrote {}\n", path.display()))?;
        }
    }
    Ok(Status::Done)
}

/// Makes a rota from its text.
pub fn pack(call: &Call, io: &mut Io) -> Result<Status, Failure> {
    let source = Source::of(&call.arguments[0]);
    let bytes = source.read_text(io)?;
    let packed = words::text(&bytes).map_err(text::Unpacked::from).and_then(text::pack);
    let packed = packed.map_err(|unpacked| {
        Failure::Refused(format!("{}, {unpacked}{}", source.shown(), binary_hint(&bytes)))
    })?;
    write_rota(call, io, &packed.bytes, &packed.names)?;
    if output(call).is_none() && !packed.names.is_empty() {
        io.note("the names of the text are not kept: -o OUT keeps them in OUT.names");
    }
    Ok(Status::Done)
}

/// What a text seems to be that begins like the bytes of a rota or a table.
fn binary_hint(bytes: &[u8]) -> &'static str {
    if bytes.get(1) == Some(&0) {
        "\n  these look like bytes, not text: softlode text makes the text of a rota"
    } else {
        ""
    }
}

/// Writes a rota with its rows in order, each once.
pub fn tidy(call: &Call, io: &mut Io) -> Result<Status, Failure> {
    let subject = Subject::read(call, io)?;
    let rota = subject.rota()?;
    let names = subject.names(call, Judged::Rota(rota), io)?;
    let mut area = vec![0; subject.bytes.len()];
    let tidy = rota.tidy(&mut area)?;
    write_rota(call, io, tidy, &names)?;
    Ok(Status::Done)
}

/// The file that is written to; standard output where there is none, or `-`.
fn output(call: &Call) -> Option<&Path> {
    call.output.as_deref().filter(|&output| output != "-").map(Path::new)
}

/// Writes the bytes of a rota that the library accepts, and its names beside them.
fn write_rota(call: &Call, io: &mut Io, bytes: &[u8], names: &Names) -> Result<(), Failure> {
    let rota = Rota::read(bytes)?;
    let Some(path) = output(call) else {
        if io.output_is_terminal {
            let what = "the bytes of a rota are not for a terminal: -o OUT writes them to a file";
            return Err(Failure::Wrong(what.into()));
        }
        return io.print(bytes);
    };
    let rota_file = Pending::write(path, bytes)?;
    let written = format!("wrote {}: {}", path.display(), counts_in_words(&rota.counts()));
    if !rota_file.is_plain() {
        rota_file.commit()?;
        if !names.is_empty() {
            io.note(format_args!("the names are not kept: {} is no plain file", path.display()));
        }
        return io.print(format!("{written}\n"));
    }
    // Both are whole before the first is in its place. Between the two the sum says that the names
    // are not those of the rota.
    let names_path = with_names(path);
    let head = Some(Head::of(&rota)?);
    let names_file = NamesFile { names: names.clone(), head };
    let names_file = Pending::write(&names_path, names_file.print().as_bytes())?;
    names_file.commit()?;
    rota_file.commit()?;
    io.print(format!("{written}\nwrote {}\n", names_path.display()))
}
