//! Files: read up to a limit, and written whole or not at all.

use std::ffi::OsStr;
use std::fs::{self, File, OpenOptions};
use std::io::{self, ErrorKind, Read, Write};
use std::os::unix::fs::{MetadataExt, OpenOptionsExt, PermissionsExt, fchown};
use std::path::{Path, PathBuf};

use crate::parts::low_first;
use crate::place::LIMITS;
use crate::run::{Failure, Io};

/// The longest text of a rota, or names file, that is read.
const LONGEST_TEXT: u64 = 4 << 20;

/// Where bytes come from: a file, or with `-` standard input.
#[derive(Clone, Debug, PartialEq, Eq)]
pub enum Source {
    Standard,
    File(PathBuf),
}

impl Source {
    pub fn of(argument: &OsStr) -> Source {
        if argument == "-" { Source::Standard } else { Source::File(argument.into()) }
    }

    /// How a complaint about what is read calls it.
    pub fn shown(&self) -> String {
        match self {
            Source::Standard => "standard input".into(),
            Source::File(path) => path.display().to_string(),
        }
    }

    /// The names file beside it.
    pub fn names(&self) -> Option<PathBuf> {
        match self {
            Source::Standard => None,
            Source::File(path) => Some(with_names(path)),
        }
    }

    /// Reads it by this function, which may stop before its end.
    pub fn read(
        &self,
        io: &mut Io,
        read: impl Fn(&mut dyn Read) -> io::Result<Vec<u8>>,
    ) -> Result<Vec<u8>, Failure> {
        let bytes = match self {
            Source::Standard => read(io.input),
            Source::File(path) => File::open(path).and_then(|mut file| read(&mut file)),
        };
        bytes.map_err(|error| {
            Failure::Wrong(format!("cannot read {}: {}", self.shown(), plain(&error)))
        })
    }

    /// Reads a text.
    pub fn read_text(&self, io: &mut Io) -> Result<Vec<u8>, Failure> {
        let bytes = self.read(io, |file| up_to(file, LONGEST_TEXT + 1))?;
        if bytes.len() as u64 > LONGEST_TEXT {
            let what =
                format!("{} is too long: a text has at most {LONGEST_TEXT} bytes", self.shown());
            return Err(Failure::Wrong(what));
        }
        Ok(bytes)
    }

    /// Reads a rota or a table, as far as the library needs to judge it as it would judge all of it.
    pub fn read_lent(&self, io: &mut Io) -> Result<Vec<u8>, Failure> {
        self.read(io, lent)
    }
}

/// The path of the names file beside a file.
pub fn with_names(path: &Path) -> PathBuf {
    let mut names = path.as_os_str().to_owned();
    names.push(".names");
    names.into()
}

/// What the system says, without its number.
pub fn plain(error: &io::Error) -> String {
    let text = error.to_string();
    text.split(" (os error").next().unwrap_or(&text).to_string()
}

/// Up to so many bytes; where memory ends, that is an error like another.
fn up_to(file: &mut dyn Read, limit: u64) -> io::Result<Vec<u8>> {
    const PIECE: usize = 1 << 16;
    let (mut bytes, mut piece) = (Vec::new(), vec![0; PIECE]);
    loop {
        let room = limit.saturating_sub(bytes.len() as u64).min(PIECE as u64) as usize;
        match file.read(&mut piece[..room]) {
            Ok(0) => return Ok(bytes),
            Ok(count) => {
                bytes.try_reserve(count).map_err(|_| io::Error::from(ErrorKind::OutOfMemory))?;
                bytes.extend_from_slice(&piece[..count]);
            }
            Err(error) if error.kind() == ErrorKind::Interrupted => {}
            Err(error) => return Err(error),
        }
    }
}

/// A rota is never longer than its limit, and a table as long as its header says: one byte more is
/// enough to be refused for its length.
fn lent(file: &mut dyn Read) -> io::Result<Vec<u8>> {
    const HEADER: u64 = 16;
    let mut bytes = up_to(file, HEADER)?;
    let limit = match bytes.get(8..16).filter(|_| is_table(&bytes)) {
        Some(counts) => HEADER + 17 * low_first(&counts[..4]) + 16 * low_first(&counts[4..]),
        None => LIMITS.bytes as u64,
    };
    let mut rest = up_to(file, limit + 1 - HEADER)?;
    bytes.append(&mut rest);
    Ok(bytes)
}

/// Whether bytes say that they are a table.
pub fn is_table(bytes: &[u8]) -> bool {
    bytes.starts_with(&[2, 0])
}

/// A file that is ready to take its place: written beside it, and synced. Dropped before that, it
/// goes away.
pub struct Pending {
    target: PathBuf,
    content: Content,
}

enum Content {
    Beside(PathBuf),
    /// What is no plain file, such as a device, is written to as it is.
    Direct(Vec<u8>),
    Done,
}

impl Pending {
    /// Writes the bytes beside the file. A link is followed, and what it leads to is replaced.
    pub fn write(path: &Path, bytes: &[u8]) -> Result<Pending, Failure> {
        Pending::try_write(path, bytes).map_err(|error| cannot_write(path, &error))
    }

    fn try_write(path: &Path, bytes: &[u8]) -> io::Result<Pending> {
        let is_link = fs::symlink_metadata(path).is_ok_and(|data| data.is_symlink());
        let target = if is_link { fs::canonicalize(path)? } else { path.to_path_buf() };
        let replaced = match fs::metadata(&target) {
            Ok(data) if data.is_file() => Some(data),
            Ok(data) if data.is_dir() => return Err(ErrorKind::IsADirectory.into()),
            Ok(_) => return Ok(Pending { target, content: Content::Direct(bytes.to_vec()) }),
            Err(error) if error.kind() == ErrorKind::NotFound => None,
            Err(error) => return Err(error),
        };
        let (beside, mut file) =
            create_beside(&target, if replaced.is_some() { 0o600 } else { 0o666 })?;
        let pending = Pending { target, content: Content::Beside(beside) };
        file.write_all(bytes)?;
        if let Some(data) = replaced {
            // Another's file stays another's where that is allowed.
            let _ = fchown(&file, Some(data.uid()), Some(data.gid()));
            file.set_permissions(fs::Permissions::from_mode(data.mode() & 0o7777))?;
        }
        file.sync_all()?;
        Ok(pending)
    }

    /// Puts the file in its place.
    pub fn commit(mut self) -> Result<(), Failure> {
        let target = self.target.clone();
        self.place().map_err(|error| cannot_write(&target, &error))
    }

    fn place(&mut self) -> io::Result<()> {
        match &self.content {
            Content::Beside(beside) => fs::rename(beside, &self.target)?,
            Content::Direct(bytes) => {
                let mut file = OpenOptions::new().write(true).open(&self.target)?;
                file.write_all(bytes)?;
                file.flush()?;
            }
            Content::Done => {}
        }
        self.content = Content::Done;
        Ok(())
    }

    /// Whether it is a plain file, beside which names can be kept.
    pub fn is_plain(&self) -> bool {
        matches!(self.content, Content::Beside(_))
    }
}

impl Drop for Pending {
    fn drop(&mut self) {
        if let Content::Beside(beside) = &self.content {
            let _ = fs::remove_file(beside);
        }
    }
}

fn cannot_write(path: &Path, error: &io::Error) -> Failure {
    Failure::Wrong(format!("cannot write {}: {}", path.display(), plain(error)))
}

/// A new file in the folder of another, under a name that nobody has.
fn create_beside(target: &Path, mode: u32) -> io::Result<(PathBuf, File)> {
    let name = target.file_name().ok_or(ErrorKind::InvalidFilename)?;
    for attempt in 0..100 {
        let mut hidden = std::ffi::OsString::from(".");
        hidden.push(name);
        hidden.push(format!(".{}-{attempt}.new", std::process::id()));
        let beside = target.with_file_name(hidden);
        match OpenOptions::new().write(true).create_new(true).mode(mode).open(&beside) {
            Err(error) if error.kind() == ErrorKind::AlreadyExists => {}
            opened => return opened.map(|file| (beside, file)),
        }
    }
    Err(ErrorKind::AlreadyExists.into())
}
