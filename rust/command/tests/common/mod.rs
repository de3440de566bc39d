//! What the tests share: the command run in this process, and as a program of its own.

#![allow(dead_code)]

use std::ffi::OsString;
use std::io::Write;
use std::path::{Path, PathBuf};
use std::process::{Command, Stdio};

use command::run::Io;

/// What a run of the command printed, and how it ended.
#[derive(Debug, PartialEq, Eq)]
pub struct Ran {
    pub status: i32,
    pub output: Vec<u8>,
    pub complaints: String,
}

impl Ran {
    pub fn text(&self) -> &str {
        str::from_utf8(&self.output).expect("the output is text")
    }
}

/// Runs the command here.
pub fn run<A: Into<OsString> + Clone>(arguments: &[A], input: &[u8]) -> Ran {
    let words: Vec<OsString> = arguments.iter().cloned().map(Into::into).collect();
    let (mut input, mut output, mut complaints) = (input, Vec::new(), Vec::new());
    let mut io = Io {
        input: &mut input,
        output: &mut output,
        complaints: &mut complaints,
        output_is_terminal: false,
        complaints_are_terminal: false,
    };
    let status = command::run(&words, &mut io).into();
    Ran { status, output, complaints: String::from_utf8(complaints).expect("complaints are text") }
}

/// The program.
pub fn program() -> Command {
    Command::new(env!("CARGO_BIN_EXE_softlode"))
}

/// Runs a program to its end.
pub fn finish(command: &mut Command, input: &[u8]) -> Ran {
    let command = command.stdin(Stdio::piped()).stdout(Stdio::piped()).stderr(Stdio::piped());
    let mut child = command.spawn().expect("the program is built");
    // A program that ends before it has read everything closes the pipe.
    let _ = child.stdin.take().expect("it is piped").write_all(input);
    let ended = child.wait_with_output().expect("it ends");
    Ran {
        status: ended.status.code().unwrap_or(-1),
        output: ended.stdout,
        complaints: String::from_utf8(ended.stderr).expect("complaints are text"),
    }
}

/// A file of data/.
pub fn data(name: &str) -> PathBuf {
    Path::new(env!("CARGO_MANIFEST_DIR")).join("../../data").join(name)
}

/// A folder of a test's own, which goes away with it.
pub struct Folder(pub PathBuf);

impl Folder {
    pub fn new(name: &str) -> Folder {
        let path = std::env::temp_dir().join(format!("softlode-{name}-{}", std::process::id()));
        let _ = std::fs::remove_dir_all(&path);
        std::fs::create_dir_all(&path).expect("a folder for the test");
        Folder(path)
    }

    pub fn path(&self, name: &str) -> PathBuf {
        self.0.join(name)
    }

    /// A file with these contents, and its path.
    pub fn file(&self, name: &str, contents: impl AsRef<[u8]>) -> PathBuf {
        let path = self.path(name);
        std::fs::write(&path, contents).expect("the test's folder takes files");
        path
    }

    /// The names of all that is in it.
    pub fn names(&self) -> Vec<String> {
        let entries = std::fs::read_dir(&self.0).expect("the folder is there");
        let mut names: Vec<String> =
            entries.map(|entry| entry.unwrap().file_name().into_string().unwrap()).collect();
        names.sort();
        names
    }
}

impl Drop for Folder {
    fn drop(&mut self) {
        let _ = std::fs::remove_dir_all(&self.0);
    }
}
