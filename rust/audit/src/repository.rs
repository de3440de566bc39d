//! The files of the repository that the audit reads, by their path from its root.

use std::collections::BTreeMap;
use std::fs;
use std::path::Path;

use crate::proof::Proof;
use crate::source::Source;

/// Each file's text; a test changes one and looks at what is found.
#[derive(Clone)]
pub struct Repository {
    pub files: BTreeMap<String, String>,
}

/// The pages that the audit reads or makes, the list of crates, and what is listed openly.
pub const CLAIMS: &str = "docs/CLAIMS.md";
pub const STATEMENTS: &str = "docs/STATEMENTS.md";
pub const EDITS: &str = "docs/EDITS.md";
pub const CRATES: &str = "crates.txt";
pub const SYMBOLS: &str = ".ci/symbols";
const HEADER: &str = "include/softlode.h";

impl Repository {
    pub fn read(root: &Path) -> Result<Repository, String> {
        let mut files = BTreeMap::new();
        gather(root, &root.join("crates"), &mut files)?;
        for path in [CLAIMS, STATEMENTS, EDITS, CRATES, SYMBOLS, HEADER] {
            if let Ok(text) = fs::read_to_string(root.join(path)) {
                files.insert(path.to_string(), text);
            }
        }
        Ok(Repository { files })
    }

    pub fn text(&self, path: &str) -> &str {
        self.files.get(path).map_or("", |text| text)
    }

    /// The crates of crates.txt, and whether each is a library.
    pub fn crates(&self) -> Vec<(&str, bool)> {
        let lines = self.text(CRATES).lines().filter(|line| !line.starts_with('#'));
        let heads = lines.filter_map(|line| line.split_once(':')).map(|(head, _)| head);
        heads
            .filter_map(|head| head.split_whitespace().next())
            .map(|name| (name, self.files.contains_key(&format!("crates/{name}/src/lib.rt"))))
            .collect()
    }
}

/// Every file below a folder that is text, but for what rt makes in a crate's out/.
fn gather(root: &Path, folder: &Path, files: &mut BTreeMap<String, String>) -> Result<(), String> {
    let entries = fs::read_dir(folder).map_err(|e| format!("{}: {e}", folder.display()))?;
    for path in entries.flatten().map(|entry| entry.path()) {
        let ending = path.extension().and_then(|ending| ending.to_str()).unwrap_or("");
        let made = path.ends_with("out") && folder.parent() == Some(&root.join("crates"));
        if path.is_dir() && !made {
            gather(root, &path, files)?;
        } else if ["rt", "antt", "edit"].contains(&ending) {
            let text = fs::read_to_string(&path).map_err(|e| format!("{}: {e}", path.display()))?;
            let name = path.strip_prefix(root).unwrap_or(&path).display().to_string();
            files.insert(name, text);
        }
    }
    Ok(())
}

/// The files of the crates, read.
pub struct Sources<'a> {
    pub proofs: BTreeMap<&'a str, Proof<'a>>,
    pub sources: BTreeMap<&'a str, Source<'a>>,
}

impl<'a> Sources<'a> {
    /// Reads them all; what cannot be read is told, since it could hold anything.
    pub fn read(repository: &'a Repository) -> (Sources<'a>, Vec<String>) {
        let mut all = Sources { proofs: BTreeMap::new(), sources: BTreeMap::new() };
        let mut unread = Vec::new();
        for (path, text) in &repository.files {
            let amiss = if path.ends_with(".antt") {
                Proof::read(text).map(|proof| all.proofs.insert(path, proof)).err()
            } else if path.ends_with(".rt") {
                Source::read(text).map(|source| all.sources.insert(path, source)).err()
            } else {
                None
            };
            unread.extend(amiss.map(|why| format!("{path}: {why}")));
        }
        (all, unread)
    }

    /// The crate's files of src/.
    pub fn of_crate(&self, name: &str) -> impl Iterator<Item = (&'a str, &Source<'a>)> {
        let folder = format!("crates/{name}/src/");
        self.sources.iter().filter(move |(path, _)| path.starts_with(&folder)).map(|(p, s)| (*p, s))
    }
}

/// The crate in whose folder a file stands, and the folder of it.
pub fn place(path: &str) -> Option<(&str, &str)> {
    let mut parts = path.strip_prefix("crates/")?.split('/');
    Some((parts.next()?, parts.next()?))
}

/// The kit's own libraries of Rattle, on which every crate stands.
pub const KIT: [&str; 2] = ["core", "std"];

/// The last name of a file's module, with its dot.
fn module_name(file: &str) -> String {
    let name = file.rsplit('/').next().unwrap_or(file);
    format!(".{}", name.trim_end_matches(".antt"))
}

/// What a module of the proof language is.
#[derive(Clone, Debug, PartialEq)]
pub enum Module {
    /// A module of the kit.
    Kit,
    /// A file of a crate.
    File(String),
    /// A type that a crate's source declares.
    Declared { krate: String, name: String },
    /// Something of a crate that is no file: what the kit makes of a function.
    Made(String),
}

impl Module {
    /// A module by its dotted path.
    pub fn of(path: &str, repository: &Repository) -> Module {
        match Module::on_the_way(path, repository) {
            Module::File(file) if !path.ends_with(&module_name(&file)) => {
                Module::Made(path.to_string())
            }
            module => module,
        }
    }

    /// The module that a path leads through, which may go on to an item.
    pub fn on_the_way(path: &str, repository: &Repository) -> Module {
        let mut names = path.split('.');
        let (library, krate) = (names.next(), names.next().unwrap_or(""));
        if library != Some("Rattle") || KIT.contains(&krate) {
            return Module::Kit;
        }
        let parts: Vec<&str> = names.collect();
        if let ["specs", "declared", name, ..] = parts[..] {
            return Module::Declared { krate: krate.to_string(), name: name.to_string() };
        }
        for count in (1..=parts.len()).rev() {
            let file = format!("crates/{krate}/{}.antt", parts[..count].join("/"));
            if repository.files.contains_key(&file) {
                return Module::File(file);
            }
        }
        Module::Made(path.to_string())
    }
}
