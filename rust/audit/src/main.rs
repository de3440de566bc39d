//! Audits the repository: `audit sources` reads the source files, `audit proofs GATE [NAME=FILE ..]`
//! what the gate printed and what was printed when archives were built; `audit functions` counts the
//! functions; `audit write` makes docs/STATEMENTS.md and docs/EDITS.md anew. Prints what it found;
//! the status is 0 only where that is nothing.

use std::fs;
use std::path::Path;
use std::process::ExitCode;

use audit::{Repository, functions, pages, proofs, sources};

fn main() -> ExitCode {
    let root = Path::new(env!("CARGO_MANIFEST_DIR")).join("../..");
    let words: Vec<String> = std::env::args().skip(1).collect();
    let words: Vec<&str> = words.iter().map(String::as_str).collect();
    let found = Repository::read(&root).and_then(|repository| match words[..] {
        ["sources"] => Ok(sources(&repository)),
        ["proofs", gate, ref archives @ ..] => printed(&repository, gate, archives),
        ["functions"] => {
            println!("{}", functions(&repository).values().sum::<usize>());
            Ok(Vec::new())
        }
        ["write"] => write(&root, &repository),
        _ => Err("sources, proofs, functions or write".to_string()),
    });
    match found {
        Ok(found) if found.is_empty() => ExitCode::SUCCESS,
        Ok(found) => {
            found.iter().for_each(|line| println!("audit: {line}"));
            ExitCode::FAILURE
        }
        Err(problem) => {
            println!("audit: {problem}");
            ExitCode::FAILURE
        }
    }
}

fn write(root: &Path, repository: &Repository) -> Result<Vec<String>, String> {
    for (path, text) in pages(repository) {
        fs::write(root.join(path), text).map_err(|e| format!("{path}: {e}"))?;
    }
    Ok(Vec::new())
}

fn printed(repository: &Repository, gate: &str, archives: &[&str]) -> Result<Vec<String>, String> {
    let read = |path: &str| fs::read_to_string(path).map_err(|e| format!("{path}: {e}"));
    let archives = archives.iter().map(|word| {
        let (name, file) = word.split_once('=').ok_or(format!("{word} is no NAME=FILE"))?;
        Ok((name.to_string(), read(file)?))
    });
    Ok(proofs(repository, &read(gate)?, &archives.collect::<Result<Vec<_>, String>>()?))
}
