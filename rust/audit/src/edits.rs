//! The must-fail edits: each changes what the prover reads, and tells the fact that it fails on.
//! docs/EDITS.md is made of them.

use std::collections::BTreeMap;

use crate::lexer::{proof_tokens, source_tokens};
use crate::repository::{EDITS, Repository};
use crate::statements::compared;

const HEAD: &str = "\
# Wrong programs that the prover must refuse

Made from the files below crates/ by rust/audit, and compared by the gate, which tries each: `crate/name` is the edit crates/crate/must-fail/name.edit
of a line or a few of the crate's source, definitions or laws, with an import where it needs one. Each is refused at a fact that no longer holds, which
its file tells, and never for want of a fact's name. docs/CLAIMS.md says which wrong programs they stand for.
";

struct Edit<'a> {
    breaks: &'a str,
    fails_on: &'a str,
    changes: Vec<Change<'a>>,
}

/// A text that stands once in a file, and what comes in its place.
struct Change<'a> {
    file: &'a str,
    old: &'a str,
    new: &'a str,
}

fn read(text: &str) -> Result<Edit<'_>, &'static str> {
    let mut lines = text.lines().filter(|line| !line.trim().is_empty());
    let mut next =
        |start: &str, why| lines.next().and_then(|line| line.strip_prefix(start)).ok_or(why);
    let breaks = next("# ", "no line that says what it breaks")?;
    let fails_on = next("# fails on ", "no line that says what it fails on")?;
    let mut file = next("file: ", "no file")?;
    let mut changes = Vec::new();
    while let Some(line) = lines.next() {
        if let Some(named) = line.strip_prefix("file: ") {
            file = named;
            continue;
        }
        let old = line.strip_prefix("old: ").ok_or("no line to change")?;
        let new = lines.next().and_then(|line| line.strip_prefix("new:"));
        let new = new.map(|line| line.strip_prefix(' ').unwrap_or(line));
        changes.push(Change { file, old, new: new.ok_or("nothing in its place")? });
    }
    if changes.is_empty() {
        Err("no line to change")
    } else {
        Ok(Edit { breaks, fails_on, changes })
    }
}

/// What the prover reads of a file.
fn tokens(file: &str, text: &str) -> Result<Vec<String>, String> {
    let tokens = if file.ends_with(".rt") { source_tokens(text)? } else { proof_tokens(text)? };
    Ok(tokens.iter().map(|token| token.text.to_string()).collect())
}

/// What is amiss with one edit.
fn judged(repository: &Repository, krate: &str, edit: &Edit) -> Result<(), String> {
    let mut changed: BTreeMap<String, String> = BTreeMap::new();
    for Change { file, old, new } in &edit.changes {
        let path = format!("crates/{krate}/{file}");
        let stored = repository.files.get(&path).ok_or(format!("there is no {path}"))?;
        if !["src/", "specs/", "proofs/"].iter().any(|folder| file.starts_with(folder)) {
            return Err("it changes neither source nor definitions nor laws".to_string());
        }
        let text = changed.entry(path).or_insert_with(|| stored.clone());
        if text.matches(old).count() != 1 {
            return Err("what it changes does not stand there once".to_string());
        }
        *text = text.replacen(old, new, 1);
    }
    for (path, text) in &changed {
        if tokens(path, repository.text(path))? == tokens(path, text)? {
            return Err("it changes nothing that the prover reads".to_string());
        }
    }
    Ok(())
}

/// The page, and what is amiss with the edits.
pub fn page(repository: &Repository) -> (String, Vec<String>) {
    let mut out = HEAD.to_string();
    let mut amiss = Vec::new();
    for (krate, _) in repository.crates() {
        let folder = format!("crates/{krate}/must-fail/");
        let edits = repository.files.iter().filter(|(path, _)| path.starts_with(&folder));
        let mut heading = format!(
            "\n## {krate}\n\n| edit | what it breaks | the fact it fails on |\n|---|---|---|\n"
        );
        for (path, text) in edits {
            let name = path.trim_start_matches(&folder).trim_end_matches(".edit");
            let edit = read(text).map_err(str::to_string);
            match edit.and_then(|edit| judged(repository, krate, &edit).map(|()| edit)) {
                Ok(edit) => {
                    out.push_str(&std::mem::take(&mut heading));
                    let row = [&format!("{krate}/{name}"), edit.breaks, edit.fails_on];
                    out.push_str(&format!("| {} |\n", row.join(" | ")));
                }
                Err(why) => amiss.push(format!("{path}: {why}")),
            }
        }
    }
    (out, amiss)
}

pub fn edits(repository: &Repository) -> Vec<String> {
    let (page, mut amiss) = page(repository);
    amiss.extend(compared(EDITS, repository.text(EDITS), &page));
    amiss
}
