//! What docs/CLAIMS.md names: theorems and definitions with their files, functions, edits, and words
//! of contracts.

use std::collections::{BTreeMap, BTreeSet};

use crate::lexer::proof_tokens;
use crate::proof::Kind;
use crate::repository::{CLAIMS, Repository, Sources, place};

/// One name in code quotes.
#[derive(Clone, Debug, PartialEq)]
pub struct Named {
    pub text: String,
    /// The file that stands in brackets after it, or after those that it is listed with.
    pub file: Option<String>,
    pub line: usize,
    /// The headings that it stands below, the second of a table's rows.
    pub section: String,
    pub part: Option<String>,
}

/// Every name in code quotes, but for blocks of code. A paragraph is read as one line.
pub fn named(text: &str) -> Vec<Named> {
    let mut found = Vec::new();
    let (mut section, mut part) = (String::new(), None);
    for (line, text) in paragraphs(text) {
        if text.starts_with('#') {
            section = text.trim_start_matches(['#', ' ']).to_string();
            part = None;
        } else if let Some((bold, _)) =
            text.strip_prefix("| **").and_then(|row| row.split_once("**"))
        {
            part = Some(bold.trim_end_matches('.').to_string());
        } else if !text.starts_with('|') {
            part = None;
        }
        let pieces: Vec<&str> = text.split('`').collect();
        let mut file: Option<String> = None;
        let mut names = Vec::new();
        // Odd pieces are names, and what follows each is the text up to the next one.
        for at in (1..pieces.len().saturating_sub(1)).step_by(2).rev() {
            let after = pieces[at + 1];
            file = match after.strip_prefix(" (").and_then(|rest| rest.split_once(".antt")) {
                Some((path, _)) if !path.contains(' ') => Some(format!("crates/{path}.antt")),
                _ if [", ", " and "].contains(&after) => file,
                _ => None,
            };
            names.push(Named {
                text: pieces[at].to_string(),
                file: file.clone(),
                line,
                section: section.clone(),
                part: part.clone(),
            });
        }
        found.extend(names.into_iter().rev());
    }
    found
}

/// Headings, rows of tables and paragraphs, each with the line where it begins.
fn paragraphs(text: &str) -> Vec<(usize, String)> {
    let mut found: Vec<(usize, String)> = Vec::new();
    let mut goes_on = false;
    for (number, line) in text.lines().enumerate() {
        let alone = line.starts_with(['|', '#']);
        if line.trim().is_empty() || line.starts_with("    ") {
            goes_on = false;
        } else if goes_on && !alone {
            let last = found.last_mut().expect("a paragraph that goes on has begun");
            last.1.push(' ');
            last.1.push_str(line);
        } else {
            found.push((number + 1, line.to_string()));
            goes_on = !alone;
        }
    }
    found
}

/// Something that is claimed, by its file and name.
#[derive(Clone, Debug, PartialEq, Eq, PartialOrd, Ord)]
pub enum Claim {
    /// A function, with its contract.
    Contract {
        file: String,
        name: String,
    },
    Theorem {
        file: String,
        name: String,
    },
}

/// What CLAIMS claims, in its order, with the headings; and what is amiss with its names.
pub fn claims(repository: &Repository, sources: &Sources) -> (Vec<(Claim, Named)>, Vec<String>) {
    let all = named(repository.text(CLAIMS));
    let tried: BTreeSet<&str> =
        all.iter().filter(|n| n.section == TRIED_ONCE).map(|n| n.text.as_str()).collect();
    let mut claimed: Vec<(Claim, Named)> = Vec::new();
    let mut amiss = Vec::new();
    // Names that stand with their file somewhere need it only once.
    let mut filed: BTreeMap<&str, BTreeSet<&str>> = BTreeMap::new();
    for name in &all {
        filed.entry(&name.text).or_default().extend(name.file.as_deref());
    }
    for name in &all {
        match resolve(name, repository, sources, &filed, &tried) {
            Ok(Some(claim)) if !claimed.iter().any(|(known, _)| *known == claim) => {
                claimed.push((claim, name.clone()));
            }
            Ok(_) => {}
            Err(why) => amiss.push(format!("{CLAIMS}:{}: {why}", name.line)),
        }
    }
    (claimed, amiss)
}

/// Words in code quotes that are no names of the repository's.
const WORDS: [&str; 6] = ["code", "requires", "ensures", "&mut", "make", "main"];

fn resolve(
    name: &Named,
    repository: &Repository,
    sources: &Sources,
    filed: &BTreeMap<&str, BTreeSet<&str>>,
    tried: &BTreeSet<&str>,
) -> Result<Option<Claim>, String> {
    let text = name.text.as_str();
    if name.section != TRIED_ONCE
        && let Some(file) = &name.file
    {
        return in_file(file, text, sources)
            .ok_or(format!("{text} is not declared in {}", file.trim_start_matches("crates/")));
    }
    if let Some((krate, edit)) = text.split_once('/') {
        let file = format!("crates/{krate}/must-fail/{edit}.edit");
        return match (repository.files.contains_key(&file), tried.contains(text)) {
            (true, true) => Err(format!("{text} was tried once, and is there")),
            (false, false) => Err(format!("there is no edit {text}")),
            _ => Ok(None),
        };
    }
    let krate = repository.crates().iter().any(|(krate, _)| *krate == text);
    if krate || WORDS.contains(&text) || name.section == TRIED_ONCE {
        return Ok(None);
    }
    if let Some((krate, function)) = text.split_once("::") {
        return in_source(krate, function, sources).ok_or(format!("there is no {text}"));
    }
    if text.contains(' ') {
        return words_of_a_contract(text, sources).map(|()| None);
    }
    if text.starts_with("softlode_") {
        let declared = || repository.text("include/softlode.h").contains(&format!("{text}("));
        return match in_source("softlode", text, sources) {
            Some(claim) => Ok(claim),
            None if declared() => Ok(None),
            None => Err(format!("there is no {text}")),
        };
    }
    let named: Vec<&str> = filed.get(text).into_iter().flatten().copied().collect();
    if let [file] = named[..] {
        return in_file(file, text, sources)
            .ok_or(format!("{text} is not declared in {}", file.trim_start_matches("crates/")));
    }
    let specs = declaring(text, "specs", sources);
    let proofs = declaring(text, "proofs", sources);
    match (&specs[..], &proofs[..]) {
        ([], []) => Err(format!("{text} is declared nowhere")),
        ([_], _) => Ok(None),
        ([], [file]) => Err(format!("{text} is a theorem: name its file, {file}")),
        _ => Err(format!("{text} is declared in several files: name one of {specs:?} {proofs:?}")),
    }
}

/// The section of CLAIMS that names edits which are tried no more.
pub const TRIED_ONCE: &str = "Tried once";

/// A function of a crate, as a claim; or nothing to claim of a type or a constant.
fn in_source(krate: &str, name: &str, sources: &Sources) -> Option<Option<Claim>> {
    for (path, source) in sources.of_crate(krate) {
        if source.functions.iter().any(|function| function.name == name) {
            let file = path.to_string();
            return Some(Some(Claim::Contract { file, name: name.to_string() }));
        }
        if source.items.iter().any(|item| item.name == name) {
            return Some(None);
        }
    }
    None
}

fn in_file(file: &str, name: &str, sources: &Sources) -> Option<Option<Claim>> {
    let proof = sources.proofs.get(file)?;
    let declared = proof.declared.iter().find(|d| d.name == name && !d.within.clause)?;
    let theorem = declared.kind == Kind::Signed && place(file)?.1 == "proofs";
    let (file, name) = (file.to_string(), name.to_string());
    Some(theorem.then_some(Claim::Theorem { file, name }))
}

/// The files of a folder of the crates that declare a name.
fn declaring(name: &str, folder: &str, sources: &Sources) -> Vec<String> {
    let files = sources.proofs.iter().filter(|(path, proof)| {
        place(path).is_some_and(|(_, f)| f == folder)
            && proof.declared.iter().any(|d| d.name == name && !d.within.clause)
    });
    files.map(|(path, _)| path.trim_start_matches("crates/").to_string()).collect()
}

/// Words that CLAIMS quotes stand so in the clauses of one function, each piece between `..`.
fn words_of_a_contract(text: &str, sources: &Sources) -> Result<(), String> {
    let pieces: Vec<Vec<&str>> = text
        .split("..")
        .map(|piece| Ok(proof_tokens(piece)?.iter().map(|token| token.text).collect()))
        .collect::<Result<_, String>>()?;
    let said = sources.sources.values().any(|source| {
        source.functions.iter().any(|function| {
            let words: Vec<&str> =
                source.tokens[function.head.clone()].iter().map(|token| token.text).collect();
            pieces.iter().all(|piece| {
                piece.is_empty() || words.windows(piece.len()).any(|window| window == &piece[..])
            })
        })
    });
    if said { Ok(()) } else { Err(format!("no contract says {text}")) }
}
