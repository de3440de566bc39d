//! What the prover does not ask of a repository: that what is claimed is there and stays as it is,
//! that contracts ask nothing of a host, and that they are read by the kit's own names. Each check
//! gives what it found, a line each.

mod claims;
mod contracts;
mod edits;
mod lexer;
mod libraries;
mod proof;
mod repository;
mod source;
mod statements;
mod sum;
mod symbols;

use std::collections::{BTreeMap, BTreeSet};

use claims::Claim;
pub use contracts::UNSTATED;
pub use libraries::{axioms, dependencies, proofs};
use repository::Sources;
pub use repository::{CRATES, EDITS, Repository, STATEMENTS};
use source::Source;

/// All that is amiss with the sources.
pub fn sources(repository: &Repository) -> Vec<String> {
    let (sources, mut found) = Sources::read(repository);
    if repository.crates().is_empty() {
        found.push(format!("{CRATES}: no crate"));
    }
    let (claimed, _) = claims::claims(repository, &sources);
    let files: BTreeSet<String> = claimed
        .iter()
        .filter_map(|(claim, _)| match claim {
            Claim::Theorem { file, .. } => Some(file.clone()),
            Claim::Contract { .. } => None,
        })
        .collect();
    found.extend(dependencies(repository));
    found.extend(contracts::contracts(repository, &sources, &claimed));
    found.extend(symbols::symbols(repository, &sources, &files));
    found.extend(statements::statements(repository, &sources));
    found.extend(edits::edits(repository));
    found
}

/// The pages that are made, by their path.
pub fn pages(repository: &Repository) -> Vec<(&'static str, String)> {
    let (sources, _) = Sources::read(repository);
    let statements = statements::page(repository, &sources).0;
    vec![(STATEMENTS, statements), (EDITS, edits::page(repository).0)]
}

/// How many functions each crate has: those with a body, and those that stand there unwritten.
pub fn functions(repository: &Repository) -> BTreeMap<String, usize> {
    let (sources, _) = Sources::read(repository);
    let read = |source: &Source| {
        source.functions.iter().filter(|function| function.has_body).count() + source.derived
    };
    let count = |name: &str| sources.of_crate(name).map(|(_, source)| read(source)).sum();
    repository.crates().iter().map(|(name, _)| (name.to_string(), count(name))).collect()
}
