//! Contracts: every function of a library has an `ensures` or stands in an impl of a trait that says
//! what it promises, no function that hosts can call has a `requires`, and neither contracts nor
//! definitions are in the words of proofs/.

use crate::claims::{Claim, Named};
use crate::lexer::Token;
use crate::repository::{KIT, Repository, Sources, place};
use crate::source::Place;

/// The section of CLAIMS that lists the functions which take whatever comes.
pub const ENTRY_POINTS: &str = "Entry points";

/// Exports for the tests, which promise nothing.
pub const UNSTATED: &str = "probe";

pub fn contracts(
    repository: &Repository,
    sources: &Sources,
    claimed: &[(Claim, Named)],
) -> Vec<String> {
    let mut found = Vec::new();
    let listed = repository.crates();
    let library = |krate: &str| listed.iter().any(|(name, library)| *name == krate && *library);
    for (file, source) in &sources.sources {
        let Some((krate, _)) = place(file) else { continue };
        for function in &source.functions {
            let place = format!("{file}:{}", function.line);
            let claim = Claim::Contract { file: file.to_string(), name: function.name.clone() };
            let entry = claimed
                .iter()
                .any(|(known, named)| *known == claim && named.section == ENTRY_POINTS);
            if !function.has_body && function.place != Place::Declared {
                found.push(format!("{place}: a function without a body"));
            } else if (function.exported || entry) && function.requires > 0 {
                found.push(format!("{place}: an entry point has a requires"));
            } else if library(krate)
                && krate != UNSTATED
                && (function.exported || function.place != Place::Promised)
                && function.ensures == 0
            {
                found.push(format!("{place}: a function of a library has no ensures"));
            }
        }
        found.extend(of_proofs(file, &source.tokens));
    }
    for (file, proof) in &sources.proofs {
        if place(file).is_some_and(|(_, folder)| folder == "specs") {
            found.extend(of_proofs(file, &proof.tokens));
        }
    }
    found
}

/// Paths in src/ or specs/ that lead to the proofs of a crate, which nobody reads.
fn of_proofs(file: &str, tokens: &[Token]) -> Vec<String> {
    let leads = |at: &usize| {
        let words: Vec<&str> = tokens[*at..].iter().take(5).map(|token| token.text).collect();
        matches!(words[..], ["Rattle", ".", krate, ".", "proofs"] if !KIT.contains(&krate))
    };
    let places = (0..tokens.len()).filter(leads).map(|at| tokens[at].line);
    places.map(|line| format!("{file}:{line}: words of a contract stand in proofs/")).collect()
}
