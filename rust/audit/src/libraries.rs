//! What a library rests on: nothing outside, and no assumption.

use crate::functions;
use crate::repository::{CRATES, Repository};

/// Libraries of the kit whose contracts are assumed.
const ASSUMED: [&str; 3] = ["libc", "io", "os"];

const NONE: &str = ": none reached of the ";

/// Lines of crates.txt in which a library uses one of them.
pub fn dependencies(repository: &Repository) -> Vec<String> {
    let mut found = Vec::new();
    let listed = repository.crates();
    for line in repository.text(CRATES).lines() {
        let line = line.split('#').next().unwrap_or("");
        let Some((head, uses)) = line.split_once(':') else { continue };
        let Some(name) = head.split_whitespace().next() else { continue };
        let library = listed.iter().any(|(n, library)| *n == name && *library);
        for used in uses.split_whitespace().filter(|used| library && ASSUMED.contains(used)) {
            found.push(format!("{CRATES}: the library {name} uses {used}"));
        }
    }
    found
}

/// What the proofs printed, `gate` for all crates and `archives` for each that is built as one: every
/// function that the audit reads is proved, none is hidden from the one or the other, and no library
/// rests on an axiom. A crate of which nothing has changed since it was proved is not proved again.
pub fn proofs(repository: &Repository, gate: &str, archives: &[(String, String)]) -> Vec<String> {
    let counted = functions(repository);
    let mut found = Vec::new();
    let mut judged = |name: &str, library: bool, printed: &str, where_: &str| {
        let proved = format!("logic=proved functions={} ", counted[name]);
        let last = printed.lines().rfind(|line| line.starts_with("logic="));
        if !last.is_some_and(|line| format!("{line} ").starts_with(&proved)) {
            found.push(format!("{name}: {where_} not '{}'", proved.trim_end()));
        }
        if library {
            found.extend(axioms(name, printed));
        }
    };
    for (name, library) in repository.crates() {
        let kept = format!("rt: {name} is kept: ");
        match section(name, gate) {
            Some(printed) => judged(name, library, printed, "the gate says"),
            None if gate.lines().any(|line| line.starts_with(&kept)) => {}
            None => judged(name, library, "", "the gate says"),
        }
        for (_, printed) in archives.iter().filter(|(archive, _)| archive == name) {
            judged(name, library, printed, "its archive says");
        }
    }
    found
}

/// What the gate printed of the proof of one crate.
fn section<'a>(name: &str, gate: &'a str) -> Option<&'a str> {
    let head = format!("== {name}\n");
    let start = gate.find(&format!("\n{head}")).map(|at| at + 1);
    let start = start.or(gate.starts_with(&head).then_some(0))?;
    let text = &gate[start + head.len()..];
    let end = [format!("\nrt: {name} proved\n"), format!("\nrt: {name} NOT PROVED\n")];
    Some(&text[..end.iter().filter_map(|end| text.find(end.as_str())).min().unwrap_or(text.len())])
}

/// What a library's check printed, where it counts an axiom. An archive's also lists libraries of the
/// kit of which it reached none.
pub fn axioms(name: &str, printed: &str) -> Vec<String> {
    let lines = printed.lines().filter(|line| line.contains("axioms") && !line.contains(NONE));
    lines.map(|line| format!("the library {name} rests on an axiom: {line}")).collect()
}
