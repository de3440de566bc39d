//! The names of the kit that contracts, definitions and claims are read by. Each has one home, is
//! brought in under its own name, and nothing else is called so.

use std::collections::{BTreeMap, BTreeSet};

use crate::proof::{Import, Kind, Proof};
use crate::repository::{Module, Repository, SYMBOLS, Sources, place};

/// Names that are there with no `use` line: those of the language's own prelude,
const PRELUDE: [&str; 18] = [
    "IsProp",
    "IsSet",
    "⊥",
    "absurd",
    "¬◌",
    "Dec",
    "yes",
    "no",
    "Discrete",
    "∥◌∥₁",
    "∣◌∣₁",
    "squash₁",
    "Unit",
    "tt",
    "Id",
    "J",
    "Path",
    "◌×◌",
];

/// and those that every clause of a contract is lent.
const LENT: [&str; 15] = [
    "result",
    "⌜◌⌝",
    "∀ₛ",
    "∃ₛ",
    "◌∧ₛ◌",
    "◌∨ₛ◌",
    "◌→ₛ◌",
    "◌∗◌",
    "◌-∗◌",
    "⊤ₛ",
    "⊥ₛ",
    "◌>>=◌",
    "◌>>◌",
    "𝓤",
    "𝓛",
];

/// Constructors: a pattern that has one is no new name.
const CONSTRUCTORS: [&str; 19] = [
    "true", "false", "zero", "suc", "[]", "∷", "some", "none", "tt", "yes", "no", "refl", "Some",
    "None", "Ok", "Err", "Less", "Equal", "Greater",
];

/// What .ci/symbols lists openly: names with several homes, and other names for names of the kit.
struct Listed<'a> {
    homes: BTreeMap<&'a str, BTreeSet<&'a str>>,
    aliases: BTreeSet<(&'a str, &'a str)>,
}

impl<'a> Listed<'a> {
    fn read(text: &'a str) -> Listed<'a> {
        let mut listed = Listed { homes: BTreeMap::new(), aliases: BTreeSet::new() };
        for line in text.lines().filter(|line| !line.starts_with('#')) {
            let words: Vec<&str> = line.split_whitespace().collect();
            match words[..] {
                [name, "as", other] => {
                    listed.aliases.insert((name, other));
                }
                [name, ref modules @ ..] => {
                    listed.homes.insert(name, modules.iter().copied().collect());
                }
                [] => {}
            }
        }
        listed
    }
}

/// What is brought in by a file of src/ or specs/, or one with a claimed theorem.
fn scope<'a>(sources: &'a Sources, claimed: &BTreeSet<String>) -> Vec<(&'a str, &'a [Import])> {
    let specs = sources.proofs.iter().filter(|(file, _)| in_scope(file, claimed));
    let sources = sources.sources.iter().map(|(file, source)| (*file, &source.imports[..]));
    sources.chain(specs.map(|(file, proof)| (*file, &proof.imports[..]))).collect()
}

/// Whether a file is one of those, where it is not of src/.
fn in_scope(file: &str, claimed: &BTreeSet<String>) -> bool {
    claimed.contains(file) || place(file).is_some_and(|(_, folder)| folder == "specs")
}

/// What is amiss; `claimed` are the files of proofs/ that have a claimed theorem.
pub fn symbols(
    repository: &Repository,
    sources: &Sources,
    claimed: &BTreeSet<String>,
) -> Vec<String> {
    let listed = Listed::read(repository.text(SYMBOLS));
    let mut found = Vec::new();
    let scope = scope(sources, claimed);
    let mut homes: BTreeMap<&str, BTreeSet<&str>> = BTreeMap::new();
    let mut aliases: BTreeSet<(&str, &str)> = BTreeSet::new();
    for (file, imports) in &scope {
        for import in imports.iter() {
            let place = format!("{file}:{}", import.line);
            if import.item.as_deref() == Some("*") {
                found.push(format!("{place}: all names of a module are brought in"));
            } else if Module::of(&import.module, repository) == Module::Kit {
                let Some(item) = &import.item else {
                    found.push(format!("{place}: a module of the kit is brought in whole"));
                    continue;
                };
                homes.entry(item).or_default().insert(&import.module);
                if *item != import.name && !aliases_listed(&listed, &mut aliases, item, import) {
                    found.push(format!("{place}: {item} is brought in as {}", import.name));
                }
            }
        }
    }
    for (name, modules) in &homes {
        if modules.len() > 1 && listed.homes.get(name) != Some(modules) {
            found.push(format!("{name} has several homes: {modules:?}"));
        }
    }
    for (name, modules) in &listed.homes {
        if homes.get(name) != Some(modules) {
            found.push(format!("{SYMBOLS}: {name} is listed with homes that it has not"));
        }
    }
    for (name, other) in listed.aliases.difference(&aliases) {
        found.push(format!("{SYMBOLS}: {name} is nowhere brought in as {other}"));
    }
    let kit = Kit { homes: &homes };
    for (file, imports) in &scope {
        found.extend(kit.imported(repository, file, imports));
        if let Some(proof) = sources.proofs.get(file) {
            for declared in &proof.declared {
                let name = &declared.name;
                if declared.kind != Kind::Field && (kit.has(name) || kit.root(name)) {
                    found.push(format!("{file}:{}: {} is defined", declared.line, declared.name));
                }
            }
            let named = proof.modules.iter().filter(|module| kit.has(module) || kit.root(module));
            found.extend(named.map(|module| format!("{file}: a module is called {module}")));
            for (name, line) in &proof.bound {
                if kit.hidden(name, imports) {
                    found.push(format!("{file}:{line}: {name} is bound"));
                }
            }
            for (name, line) in &proof.lets {
                if kit.has(name) || kit.hidden(name, imports) {
                    found.push(format!("{file}:{line}: {name} is bound"));
                }
            }
        }
        if let Some(source) = sources.sources.get(file) {
            let items = source.items.iter().map(|item| &item.name);
            let functions = source.functions.iter().map(|function| &function.name);
            for name in items.chain(functions).filter(|name| kit.has(name) || kit.root(name)) {
                found.push(format!("{file}: {name} is declared"));
            }
            for function in source.functions.iter().filter(|f| f.requires + f.ensures > 0) {
                for name in function
                    .parameters
                    .iter()
                    .filter(|name| LENT.contains(&name.as_str()) || kit.hidden(name, imports))
                {
                    found.push(format!("{file}:{}: a parameter hides {name}", function.line));
                }
            }
        }
    }
    for (file, proof) in sources.proofs.iter().filter(|(file, _)| !in_scope(file, claimed)) {
        found.extend(kit.proved(repository, file, proof));
    }
    found
}

fn aliases_listed<'a>(
    listed: &Listed,
    aliases: &mut BTreeSet<(&'a str, &'a str)>,
    item: &'a str,
    import: &'a Import,
) -> bool {
    aliases.insert((item, &import.name));
    listed.aliases.contains(&(item, import.name.as_str()))
}

/// The names of the kit that are used.
struct Kit<'a> {
    homes: &'a BTreeMap<&'a str, BTreeSet<&'a str>>,
}

impl Kit<'_> {
    fn has(&self, name: &str) -> bool {
        self.homes.contains_key(name) || PRELUDE.contains(&name) || LENT.contains(&name)
    }

    /// The first name of a module of the kit: another thing of that name would lead elsewhere.
    fn root(&self, name: &str) -> bool {
        let mut modules = self.homes.values().flatten();
        modules.any(|module| module.split('.').next() == Some(name))
    }

    /// Whether a bound name hides one of the kit's that the file has; a constructor in a pattern
    /// hides nothing.
    fn hidden(&self, name: &str, imports: &[Import]) -> bool {
        let operator = format!("◌{name}◌");
        let brought =
            imports.iter().any(|import| [name, &operator].contains(&import.name.as_str()));
        (brought || PRELUDE.contains(&name)) && self.has(name) && !CONSTRUCTORS.contains(&name)
    }

    /// What is called like a name of the kit's in a file where nothing is claimed. A law there may have
    /// a constructor's name, or one that clauses alone are lent.
    fn proved(&self, repository: &Repository, file: &str, proof: &Proof) -> Vec<String> {
        let mut found = self.imported(repository, file, &proof.imports);
        for import in &proof.imports {
            let place = format!("{file}:{}", import.line);
            match import.item.as_deref() {
                Some("*") => found.push(format!("{place}: all names of a module are brought in")),
                Some(item) if item != import.name && self.has(&import.name) => {
                    found.push(format!("{place}: {item} is brought in as {}", import.name));
                }
                _ => {}
            }
        }
        let taken = |name: &str| {
            let free = CONSTRUCTORS.contains(&name) || LENT.contains(&name);
            (self.has(name) || self.root(name)) && !free
        };
        for declared in proof.declared.iter().filter(|d| d.kind != Kind::Field && taken(&d.name)) {
            found.push(format!("{file}:{}: {} is defined", declared.line, declared.name));
        }
        for (name, line) in proof.lets.iter().filter(|(name, _)| taken(name)) {
            found.push(format!("{file}:{line}: {name} is bound"));
        }
        let named = proof.modules.iter().filter(|module| self.has(module) || self.root(module));
        found.extend(named.map(|module| format!("{file}: a module is called {module}")));
        found
    }

    /// What comes from elsewhere under a name of the kit's.
    fn imported(&self, repository: &Repository, file: &str, imports: &[Import]) -> Vec<String> {
        let elsewhere = imports.iter().filter(|import| {
            Module::of(&import.module, repository) != Module::Kit
                && (self.has(&import.name) || import.item.is_none() && self.root(&import.name))
        });
        elsewhere
            .map(|i| format!("{file}:{}: {} is brought in from {}", i.line, i.name, i.module))
            .collect()
    }
}
