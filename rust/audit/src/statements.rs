//! docs/STATEMENTS.md: what is claimed, in its own words. Every contract and theorem that CLAIMS
//! names, whole, below the same headings, with the records that it speaks of and the files that its
//! words come from; the types of the code; and a sum of each file of definitions that is reached.

use std::collections::{BTreeMap, BTreeSet};

use crate::claims::{Claim, Named, claims};
use crate::lexer::{Token, shown};
use crate::proof::{Import, Kind, Proof, bare};
use crate::repository::{CLAIMS, Module, Repository, STATEMENTS, Sources, place};
use crate::source::Source;
use crate::sum::sum;

const HEAD: &str = "\
# What is claimed, in its own words

Made from the sources by rust/audit, and compared by the gate: whatever is dropped, weakened or moved shows here. docs/CLAIMS.md says which sentence of
the papers each of these states; the headings are its headings, and each contract and theorem stands where it is first named there. Below each are the
words that it is over, with their files (below crates/), and a theorem's records, where they are first spoken of; words of the kit, as `◌≡◌`, `ℕ` and
`length`, mean what the kit says, and nothing else is called like one. At the end: the types of the code that are spoken of, and the sums of all files
of definitions that are reached.

To make it anew: `rust/target/debug/audit write`.
";

/// A word of a statement, and where it comes from.
#[derive(Clone, Debug, PartialEq, Eq, PartialOrd, Ord)]
enum Home {
    File(String),
    Type(String, String),
}

/// What the words of a statement mean.
struct Words<'a> {
    repository: &'a Repository,
    sources: &'a Sources<'a>,
}

impl Words<'_> {
    /// The homes of the imported words among these tokens; and what has none that a claim may have.
    fn of(&self, tokens: &[Token], imports: &[Import]) -> (BTreeMap<String, Home>, Vec<String>) {
        let texts: BTreeSet<&str> = tokens.iter().map(|token| bare(token.text)).collect();
        let mut found = BTreeMap::new();
        let mut amiss = Vec::new();
        for import in imports.iter().filter(|import| occurs(&import.name, &texts)) {
            let called = match &import.item {
                Some(item) if *item != import.name => format!("{} is {item}", import.name),
                Some(_) => import.name.clone(),
                None => format!("{}.", import.name),
            };
            match Module::of(&import.module, self.repository) {
                Module::Kit => {}
                Module::Declared { krate, name } => {
                    found.insert(called, Home::Type(krate, name));
                }
                Module::File(file) if place(&file).is_some_and(|(_, f)| f == "specs") => {
                    found.insert(called, Home::File(file));
                }
                Module::File(file) => amiss.push(format!("{} of {file}", import.name)),
                Module::Made(path) => amiss.push(format!("{} of {path}", import.name)),
            }
        }
        (found, amiss)
    }

    /// The types of the code that a signature names.
    fn types(&self, krate: &str, source: &Source, tokens: &[Token]) -> BTreeMap<String, Home> {
        let texts: BTreeSet<&str> = tokens.iter().map(|token| token.text).collect();
        let own = self.sources.of_crate(krate).flat_map(|(_, source)| &source.items);
        let mut found: BTreeMap<String, Home> = own
            .filter(|item| texts.contains(item.name.as_str()))
            .map(|item| (item.name.clone(), Home::Type(krate.to_string(), item.name.clone())))
            .collect();
        for path in &source.uses {
            if let [krate, .., name] = path[..]
                && texts.contains(name)
            {
                found.insert(name.to_string(), Home::Type(krate.to_string(), name.to_string()));
            }
        }
        found
    }
}

/// Whether all signs of a name, which may be an operator's, are among the tokens.
fn occurs(name: &str, texts: &BTreeSet<&str>) -> bool {
    texts.contains(name)
        || name.contains('◌')
            && name.split('◌').filter(|s| !s.is_empty()).all(|s| texts.contains(s))
}

/// The page, and what is amiss with what is claimed.
pub fn page(repository: &Repository, sources: &Sources) -> (String, Vec<String>) {
    let (claimed, mut amiss) = claims(repository, sources);
    let words = Words { repository, sources };
    let mut out = HEAD.to_string();
    let mut reached: BTreeSet<Home> = BTreeSet::new();
    let mut shown_records: BTreeSet<(String, String)> = BTreeSet::new();
    let (mut section, mut part) = (String::new(), None);
    for (claim, named) in &claimed {
        headings(&mut out, &mut section, &mut part, named);
        let stated = match claim {
            Claim::Contract { file, name } => contract(file, name, &words),
            Claim::Theorem { file, name } => theorem(file, name, &words),
        };
        match stated {
            Ok((text, homes)) => {
                out.push_str(&text);
                if matches!(claim, Claim::Theorem { .. }) {
                    out.push_str(&records(&homes, sources, &mut shown_records));
                }
                reached.extend(homes.into_values());
            }
            Err(why) => amiss.extend(why),
        }
    }
    amiss.extend(exported_unnamed(sources, &claimed));
    closure(&mut reached, repository, sources, &mut amiss);
    types(&mut out, &reached, sources, &mut amiss);
    out.push_str("\n## Sums of the definitions\n\n");
    out.push_str("Of each file's text without comments, the first half of its SHA-256.\n\n");
    for home in &reached {
        if let Home::File(file) = home {
            let text = sources.proofs.get(file.as_str()).map(|p| shown(p.text, &p.tokens));
            let sum = sum(&text.unwrap_or_default());
            out.push_str(&format!("    {sum} {}\n", file.trim_start_matches("crates/")));
        }
    }
    amiss.extend(believed(repository, sources, &reached));
    (out, amiss)
}

/// What is amiss: with the claims, or with the page as it is stored.
pub fn statements(repository: &Repository, sources: &Sources) -> Vec<String> {
    let (page, mut amiss) = page(repository, sources);
    amiss.extend(compared(STATEMENTS, repository.text(STATEMENTS), &page));
    amiss
}

/// The first line in which a stored page is not the one that is made.
pub fn compared(path: &str, stored: &str, made: &str) -> Option<String> {
    if stored == made {
        return None;
    }
    let (mut old, mut new) = (stored.lines(), made.lines());
    for line in 1.. {
        let (a, b) = (old.next(), new.next());
        if a != b || a.is_none() {
            let told = |line: Option<&str>| line.unwrap_or("nothing").trim().to_string();
            return Some(format!("{path}:{line}: stored '{}', made '{}'", told(a), told(b)));
        }
    }
    None
}

fn headings(out: &mut String, section: &mut String, part: &mut Option<String>, named: &Named) {
    if *section != named.section {
        *section = named.section.clone();
        *part = None;
        out.push_str(&format!("\n## {section}\n"));
    }
    if *part != named.part {
        *part = named.part.clone();
        if let Some(part) = part {
            out.push_str(&format!("\n### {part}\n"));
        }
    }
}

/// The records among a theorem's words, each where it is first spoken of.
fn records(
    homes: &BTreeMap<String, Home>,
    sources: &Sources,
    known: &mut BTreeSet<(String, String)>,
) -> String {
    let mut out = String::new();
    for (word, home) in homes {
        let Home::File(file) = home else { continue };
        let Some(proof) = sources.proofs.get(file.as_str()) else { continue };
        let name = word.rsplit(' ').next().unwrap_or(word);
        let declared = proof.declared.iter().find(|d| d.name == name && d.kind == Kind::Type);
        let Some(declared) = declared else { continue };
        let tokens = &proof.tokens[declared.range.clone()];
        if tokens.iter().any(|token| token.text == "record")
            && known.insert((file.clone(), name.to_string()))
        {
            out.push_str(&format!("\n```antt\n{}\n```\n", shown(proof.text, tokens)));
        }
    }
    out
}

type Stated = Result<(String, BTreeMap<String, Home>), Vec<String>>;

fn contract(file: &str, name: &str, words: &Words) -> Stated {
    let source = &words.sources.sources[file];
    let krate = place(file).map_or("", |(krate, _)| krate);
    let function = source.functions.iter().find(|f| f.name == name).expect("it was found");
    let tokens = &source.tokens[function.head.clone()];
    let (mut homes, mut amiss) = words.of(tokens, &source.imports);
    if function.exported {
        let inner = |home: &&Home| matches!(home, Home::File(file) if !file.contains(BELIEVED));
        amiss.extend(homes.values().filter(inner).map(|home| format!("{home:?}, not believed")));
    }
    homes.extend(words.types(krate, source, tokens));
    let title = if function.exported { name.to_string() } else { format!("{krate}::{name}") };
    stated(&title, file, "rust", &shown(source.text, tokens), homes, amiss)
}

fn theorem(file: &str, name: &str, words: &Words) -> Stated {
    let proof = &words.sources.proofs[file];
    let declared =
        proof.declared.iter().find(|d| d.name == name && !d.within.clause).expect("it was found");
    let mut tokens: Vec<Token> = Vec::new();
    for range in declared.within.heads.iter().chain([&declared.range]) {
        tokens.extend(&proof.tokens[range.clone()]);
    }
    let (homes, mut amiss) = words.of(&tokens, &proof.imports);
    amiss.extend(own_words(proof, name, &tokens));
    if !declared_by_modules(file, words.sources) {
        amiss.push(format!("{file}, which no module declares"));
    }
    stated(name, file, "antt", &shown(proof.text, &tokens), homes, amiss)
}

/// Words of a theorem's statement that its own file defines: a claim is in the words of specs/.
fn own_words(proof: &Proof, name: &str, tokens: &[Token]) -> Vec<String> {
    let texts: BTreeSet<&str> = tokens.iter().map(|token| bare(token.text)).collect();
    let own = proof
        .declared
        .iter()
        .filter(|d| d.name != name && !d.within.clause && d.kind != Kind::Field);
    own.filter(|d| occurs(&d.name, &texts)).map(|d| format!("{} of its own file", d.name)).collect()
}

/// Whether the file is a module of its crate: one that is not is never checked.
fn declared_by_modules(file: &str, sources: &Sources) -> bool {
    let Some((krate, folder)) = place(file) else { return false };
    let root = format!("crates/{krate}/{folder}/");
    let Some(path) = file.strip_prefix(&root).and_then(|path| path.strip_suffix(".antt")) else {
        return false;
    };
    let mut parent = format!("{root}Lib.antt");
    let mut reached = root.trim_end_matches('/').to_string();
    path.split('/').all(|part| {
        let declared = sources
            .proofs
            .get(parent.as_str())
            .is_some_and(|proof| proof.modules.iter().any(|module| module == part));
        reached = format!("{reached}/{part}");
        parent = format!("{reached}.antt");
        declared
    })
}

fn stated(
    title: &str,
    file: &str,
    language: &str,
    text: &str,
    homes: BTreeMap<String, Home>,
    amiss: Vec<String>,
) -> Stated {
    if !amiss.is_empty() {
        let why = |word: &String| format!("{file}: the statement of {title} is over {word}");
        return Err(amiss.iter().map(why).collect());
    }
    let short = file.trim_start_matches("crates/");
    let mut out = format!("\n#### `{title}` ({short})\n\n```{language}\n{text}\n```\n");
    let told: Vec<String> = homes
        .iter()
        .map(|(word, home)| match home {
            Home::File(file) => format!("`{word}` {}", file.trim_start_matches("crates/")),
            Home::Type(krate, name) => format!("`{word}` the type {krate}::{name}"),
        })
        .collect();
    if !told.is_empty() {
        out.push_str(&format!("\n{}\n", told.join(", ")));
    }
    Ok((out, homes))
}

/// Exported functions that CLAIMS does not name; those of the tests' own crate are no claims.
fn exported_unnamed(sources: &Sources, claimed: &[(Claim, Named)]) -> Vec<String> {
    let mut found = Vec::new();
    for (file, source) in &sources.sources {
        for function in source.functions.iter().filter(|function| function.exported) {
            let claim = Claim::Contract { file: file.to_string(), name: function.name.clone() };
            let tests = place(file).is_some_and(|(krate, _)| krate == "probe");
            if !tests && !claimed.iter().any(|(known, _)| *known == claim) {
                found.push(format!("{file}:{}: {CLAIMS} does not name it", function.line));
            }
        }
    }
    found
}

/// Adds what the reached files of definitions are over themselves.
fn closure(
    reached: &mut BTreeSet<Home>,
    repository: &Repository,
    sources: &Sources,
    amiss: &mut Vec<String>,
) {
    let mut open: Vec<String> = files(reached);
    while let Some(file) = open.pop() {
        // A file that cannot be read is told elsewhere.
        let Some(proof) = sources.proofs.get(file.as_str()) else { continue };
        for path in paths(&proof.tokens) {
            let home = match Module::on_the_way(&path, repository) {
                Module::Kit => continue,
                Module::File(file) => Home::File(file),
                Module::Declared { krate, name } => Home::Type(krate, name),
                Module::Made(path) => {
                    amiss.push(format!("{file}: a definition is over {path}"));
                    continue;
                }
            };
            if reached.insert(home.clone())
                && let Home::File(file) = home
            {
                open.push(file);
            }
        }
    }
}

fn files(reached: &BTreeSet<Home>) -> Vec<String> {
    let files = reached.iter().filter_map(|home| match home {
        Home::File(file) => Some(file.clone()),
        Home::Type(..) => None,
    });
    files.collect()
}

/// The dotted paths that begin in a crate, in `use` lines and anywhere else.
fn paths(tokens: &[Token]) -> BTreeSet<String> {
    let mut found = BTreeSet::new();
    for at in (0..tokens.len()).filter(|at| tokens[*at].text == "Rattle") {
        let mut path = tokens[at].text.to_string();
        for pair in tokens[at + 1..].chunks(2) {
            match pair {
                [dot, name] if dot.text == "." && name.text != "{" => {
                    path.push('.');
                    path.push_str(name.text);
                }
                _ => break,
            }
        }
        found.insert(path);
    }
    found
}

/// The declarations of the types that are spoken of.
fn types(out: &mut String, reached: &BTreeSet<Home>, sources: &Sources, amiss: &mut Vec<String>) {
    out.push_str("\n## Types of the code\n\n```rust\n");
    for home in reached {
        let Home::Type(krate, name) = home else { continue };
        let declared = sources
            .of_crate(krate)
            .find_map(|(_, source)| Some((source, source.items.iter().find(|i| i.name == *name)?)));
        match declared {
            Some((source, item)) => {
                let text = shown(source.text, &source.tokens[item.range.clone()]);
                out.push_str(&format!("// {krate}\n{text}\n"));
            }
            None => amiss.push(format!("crates/{krate}: no type {name}")),
        }
    }
    out.push_str("```\n");
}

/// The folder of specs/ whose files a reader must believe.
const BELIEVED: &str = "/specs/Believed/";

/// Files that a reader is asked to believe: each is reached by a claim, and is over such files, the
/// types of the code and the kit alone.
fn believed(repository: &Repository, sources: &Sources, reached: &BTreeSet<Home>) -> Vec<String> {
    let mut found = Vec::new();
    for (file, proof) in sources.proofs.iter().filter(|(file, _)| file.contains(BELIEVED)) {
        if !reached.contains(&Home::File(file.to_string())) {
            found.push(format!("{file}: no claim is over it"));
        }
        for path in paths(&proof.tokens) {
            if let Module::File(other) = Module::on_the_way(&path, repository)
                && !other.contains(BELIEVED)
            {
                found.push(format!("{file}: it is over {other}, which nobody is asked to believe"));
            }
        }
    }
    found
}
