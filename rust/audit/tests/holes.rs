//! Each way in which a repository was made to look proved: found in a small one, and the honest text
//! beside it not.

mod common;

use audit::{axioms, dependencies, proofs, sources};
use common::{PAGE, PROOFS, SPECS, changed, honest, made, nothing, some};

const RT: &str = "crates/clock/src/lib.rt";
const EDITED: &str = "crates/clock/must-fail/end_counts.edit";

/// What is found after a change.
fn after(path: &str, old: &str, new: &str) -> Vec<String> {
    sources(&changed(path, &[(old, new)]))
}

/// The same where the pages are made anew after it, as one would who hides it.
fn hidden(path: &str, old: &str, new: &str) -> Vec<String> {
    sources(&made(changed(path, &[(old, new)])))
}

#[test]
fn an_honest_repository_passes() {
    nothing(sources(&honest()));
    let page = &honest().files["docs/STATEMENTS.md"];
    for said in [
        "#### `softlode_inside` (clock/src/lib.rt)",
        "ensures { result.yes ≡ within a b x }",
        "module _ (a : ℕ) where\n  pub empty : (x : ℕ) → within a a x ≡ false",
        "`within` clock/specs/Believed/Minutes.antt",
        "pub struct Told {\n    pub yes: bool,\n}",
        " clock/specs/Believed/Minutes.antt\n",
    ] {
        assert!(page.contains(said), "no {said} in {page}");
    }
    assert!(honest().files["docs/EDITS.md"].contains("| clock/end_counts | an end that counts |"));
}

#[test]
fn comments_layout_and_proofs_are_no_claims() {
    nothing(after(SPECS, "-- When", "-- Whether"));
    nothing(after(RT, "// Whether", "/* nested /* quoted \" */ */ // Whether"));
    nothing(after(PROOFS, "search rules", "omega arith"));
    let cases = "step c = elim c.branch [\n  | then w ↦ w.0\n  | else w ↦ w.1\n]\n\nmodule";
    nothing(after(PROOFS, "module", cases));
}

#[test]
fn a_theorem_gone_weakened_or_moved() {
    some(after(PROOFS, "  pub empty : (x : ℕ) → within a a x ≡ false\n", ""), "not declared");
    some(after(PROOFS, "pub empty", "pub emptied"), "empty is not declared");
    some(after(PROOFS, "within a a x ≡ false", "false ≡ false"), "docs/STATEMENTS.md");
    some(after(PROOFS, "module _ (a : ℕ)", "module _ (a : ℕ) (h : a < 1)"), "docs/STATEMENTS.md");
    some(after(PROOFS, "Believed.Minutes.{", "Believed.Other.{"), "the statement of empty");
    some(after("crates/clock/proofs/Lib.antt", "pub mod Laws\n", ""), "which no module declares");
}

#[test]
fn a_definition_or_a_type_changed() {
    some(after(SPECS, "leb a x && ltb x b", "false"), "docs/STATEMENTS.md");
    some(after(SPECS, "use lib.Dec.{leb, ltb}", "use lib.Dec.{ltb, leb}"), "docs/STATEMENTS.md");
    some(after(RT, "pub yes: bool", "pub yes: u8"), "docs/STATEMENTS.md");
}

#[test]
fn a_theorem_in_words_of_its_own_file() {
    let imported = "use Rattle.clock.specs.Believed.Minutes.{within}\n\n";
    let own = format!("{imported}pub same : ℕ → ℕ\nsame x = x\n\n");
    nothing(after(PROOFS, imported, &own));
    let over = changed(PROOFS, &[(imported, &own), ("within a a x", "within a a (same x)")]);
    some(sources(&made(over)), "over same of its own file");
}

#[test]
fn a_contract_weakened() {
    some(after(RT, "result.yes ≡ within a b x", "result ≡ result"), "docs/STATEMENTS.md");
    some(after(RT, "Minutes.{within}", "Minutes.{without as within}"), "docs/STATEMENTS.md");
}

#[test]
fn a_requires_however_it_is_hidden() {
    let asking = "    requires { a ≡ 3 }\n    ensures";
    for hiding in [
        asking,
        "    requires\n    { a ≡ 3 -- }\n    }\n    ensures",
        "    requires small { a ≡ 3 } /* } */ ensures",
    ] {
        some(hidden(RT, "    ensures", hiding), "an entry point has a requires");
    }
    // A quote and a comment's mark in bytes, which open nothing.
    let before = "pub fn first() -> u8\n    ensures { result ≡ result }\n{\n    let q = b'\"';\n    let c = b\"/*\";\n    q\n}\n\n#[unsafe(no_mangle)]";
    let asked = changed(RT, &[("    ensures", asking), ("#[unsafe(no_mangle)]", before)]);
    some(sources(&made(asked)), "an entry point has a requires");
    // An entry point that is not exported.
    let inner = ("#[unsafe(no_mangle)]\npub extern \"C\" fn", "pub fn");
    some(sources(&made(changed(RT, &[("    ensures", asking), inner]))), "has a requires");
}

#[test]
fn an_exported_function_that_claims_do_not_name() {
    some(hidden(PAGE, "`clock::softlode_inside`", "none"), "docs/CLAIMS.md does not name it");
}

#[test]
fn a_function_without_an_ensures_or_a_body() {
    let clause = "    ensures { result.yes ≡ within a b x }\n";
    some(hidden(RT, clause, ""), "a function of a library has no ensures");
    some(hidden(RT, clause, &format!("    // {clause}")), "a function of a library has no ensures");
    let method = "impl Told {\n    pub fn step(self) -> Told {\n        self\n    }\n}\n\n#[unsafe(no_mangle)]";
    some(hidden(RT, "#[unsafe(no_mangle)]", method), "a function of a library has no ensures");
    let array = "fn sets(s: &[u8; 4]) -> [u64; 33] {\n    [0; 33]\n}\n\n#[unsafe(no_mangle)]";
    some(hidden(RT, "#[unsafe(no_mangle)]", array), "a function of a library has no ensures");
    let of_trait = |member: &str, first: &str| {
        let body =
            format!("    fn from(n: u32) -> Told {{\n{first}        Told {{ yes: n }}\n    }}\n");
        format!("impl From<u32> for Told {{\n{member}{body}}}\n\n#[unsafe(no_mangle)]")
    };
    let other = "    ghost into_gives = { λ n told. told.yes ≡ n };\n\n";
    let in_body = "        ghost from_gives = { n };\n";
    for (member, first) in [("", ""), (other, ""), ("", in_body)] {
        let made = hidden(RT, "#[unsafe(no_mangle)]", &of_trait(member, first));
        some(made, "a function of a library has no ensures");
    }
    let by_itself = "ghost from_gives = { λ n told. told.yes ≡ n };\n\n#[unsafe(no_mangle)]";
    some(hidden(RT, "#[unsafe(no_mangle)]", by_itself), "an item that is not read");
    let in_trait = "trait Told2 {\n    fn yes(&self) -> u32;\n}\n\n#[unsafe(no_mangle)]";
    some(hidden(RT, "#[unsafe(no_mangle)]", in_trait), "a function of a library has no ensures");
    let declared = "extern \"C\" {\n    fn getenv(name: u64) -> u64;\n}\n\npub struct";
    some(hidden(RT, "pub struct", declared), "a function without a body");
}

#[test]
fn words_of_proofs() {
    let told = "words of a contract stand in proofs/";
    let cited = "ghost use Rattle.clock.proofs.Laws.{empty};\n\npub struct";
    some(hidden(RT, "\npub struct", cited), told);
    let path = "within a b x = Rattle.other.proofs.Laws.inside a b x";
    some(hidden(SPECS, "within a b x = leb a x && ltb x b", path), told);
    let broken = "use\n  Rattle.other.proofs.Laws.{odd}\n\nabbrev";
    some(hidden(SPECS, "\nabbrev", broken), told);
}

#[test]
fn a_symbol_defined() {
    for defined in [
        "true : Bool\ntrue = false",
        "pub\n  true\n  : Bool\ntrue = false",
        "unfoldable pub leb : ℕ → ℕ → Bool\nleb a b = false",
        "pub ◌≡◌ : {A : Type 0} → A → A → Type 0",
        "pub ⊥ : Type 0\n⊥ = Unit",
        "data Answer : Type 0 where\n  yes maybe : Answer",
        "data Answer : Type 0 where\n  maybe : Answer\n  leb : Answer",
        "module _ (n : ℕ) where\n  ltb : ℕ → ℕ\n  ltb x = n",
        "short : ℕ → Bool\nshort n = go n\n  where\n    ltb : ℕ → Bool\n    ltb m = false",
        "open Order o using (less as leb)",
    ] {
        some(hidden(SPECS, "abbrev", &format!("{defined}\n\nabbrev")), "is defined");
    }
    some(hidden("crates/clock/specs/Lib.antt", "pub mod", "pub mod lib\npub mod"), "called lib");
    let called =
        "fn leb(n: u32) -> u32\n    ensures { result ≡ n }\n{\n    n\n}\n\n#[unsafe(no_mangle)]";
    some(hidden(RT, "#[unsafe(no_mangle)]", called), "leb is declared");
    some(hidden(RT, "pub struct Told {", "pub struct Bool {"), "Bool is declared");
}

#[test]
fn a_symbol_bound() {
    for bound in [
        "within a b x = (λ leb. leb) a x",
        "within a b x = let ltb = a in ltb",
        "within a b x = let ltb : ℕ = a in ltb",
        "within leb b x = leb",
    ] {
        some(hidden(SPECS, "within a b x = leb a x && ltb x b", bound), "is bound");
    }
    some(hidden(SPECS, "within : ℕ → ℕ", "within : (leb : ℕ) → ℕ"), "leb is bound");
    let read = "pub record Pair : Type 0 where\n  pub leb : ℕ\n  pub span : leb ≡ leb\n\nabbrev";
    some(hidden(SPECS, "abbrev", read), "leb is bound");
    let brought = ("ghost use Rattle", "ghost use lib.Dec.{leb};\nghost use Rattle");
    let parameter = ("(a: u32", "(leb: u32");
    some(sources(&made(changed(RT, &[brought, parameter]))), "a parameter hides leb");
    some(hidden(RT, "(a: u32", "(result: u32"), "a parameter hides result");
}

#[test]
fn a_symbol_from_elsewhere_or_under_another_name() {
    let with = |more: &str| {
        hidden(SPECS, "use lib.Dec.{leb, ltb}", &format!("use lib.Dec.{{leb, ltb}}\n{more}"))
    };
    for brought in [
        "use Rattle.odd.specs.Odd.{leb}",
        "use Rattle.odd.specs.Odd.{same as leb, other}",
        "use\n  Rattle.odd.specs.{Odd.leb}",
        "use Rattle.odd.specs.lib",
        "use Rattle.odd.specs.Odd as lib",
    ] {
        some(with(brought), "is brought in from");
    }
    some(with("use lib.Dec.{leb as below}"), "leb is brought in as below");
    some(with("use lib.Dec.{leb as_below,leb as  ltb}"), "leb is brought in as ltb");
    some(with("use lib.Order.{leb}"), "several homes");
    some(with("use lib.Dec as dec"), "brought in whole");
    some(with("use Odd.*"), "all names of a module");
}

#[test]
fn what_is_listed_openly() {
    let more = "{leb, ltb, leb as below}\nuse lib.Order.{ltb as less}";
    let mut repository = changed(SPECS, &[("{leb, ltb}", more)]);
    let listed = "# openly\nltb lib.Dec lib.Order\nleb as below\nltb as less\n";
    repository.files.insert(".ci/symbols".to_string(), listed.to_string());
    nothing(sources(&made(repository)));
    some(hidden(".ci/symbols", "# none", "leb as below"), "nowhere brought in as below");
    some(hidden(".ci/symbols", "# none", "leb lib.Dec lib.Odd"), "homes that it has not");
}

#[test]
fn honest_names_pass() {
    let record = "pub record Pair : Type 0 where\n  pub leb : ℕ\n  pub span : ℕ\n\nabbrev";
    nothing(hidden(SPECS, "abbrev", record));
    let matched = "other : Bool → Bool\nother true = false\nother false = true\n\nabbrev";
    nothing(hidden(SPECS, "abbrev", matched));
}

#[test]
fn names_that_claims_make_up() {
    some(hidden(PAGE, "`within`", "`without`"), "without is declared nowhere");
    some(hidden(PAGE, "`empty` (clock/proofs/Laws.antt)", "`empty`"), "name its file");
    some(hidden(PAGE, "clock/proofs/Laws.antt", "clock/proofs/Lows.antt"), "not declared in");
    some(
        hidden(PAGE, "`clock::softlode_inside`", "`clock::outside`"),
        "there is no clock::outside",
    );
    some(hidden(PAGE, "`clock/end_counts`", "`clock/begin_counts`"), "there is no edit");
    some(hidden(PAGE, "over `within`", "over `result.yes ≡ without ..`"), "no contract says");
    nothing(hidden(PAGE, "over `within`", "over `result.yes ≡ within ..`"));
}

#[test]
fn what_a_reader_must_believe() {
    let mut unreached = honest();
    let odd = "use mathlib.Core.Bool.{Bool, false}\n\npub never : Bool\nnever = false\n";
    let folder = "crates/clock/specs/Believed";
    unreached.files.insert(format!("{folder}/Odd.antt"), odd.to_string());
    some(sources(&made(unreached)), "Odd.antt: no claim is over it");
    let over = "use Rattle.clock.specs.Odd.{never}\n\nabbrev";
    let mut inner = changed(SPECS, &[("\nabbrev", over)]);
    inner.files.insert("crates/clock/specs/Odd.antt".to_string(), odd.to_string());
    some(sources(&made(inner)), "which nobody is asked to believe");
    let brought =
        ("ghost use Rattle", "ghost use Rattle.clock.specs.Odd.{never};\nghost use Rattle");
    let mut exported = changed(RT, &[brought, ("≡ within a b x", "≡ never")]);
    exported.files.insert("crates/clock/specs/Odd.antt".to_string(), odd.to_string());
    some(sources(&made(exported)), "not believed");
}

#[test]
fn edits_that_try_nothing() {
    some(hidden(EDITED, "x <= b", "x < b"), "changes nothing that the prover reads");
    some(hidden(EDITED, "x <= b)", "x < b) // odd"), "changes nothing that the prover reads");
    some(hidden(EDITED, "old:     told(a <=", "old:     told(a =="), "does not stand there once");
    some(hidden(EDITED, "old:     told(a <= x && x < b)", "old: a"), "does not stand there once");
    some(hidden(EDITED, "src/lib.rt", "proofs/Laws.antt"), "does not stand there once");
    some(hidden(EDITED, "src/lib.rt", "src/other.rt"), "there is no crates/clock/src/other.rt");
    some(hidden(EDITED, "# fails on", "# at"), "no line that says what it fails on");
    some(after(EDITED, "an end", "the end"), "docs/EDITS.md");
    let more = |more: &str| hidden(EDITED, "x <= b)\n", &format!("x <= b)\n{more}"));
    some(more("old: nowhere\nnew: b\n"), "does not stand there once");
    some(more("old: told(a <= x && x <= b)\n"), "nothing in its place");
    some(more("file: specs/Odd.antt\nold: a\nnew: b\n"), "there is no");
    some(more("odd: told\n"), "no line to change");
    let definition = "file: specs/Believed/Minutes.antt\nold: leb a x\nnew: ";
    nothing(more(&format!("{definition}leb x a\n")));
    some(more(&format!("{definition}leb a  x\n")), "changes nothing that the prover reads");
    let listed = format!("## Tried once\n\n`clock/end_counts`\n");
    some(hidden(PAGE, "## Demand 1", &format!("{listed}\n## Demand 1")), "and is there");
}

#[test]
fn what_cannot_be_read() {
    some(hidden(RT, "// Whether", "/* Whether"), "a comment is not closed");
    some(hidden(SPECS, "-- When", "{- When"), "a comment is not closed");
    some(hidden(RT, "pub struct", "macro_rules"), "an item that is not read");
}

#[test]
fn a_library_that_uses_what_is_assumed() {
    let mut repository = honest();
    let crates = "# all\nclock staticlib: libc\nlisting: clock io libc\n";
    repository.files.insert("crates.txt".to_string(), crates.to_string());
    assert_eq!(dependencies(&repository), ["crates.txt: the library clock uses libc"]);
}

#[test]
fn an_axiom() {
    let printed =
        "axioms libc: libc::read (1 of the 50 declared)\nlogic=proved functions=8 axioms=1 sum=0\n";
    assert_eq!(axioms("rota", printed).len(), 2);
    assert_eq!(axioms("rota", "logic=proved functions=8 sum=0\n").len(), 0);
    assert_eq!(axioms("rota", "axioms libc: none reached of the 128 declared\n").len(), 0);
}

#[test]
fn what_the_proofs_printed() {
    let repository = honest();
    let said = |line: &str| format!("== clock\n{line}\nrt: clock proved\nrt: ok\n");
    let proved = "logic=proved functions=1 sum=0";
    nothing(proofs(&repository, &said(proved), &[]));
    nothing(proofs(&repository, "rt: clock is kept: an earlier run proved it\n", &[]));
    some(proofs(&repository, "rt: ok\n", &[]), "the gate says not 'logic=proved functions=1'");
    for line in
        ["logic=proved functions=0 sum=0", "logic=proved functions=12 sum=0", "logic=not-proved"]
    {
        some(proofs(&repository, &said(line), &[]), "the gate says not");
        let archive = ("clock".to_string(), format!("{proved}\n{line}\n"));
        some(proofs(&repository, &said(proved), &[archive]), "its archive says not");
    }
    let axiom = "axioms libc: libc::read (1 of the 50 declared)\nlogic=proved functions=1 axioms=1";
    some(proofs(&repository, &said(axiom), &[]), "rests on an axiom");
    let archive = ("clock".to_string(), format!("{axiom}\n"));
    some(proofs(&repository, &said(proved), &[archive]), "rests on an axiom");
}
