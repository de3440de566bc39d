//! The ways that were known first, with all their cases: what was found is found in the small
//! repository too, and what passed passes.

mod common;

use audit::{Repository, axioms, dependencies, sources};
use common::{PAGE, PROOFS, SPECS, changed, honest, made, nothing, some};

const IMPORTS: &str = "\
ghost use Rattle.std.specs.Prelude.{◌≡◌, ◌<◌};
ghost use Rattle.clock.specs.Believed.Minutes.{told};
";

const STATED: &str = "\
// What it gives.
#[unsafe(no_mangle)]
pub extern \"C\" fn softlode_date(m: u32) -> Told
    ensures { result ≡ told m }
{
    told(m)
}
";

/// What is found where a crate has such a file of src/, which CLAIMS names where it exports.
fn of_crate(name: &str, file: &str, text: &str) -> Vec<String> {
    let told = ("abbrev", "told : ℕ → ℕ\ntold m = m\n\nabbrev");
    let mut repository = changed(SPECS, &[told]);
    let file = format!("crates/{name}/src/{file}");
    repository.files.insert(file, format!("{IMPORTS}{text}"));
    let crates = "# all\nclock:\nprobe: clock\nlisting: clock\n";
    repository.files.insert("crates.txt".to_string(), crates.to_string());
    let page = repository.files.get_mut(PAGE).expect("a page of claims");
    if text.contains("no_mangle") {
        let entry = "`clock::softlode_inside`";
        *page = page.replace(entry, &format!("{entry}, `{name}::softlode_date`"));
    }
    sources(&made(repository))
}

/// In a library that states what it gives.
fn stated(text: &str) -> Vec<String> {
    of_crate("clock", "date.rt", text)
}

/// In crates that need not: the library for the tests, and a program.
fn unstated(text: &str) -> [Vec<String>; 2] {
    [of_crate("probe", "lib.rt", text), of_crate("listing", "main.rt", text)]
}

const NO_ENSURES: &str = "a function of a library has no ensures";

#[test]
fn an_honest_function_passes() {
    nothing(stated(STATED));
}

#[test]
fn an_exported_function_with_a_requires() {
    let asking = STATED.replace("    ensures", "    requires { m < 5 }\n    ensures");
    let found = "src/date.rt:5: an entry point has a requires";
    assert_eq!(stated(&asking), [format!("crates/clock/{found}")]);
    for found in unstated(&asking) {
        assert_eq!(found.len(), 1);
        some(found, ".rt:5: an entry point has a requires");
    }
    let inner = asking.replace("#[unsafe(no_mangle)]\n", "").replace("pub extern \"C\" ", "");
    nothing(stated(&inner));
}

#[test]
fn a_function_of_a_library_without_an_ensures() {
    let silent = STATED.replace("    ensures { result ≡ told m }\n", "");
    assert_eq!(stated(&silent), [format!("crates/clock/src/date.rt:5: {NO_ENSURES}")]);
    unstated(&silent).into_iter().for_each(nothing);
    let commented = STATED.replace("    ensures", "    // ensures");
    assert_eq!(stated(&commented), [format!("crates/clock/src/date.rt:5: {NO_ENSURES}")]);
    let method = "impl Cursor {\n    pub fn step(self) -> Step {\n        self.next\n    }\n}\n";
    assert_eq!(stated(method), [format!("crates/clock/src/date.rt:4: {NO_ENSURES}")]);
    let array = "fn sets(s: &[u8; 4]) -> [u64; 33] {\n    [0; 33]\n}\n";
    assert_eq!(stated(array), [format!("crates/clock/src/date.rt:3: {NO_ENSURES}")]);
}

#[test]
fn a_declared_c_function() {
    let declared = "extern \"C\" {\n    fn getenv(name: u64) -> u64;\n}\n";
    for found in unstated(declared) {
        assert_eq!(found.len(), 1);
        some(found, ".rt:4: a function without a body");
    }
}

#[test]
fn a_library_that_uses_what_is_assumed() {
    let mut repository = honest();
    let crates = "# all\nground:\nrota: ground libc\nlisting: rota io libc\n";
    repository.files.insert("crates.txt".to_string(), crates.to_string());
    for file in ["ground/src/lib.rt", "rota/src/lib.rt", "listing/src/main.rt"] {
        repository.files.insert(format!("crates/{file}"), String::new());
    }
    assert_eq!(dependencies(&repository), ["crates.txt: the library rota uses libc"]);
}

/// The names of the kit that contracts and definitions are read by.
const NAMES: &str = "\
use Rattle.std.specs.Prelude.{ℕ, ◌≡◌, ◌↔◌, ◌+◌, ◌-◌, ◌*◌, ◌^◌, ◌/◌, ◌%◌, ◌<◌, ◌≤◌}
use mathlib.Core.Bool.{Bool, not, ◌&&◌, ◌||◌}
use mathlib.Core.List.{List, ◌∷◌, ◌++◌}
use lib.ListN.{length, take, set, get_or}
use lib.Seq.{sets}
use lib.Dec.{leb, ltb, eqb}
";

/// The repository with these names and a file more.
fn named(file: &str, text: &str) -> Repository {
    let mut repository = honest();
    let files = &mut repository.files;
    files.insert("crates/clock/specs/Names.antt".to_string(), NAMES.to_string());
    let before = files.get(file).cloned().unwrap_or_default();
    files.insert(file.to_string(), before + text);
    repository
}

/// A file of definitions, one with a claimed theorem, which has the text at its end, and one in which
/// nothing is claimed.
const FILES: [&str; 3] = ["crates/clock/specs/Odd.antt", PROOFS, "crates/clock/proofs/Odd.antt"];

/// What is found where each of them has such a text.
fn proof(text: &str) -> [Vec<String>; 3] {
    FILES.map(|file| sources(&made(named(file, text))))
}

fn source(text: &str) -> Vec<String> {
    sources(&made(named("crates/clock/src/odd.rt", text)))
}

#[test]
fn a_contract_in_the_words_of_proofs() {
    let told = "words of a contract stand in proofs/";
    let cited =
        "ghost use lib.ListN.{length};\nghost use Rattle.derivation.proofs.RoleMarks.{marked};\n";
    assert_eq!(source(cited), [format!("crates/clock/src/odd.rt:2: {told}")]);
    let [specs, ..] = proof("use Rattle.rota.proofs.RowLaws.{row}\n");
    assert_eq!(specs, [format!("crates/clock/specs/Odd.antt:1: {told}")]);
    let [specs, ..] = proof("use Rattle.rota.specs.Rota.{Rota}\n-- of proofs.\n");
    nothing(specs);
}

#[test]
fn an_axiom() {
    let printed =
        "axioms libc: libc::read (1 of the 50 declared)\nlogic=proved functions=8 axioms=1 sum=0\n";
    assert_eq!(axioms("rota", printed).len(), 2);
    assert_eq!(axioms("rota", "logic=proved functions=8 sum=0\n").len(), 0);
}

#[test]
fn a_symbol_defined() {
    for (text, told) in [
        ("pub ◌≡◌ : {A : Type 0} → A → A → Type 0\n", "◌≡◌ is defined"),
        ("unfoldable pub length : List ℕ → ℕ\nlength l = 0\n", "length is defined"),
        ("data leb : Type 0 where\n", "leb is defined"),
        ("data Size : Type 0 where\n  short length : Size\n", "length is defined"),
        ("module _ (n : ℕ) where\n  take : ℕ → ℕ\n", "take is defined"),
        ("short : ℕ → Bool\nshort n = go n\n  where\n    ltb : ℕ → Bool\n", "ltb is defined"),
        ("short n = let eqb : ℕ = 0 in eqb\n", "eqb is bound"),
        ("open Order o using (less as ◌<◌)\n", "◌<◌ is defined"),
        ("open Order o using (length)\n", "length is defined"),
        ("pub mod lib\n", "a module is called lib"),
        ("data lib : Type 0 where\n", "lib is defined"),
    ] {
        proof(text).into_iter().for_each(|found| some(found, told));
    }
    some(source("fn take(n: u32) -> u32\n{\n    n\n}\n"), "take is declared");
}

#[test]
fn a_symbol_brought_in_from_elsewhere() {
    for (text, told) in [
        ("use Rattle.ground.specs.Odd.{◌≡◌}\n", "◌≡◌ is brought in from"),
        ("use Rattle.ground.specs.Odd.{same as ◌≡◌, other}\n", "◌≡◌ is brought in from"),
        ("use lib.ListN.{take as length}\n", "take is brought in as length"),
        ("pub use Rattle.ground.specs.{Odd.length}\n", "length is brought in from"),
        ("use Rattle.ground.specs.Odd as lib\n", "lib is brought in from"),
        ("use Rattle.ground.specs.lib\n", "lib is brought in from"),
        ("use Odd.*\n", "all names of a module"),
    ] {
        proof(text).into_iter().for_each(|found| some(found, told));
    }
    let [specs, claimed, _] = proof("use mathlib.Core.List.{length}\n");
    some(specs, "length has several homes");
    some(claimed, "length has several homes");
    some(
        source("ghost use Rattle.rota.specs.Odd.{\n  other,\n  same as ◌≡◌,\n};\n"),
        "◌≡◌ is brought in from",
    );
}

#[test]
fn honest_text_passes() {
    let text = "-- ◌≡◌ : a comment\nuse lib.ListN.{length, length as size, take}\nuse lib.{ListN.get_or}\n\
        use Prim.Native.String.{◌∷◌ as ◌before◌}\nuse Rattle.rota.specs.Rota as rota\n\n\
        pub record Pair : Type 0 where\n  pub offset : ℕ\n  pub length : ℕ\n\n\
        long : (s : List ℕ) → length s ≡ 4 → ℕ\nlong s h = ap (λ (n : ℕ). n + length s) h\n";
    // Other names and homes are listed openly.
    let listed = |lines: &str, file: &str, text: &str| {
        let mut repository = named(file, text);
        repository.files.insert(".ci/symbols".to_string(), lines.to_string());
        sources(&made(repository))
    };
    let lines = "length as size\n◌∷◌ as ◌before◌\n◌∷◌ Prim.Native.String mathlib.Core.List\n";
    let [specs, claimed, unclaimed] = FILES;
    nothing(listed(lines, specs, text));
    nothing(listed(lines, claimed, text));
    nothing(sources(&made(named(unclaimed, text))));
    let [specs, claimed, _] = proof(text);
    some(specs, "length is brought in as size");
    some(claimed, "length is brought in as size");
    let text = "ghost use mathlib.Core.Path.{◌≡◌};\n\
        ghost use lib.ListN.{\n  length,\n  get_or,\n};\nuse rota::Layout;\n";
    let lines = "◌≡◌ Rattle.std.specs.Prelude mathlib.Core.Path\n";
    nothing(listed(lines, "crates/clock/src/odd.rt", text));
    some(source(text), "◌≡◌ has several homes");
    nothing(source(&text.replace("mathlib.Core.Path", "Rattle.std.specs.Prelude")));
}
