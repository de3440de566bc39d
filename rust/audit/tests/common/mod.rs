//! A small repository, and what is found in it after changes.

use audit::{Repository, pages};

const MINUTES: &str = "\
-- When an interval holds.
use Rattle.std.specs.Prelude.{ℕ}
use mathlib.Core.Bool.{Bool, true, false, ◌&&◌}
use lib.Dec.{leb, ltb}

abbrev pub within : ℕ → ℕ → ℕ → Bool
within a b x = leb a x && ltb x b
";

const LAWS: &str = "\
use Rattle.std.specs.Prelude.{ℕ, ◌<◌, ◌≡◌}
use mathlib.Core.Bool.{false}
use Rattle.clock.specs.Believed.Minutes.{within}

-- nothing lies in an empty interval
module _ (a : ℕ) where
  pub empty : (x : ℕ) → within a a x ≡ false
  empty x = search rules
";

const SOURCE: &str = "\
// Whether a minute lies in an interval.
#![tactic(auto)]

ghost use Rattle.std.specs.Prelude.{◌≡◌};
ghost use Rattle.clock.specs.Believed.Minutes.{within};

pub struct Told {
    pub yes: bool,
}

#[unsafe(no_mangle)]
pub extern \"C\" fn softlode_inside(a: u32, b: u32, x: u32) -> Told
    ensures { result.yes ≡ within a b x }
{
    let quote = b'\"';
    told(a <= x && x < b)
}
";

const CLAIMS: &str = "\
# Claims

## Entry points

`clock::softlode_inside`

## Demand 1

| sentence | stated by |
|---|---|
| nothing lies in an empty interval | `empty` (clock/proofs/Laws.antt), over `within` |
| a wrong program | `clock/end_counts` |
";

const EDIT: &str = "\
# an end that counts
# fails on what `softlode_inside` gives (`returns`)
file: src/lib.rt
old:     told(a <= x && x < b)
new:     told(a <= x && x <= b)
";

/// A repository of one crate, with its pages made.
pub fn honest() -> Repository {
    let files = [
        ("crates.txt", "# all\nclock:\n"),
        ("crates/clock/src/lib.rt", SOURCE),
        ("crates/clock/specs/Lib.antt", "pub mod Believed\n"),
        ("crates/clock/specs/Believed.antt", "pub mod Minutes\n"),
        ("crates/clock/specs/Believed/Minutes.antt", MINUTES),
        ("crates/clock/proofs/Lib.antt", "pub mod Laws\n"),
        ("crates/clock/proofs/Laws.antt", LAWS),
        ("crates/clock/must-fail/end_counts.edit", EDIT),
        ("docs/CLAIMS.md", CLAIMS),
        (".ci/symbols", "# none\n"),
    ];
    let files = files.map(|(path, text)| (path.to_string(), text.to_string()));
    made(Repository { files: files.into() })
}

pub fn made(mut repository: Repository) -> Repository {
    for (path, text) in pages(&repository) {
        repository.files.insert(path.to_string(), text);
    }
    repository
}

/// The repository after changes of one file.
pub fn changed(path: &str, changes: &[(&str, &str)]) -> Repository {
    let mut repository = honest();
    let text = repository.files.get_mut(path).expect("a file of the repository");
    for (old, new) in changes {
        assert!(text.contains(old), "{path} has no {old}");
        *text = text.replacen(old, new, 1);
    }
    repository
}

pub const SPECS: &str = "crates/clock/specs/Believed/Minutes.antt";
pub const PROOFS: &str = "crates/clock/proofs/Laws.antt";
pub const PAGE: &str = "docs/CLAIMS.md";

pub fn some(found: Vec<String>, told: &str) {
    assert!(found.iter().any(|line| line.contains(told)), "{told} is not among {found:?}");
}

pub fn nothing(found: Vec<String>) {
    assert_eq!(found, Vec::<String>::new());
}
