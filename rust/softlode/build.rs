//! Links the proved library: libsoftlode.a, or libsoftlode.so with SOFTLODE_LINK=dynamic. Its folder is
//! the first of these that applies:
//!
//! - the one that SOFTLODE_LIB_DIR names;
//! - where the repository builds it, for a crate that stands in the repository;
//! - P/lib, for a crate that `make install PREFIX=P` put in its place;
//! - the one that pkg-config names.
//!
//! The library is needed only where a program is linked. In the repository it may be built after this
//! crate, so there it is a warning that it is missing; elsewhere it is an error.

use std::env;
use std::path::{Path, PathBuf};
use std::process::Command;

/// A variable of the environment; an empty one is none.
fn variable(name: &str) -> Option<String> {
    println!("cargo::rerun-if-env-changed={name}");
    env::var(name).ok().filter(|value| !value.is_empty())
}

/// The repository in which the crate stands. A checkout of cargo's own is none: nobody builds there.
fn repository(package: &Path) -> Option<&Path> {
    let root = package.ancestors().nth(2)?;
    let has = |name| root.join(name).exists();
    (has("crates.txt") && !has(".cargo-ok")).then_some(root)
}

/// The lib beside the share in which the crate is installed.
fn lib_beside(package: &Path) -> Option<PathBuf> {
    let is_installed = package.ends_with("share/softlode/rust");
    package.ancestors().nth(3).filter(|_| is_installed).map(|prefix| prefix.join("lib"))
}

fn pkg_config() -> Option<PathBuf> {
    for name in ["PKG_CONFIG_PATH", "PKG_CONFIG_LIBDIR"] {
        variable(name);
    }
    let told = Command::new("pkg-config").args(["--variable=libdir", "softlode"]).output().ok()?;
    let folder = String::from_utf8(told.stdout).ok()?;
    told.status.success().then(|| folder.trim().into())
}

fn main() {
    // Cargo runs this in the package's folder; links are followed.
    let package = env::current_dir().expect("the package's folder");
    let (kind, file, built) = match variable("SOFTLODE_LINK").as_deref() {
        None | Some("static") => ("static:-bundle", "libsoftlode.a", "crates/softlode/out"),
        Some("dynamic") => ("dylib", "libsoftlode.so", "target/lib"),
        Some(other) => {
            return println!("cargo::error=SOFTLODE_LINK is {other}: it may be static or dynamic");
        }
    };
    let (level, folders) = match (variable("SOFTLODE_LIB_DIR"), repository(&package)) {
        (Some(named), _) => ("error", vec![named.into()]),
        (None, Some(root)) => ("warning", vec![root.join(built)]),
        (None, None) => ("error", lib_beside(&package).into_iter().chain(pkg_config()).collect()),
    };
    // The linker runs in another folder than this, so a name must begin at the root.
    let is_there = |folder: &&PathBuf| folder.is_absolute() && folder.join(file).is_file();
    let found = folders.iter().find(is_there);
    if found.is_none() {
        let looked: Vec<_> = folders.iter().map(|folder| folder.display().to_string()).collect();
        let why = match looked.as_slice() {
            [] => "pkg-config knows no softlode".into(),
            looked => format!("it is not in {}", looked.join(" or ")),
        };
        println!(
            "cargo::{level}={file} is missing: {why}. Run `make` in Softlode's repository, and \
             `make install PREFIX=DIR` for use outside it; or set SOFTLODE_LIB_DIR to the folder that \
             has it, by its full name."
        );
    }
    if let Some(folder) = found.or(folders.first()) {
        println!("cargo::rerun-if-changed={}", folder.join(file).display());
        println!("cargo::rustc-link-search=native={}", folder.display());
    }
    println!("cargo::rustc-link-lib={kind}=softlode");
}
