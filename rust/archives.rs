//! What the build scripts of `comparison` and `bench` share: linking archives of the proved code. An
//! archive is needed only where a program is linked, so everything compiles without it. The wrapper
//! is built outside the repository too, and has a build script of its own.

use std::path::Path;

/// Links `../crates/NAME/out/libNAME.a`, seen from this file's directory, for each name: to all
/// programs of the package that runs this, to its documentation tests, and to its dependants'.
pub fn link(names: &[&str]) {
    let manifest = std::env::var("CARGO_MANIFEST_DIR").expect("cargo sets it");
    for name in names {
        let folder = Path::new(&manifest).join(format!("../../crates/{name}/out"));
        println!("cargo::rustc-link-search=native={}", folder.display());
        let archive = folder.join(format!("lib{name}.a"));
        println!("cargo::rerun-if-changed={}", archive.display());
        println!("cargo::rustc-link-lib=static:-bundle={name}");
    }
}
