//! Links a static library of proved crates; taken in by the build scripts. `./staticlib NAME` writes target/staticlib/libNAME.a at
//! the repository's root; STATICLIB names another folder.

use std::path::{Path, PathBuf};

/// Links the library of that name. Where it was not built yet, `cargo check` and `cargo doc` do without it; what links it fails,
/// with a sentence on what to run.
pub fn link(name: &str) {
    println!("cargo::rerun-if-env-changed=STATICLIB");
    let given = std::env::var_os("STATICLIB").map(PathBuf::from);
    let built = || Path::new(env!("CARGO_MANIFEST_DIR")).join("../../target/staticlib");
    let folder = given.unwrap_or_else(built);
    let archive = folder.join(format!("lib{name}.a"));
    println!("cargo::rerun-if-changed={}", archive.display());
    if !archive.is_file() {
        println!(
            "cargo::warning=lib{name}.a is not built yet: run './staticlib {name}' at the repository's root before what links it \
             ('cargo check' and 'cargo doc' do without it)"
        );
    }
    println!("cargo::rustc-link-search=native={}", folder.display());
    println!("cargo::rustc-link-lib=static={name}");
}
