//! The header is C, and what it declares is what the library has: a C program over it is compiled, with every warning an error,
//! and run.

use std::path::{Path, PathBuf};
use std::process::Command;

#[test]
fn a_c_program_over_the_header_runs() {
    let here = Path::new(env!("CARGO_MANIFEST_DIR"));
    let library = std::env::var_os("STATICLIB").map(PathBuf::from);
    let library = library.unwrap_or_else(|| here.join("../../target/staticlib"));
    let program = Path::new(env!("CARGO_TARGET_TMPDIR")).join("header");
    let compiled = Command::new("cc")
        .args([
            "-std=c99",
            "-Wall",
            "-Wextra",
            "-Wpedantic",
            "-Werror",
            "-I",
        ])
        .arg(here.join("../../include"))
        .arg(here.join("tests/header.c"))
        .arg(library.join("libcaching.a"))
        .arg("-o")
        .arg(&program)
        .output()
        .expect("the C compiler, with which Rust links too");
    let said = String::from_utf8_lossy(&compiled.stderr);
    assert!(compiled.status.success(), "{said}");
    let ended = Command::new(program).status().expect("it runs");
    assert!(ended.success(), "line {ended}");
}
