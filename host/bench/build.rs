//! Links what is measured beside the cache: the leaves, and Debian's hiredis.

#[path = "../staticlib.rs"]
mod staticlib;

fn main() {
    if std::env::var_os("CARGO_FEATURE_LEAVES").is_some() {
        staticlib::link("bench_exports");
        println!("cargo::rustc-link-lib=hiredis");
    }
}
