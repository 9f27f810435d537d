//! Copies the crate's sources into the build folder, applies the edits listed in edits.rs, and writes the module tree.
//! Stops where a file is missing or an edit does not fit exactly once.

use std::path::{Path, PathBuf};
use std::{env, fs};

mod edits;

use edits::{CUTS, EDITS, WHOLE};

fn main() {
    println!("cargo::rerun-if-env-changed=REDIS_SOURCES");
    println!("cargo::rerun-if-changed=build.rs");
    println!("cargo::rerun-if-changed=edits.rs");
    let sources = sources();
    let out = PathBuf::from(env::var_os("OUT_DIR").expect("cargo sets OUT_DIR"));
    for file in WHOLE {
        place(&out, file, edited(file, &read(&sources, file)));
    }
    for cut in CUTS {
        let text = read(&sources, cut.file);
        let from = once(cut.file, &text, cut.from, cut.why);
        let until = once(cut.file, &text, cut.until, cut.why);
        place(&out, cut.file, edited(cut.file, &text[from..until]));
    }
    for edit in EDITS {
        let known = WHOLE.contains(&edit.file) || CUTS.iter().any(|cut| cut.file == edit.file);
        assert!(known, "an edit names {}, which is not taken", edit.file);
    }
    fs::write(out.join("tree.rs"), tree(&out)).expect("the module tree is written");
}

/// The folder of the sources: REDIS_SOURCES, or ../shared/docs/src beside the repository; the files stand in its src/.
fn sources() -> PathBuf {
    let given = env::var_os("REDIS_SOURCES").map(PathBuf::from);
    let beside = || Path::new(env!("CARGO_MANIFEST_DIR")).join("../../../shared/docs/src");
    given.unwrap_or_else(beside).join("src")
}

fn read(sources: &Path, file: &str) -> String {
    let path = sources.join(file);
    println!("cargo::rerun-if-changed={}", path.display());
    fs::read_to_string(&path).unwrap_or_else(|error| panic!("{}: {error}", path.display()))
}

/// Where `part` stands in `text`, which it must exactly once.
fn once(file: &str, text: &str, part: &str, why: &str) -> usize {
    let mut places = text.match_indices(part);
    match (places.next(), places.next()) {
        (Some((place, _)), None) => place,
        (None, _) => panic!("{file}: not found: {part:?} ({why})"),
        (Some(_), Some(_)) => panic!("{file}: more than once: {part:?} ({why})"),
    }
}

/// The text with its edits, whose places are all found in the text as it came.
fn edited(file: &str, text: &str) -> String {
    let edits = EDITS.iter().filter(|edit| edit.file == file);
    let mut places: Vec<_> = edits
        .map(|edit| (once(file, text, edit.old, edit.why), edit))
        .collect();
    places.sort_by_key(|(place, _)| *place);
    let (mut out, mut done) = (String::new(), 0);
    for (place, edit) in places {
        assert!(done <= place, "{file}: two edits meet at {:?}", edit.old);
        out += &text[done..place];
        out += edit.new;
        done = place + edit.old.len();
    }
    out + &text[done..]
}

fn place(out: &Path, file: &str, text: String) {
    let path = out.join(file);
    fs::create_dir_all(path.parent().expect("a file has a folder")).expect("the folder is made");
    fs::write(path, text).expect("the copy is written");
}

/// The modules as the crate names them, each from its copy. The sources' unused items are no fault of theirs.
fn tree(out: &Path) -> String {
    let module = |file: &str, name: &str| {
        let path = out.join(file);
        format!("#[path = {path:?}]\n#[allow(dead_code, missing_docs)]\npub(crate) mod {name};\n")
    };
    let caching = [
        "cache_manager",
        "cmd",
        "config",
        "sharded_lru",
        "statistics",
    ]
    .map(|name| module(&format!("caching/{name}.rs"), name))
    .concat();
    let top = module("cmd.rs", "cmd")
        + &module("pipeline.rs", "pipeline")
        + &module("commands/mod.rs", "commands");
    format!(
        "{top}/// The cache.\npub(crate) mod caching {{\n{caching}\
         pub(crate) use cache_manager::{{CacheManager, CachingResult}};\n\
         pub(crate) use config::{{CacheConfig, CacheMode}};\n\
         pub(crate) use statistics::CacheStatistics;\n}}\n"
    )
}
