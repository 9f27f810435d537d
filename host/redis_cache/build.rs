//! Links the cache.

#[path = "../staticlib.rs"]
mod staticlib;

fn main() {
    staticlib::link("caching");
}
