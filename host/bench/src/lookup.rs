//! A single lookup: against one pass over the arena's bytes, which is what an exact cause 9 cannot be cheaper than, and against the crate's own `get`
//! on the same contents.

use crate::filled::{Filled, VALUE};
use crate::measure::{Case, Table, bytes, thousands};

/// A lookup that hits, by arena, fill and value.
pub fn single(table: &mut Table) {
    if !table.wants("lookup") {
        return;
    }
    for arena in [64 << 10, 1 << 20, 16 << 20] {
        for percent in [10, 50, 100] {
            hit(table, "lookup", arena, percent, VALUE);
        }
    }
    hit(table, "lookup", 16 << 20, 100, 4096);
}

/// What an item costs as the arena grows.
pub fn growth(table: &mut Table) {
    if !table.wants("growth") {
        return;
    }
    for doubled in 0..9 {
        for percent in [50, 100] {
            hit(table, "growth", 64 << (10 + doubled), percent, VALUE);
        }
    }
}

fn hit(table: &mut Table, group: &'static str, arena: usize, percent: usize, value: usize) {
    if !table.wants_on(group, arena) {
        return;
    }
    let filled = Filled::with(arena, percent, value);
    let items = filled.items();
    let words = format!(
        "{}, {percent}% full, {} items",
        bytes(arena),
        thousands(items)
    );
    let mut others = vec![("one pass", filled.pass())];
    if group == "lookup" {
        others.push(("redis 1.8.1 get", filled.gets()));
    }
    table.measure_all(Case::new(group, words).on(items), filled.lookups(), others);
}

/// A lookup in an arena that holds nothing.
pub fn empty(table: &mut Table) {
    if !table.wants("empty") {
        return;
    }
    for arena in [64 << 10, 1 << 20, 16 << 20] {
        let filled = Filled::with(arena, 0, VALUE);
        let others = vec![
            ("one pass", filled.pass()),
            ("redis 1.8.1 get", filled.absent_gets()),
        ];
        table.measure_all(
            Case::new("empty", format!("lookup, {}", bytes(arena))),
            filled.absent(),
            others,
        );
    }
}

/// The answers to many commands under one key: the fields of a hash.
pub fn entries(table: &mut Table) {
    if !table.wants("one hash") {
        return;
    }
    for entries in [1, 100, 4096] {
        let filled = Filled::fields(1 << 20, entries);
        let words = format!("lookup of the last of {} entries", thousands(entries));
        let others = vec![
            ("one pass", filled.pass()),
            ("redis 1.8.1 get", filled.gets()),
        ];
        table.measure_all(
            Case::new("one hash", words).on(entries),
            filled.lookups(),
            others,
        );
    }
}
