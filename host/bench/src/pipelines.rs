//! Planning and resolving: against one pass over the arena, against one lookup in it, and against the crate's own functions on the same contents.

use crate::filled::{Call, Filled, VALUE};
use crate::measure::{Case, Table, bytes, thousands};

/// The arenas of both groups.
const ARENAS: [usize; 3] = [64 << 10, 1 << 20, 16 << 20];

/// How many commands a call has. A command has 1,024 arguments at most, so that the longest `MGET` has 1,023 keys.
const COMMANDS: [usize; 3] = [1, 32, 1024];

/// Planning in full arenas, and in empty ones.
pub fn planning(table: &mut Table) {
    if !table.wants("planning") {
        return;
    }
    for arena in ARENAS
        .into_iter()
        .filter(|&arena| table.wants_on("planning", arena))
        .collect::<Vec<_>>()
    {
        let filled = Filled::with(arena, 100, VALUE);
        let (there, new) = (filled.keys(), filled.new_keys());
        let both: Vec<Vec<u8>> = there
            .iter()
            .zip(&new)
            .flat_map(|(a, b)| [a.clone(), b.clone()])
            .collect();
        for count in COMMANDS {
            let keys = count.min(1023);
            let mut calls = vec![
                (gets(count, "served"), Call::gets(&there, count)),
                (gets(count, "missing"), Call::gets(&new, count)),
                (mget(keys, "served"), Call::mget(&there, keys)),
                (mget(keys, "missing"), Call::mget(&new, keys)),
            ];
            if keys > 1 {
                calls.push((mget(keys, "half missing"), Call::mget(&both, keys)));
            }
            for (words, call) in calls {
                plan(table, &filled, format!("{}: {words}", bytes(arena)), &call);
            }
        }
        let empty = Filled::with(arena, 0, VALUE);
        let call = Call::gets(&new, 1024);
        plan(
            table,
            &empty,
            format!("{}, empty: {}", bytes(arena), gets(1024, "missing")),
            &call,
        );
    }
    let hash = Filled::fields(1 << 20, 4096);
    plan(
        table,
        &hash,
        "1 MiB, one hash: 1,024 HGET served".into(),
        &Call::hgets(4096, 1024),
    );
}

fn plan(table: &mut Table, filled: &Filled, words: String, call: &Call) {
    if table.times() {
        filled.agree(call);
    }
    let others = vec![
        ("one pass", filled.pass()),
        ("redis 1.8.1", filled.crate_plannings(call)),
    ];
    table.measure_all(Case::new("planning", words), filled.plannings(call), others);
}

/// Resolving in arenas half full, so that there is space for what is new, and in empty ones.
pub fn resolving(table: &mut Table) {
    if !table.wants("resolving") {
        return;
    }
    for arena in ARENAS
        .into_iter()
        .filter(|&arena| table.wants_on("resolving", arena))
        .collect::<Vec<_>>()
    {
        let filled = Filled::with(arena, 50, VALUE);
        let (there, new) = (filled.keys(), filled.new_keys());
        for count in COMMANDS {
            let keys = count.min(1023);
            for (words, call) in [
                (gets(count, "new"), Call::gets(&new, count)),
                (gets(count, "present"), Call::gets(&there, count)),
                (mget(keys, "new"), Call::mget(&new, keys)),
                (mget(keys, "present"), Call::mget(&there, keys)),
            ] {
                resolve(table, &filled, format!("{}: {words}", bytes(arena)), &call);
            }
        }
        let empty = Filled::with(arena, 0, VALUE);
        let call = Call::gets(&new, 1024);
        resolve(
            table,
            &empty,
            format!("{}, empty: {}", bytes(arena), gets(1024, "new")),
            &call,
        );
    }
    let hash = Filled::fields(1 << 20, 4096);
    resolve(
        table,
        &hash,
        "1 MiB, one hash: 1,024 HGET present".into(),
        &Call::hgets(4096, 1024),
    );
}

fn resolve(table: &mut Table, filled: &Filled, words: String, call: &Call) {
    let others = vec![
        ("one pass", filled.pass()),
        ("redis 1.8.1", filled.crate_resolvings(call)),
    ];
    table.measure_all(
        Case::new("resolving", words),
        filled.resolvings(call),
        others,
    );
}

fn gets(count: usize, how: &str) -> String {
    format!("{} GET {how}", thousands(count))
}

fn mget(keys: usize, how: &str) -> String {
    format!("MGET of {} {how}", thousands(keys))
}
