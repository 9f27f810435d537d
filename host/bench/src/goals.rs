//! What was set as goals for the speed of the calls, as ratios within one run.

use crate::filled::{Call, Filled, VALUE};
use crate::measure::{Case, Table, Way, exactly, three};

/// A goal: what it is about, the ratio that was measured, and the most that it may be.
struct Goal {
    words: &'static str,
    reached: f64,
    most: f64,
}

/// Measures all of them and says which are met.
pub fn goals(table: &mut Table) {
    if !table.wants("goals") {
        return;
    }
    let mut goals = Vec::new();
    lookups(table, &mut goals);
    plannings(table, &mut goals);
    resolvings(table, &mut goals);
    if goals.is_empty() {
        return;
    }
    println!();
    for Goal {
        words,
        reached,
        most,
    } in goals
    {
        let met = if reached <= most { "met" } else { "missed" };
        println!(
            "goal: {words}: {} where {most} is the most: {met}",
            three(reached)
        );
    }
}

/// Measures a case against others, each with what is said of it and its most, or none where it is shown alone.
fn judge(
    table: &mut Table,
    goals: &mut Vec<Goal>,
    case: Case,
    ours: Way<'_>,
    others: Vec<(&'static str, Way<'_>, &'static str, f64)>,
) {
    let said: Vec<(&'static str, f64)> = others
        .iter()
        .map(|(_, _, words, most)| (*words, *most))
        .collect();
    let others = others
        .into_iter()
        .map(|(against, way, _, _)| (against, way))
        .collect();
    let ratios = table.measure_all(case, ours, others);
    for (reached, (words, most)) in ratios.into_iter().zip(said) {
        if most > 0.0 {
            goals.push(Goal {
                words,
                reached,
                most,
            });
        }
    }
}

fn lookups(table: &mut Table, goals: &mut Vec<Goal>) {
    let small = Filled::with(1 << 20, 100, VALUE);
    let small_items = small.items();
    for (arena, percent, ns, words) in [
        (
            1 << 20,
            50,
            18.0,
            "a lookup at 1 MiB, half full, over 18 ns an item",
        ),
        (
            1 << 20,
            100,
            18.0,
            "a lookup at 1 MiB, full, over 18 ns an item",
        ),
        (
            16 << 20,
            50,
            28.0,
            "a lookup at 16 MiB, half full, over 28 ns an item",
        ),
        (
            16 << 20,
            100,
            28.0,
            "a lookup at 16 MiB, full, over 28 ns an item",
        ),
    ] {
        let filled = Filled::with(arena, percent, VALUE);
        let items = filled.items();
        let mut others = vec![
            ("floor an item", exactly(ns), words, 2.5),
            ("plain walk", filled.walk().one_of(items), "", 0.0),
        ];
        if (arena, percent) == (16 << 20, 100) {
            let one = small.lookups().one_of(small_items);
            let words = "an item of a full 16 MiB arena over one of a full 1 MiB arena";
            others.push(("item at 1 MiB", one, words, 2.0));
        }
        let case = Case::new(
            "goals",
            format!("an item of a lookup, {} MiB, {percent}%", arena >> 20),
        );
        judge(table, goals, case, filled.lookups().one_of(items), others);
    }
}

fn plannings(table: &mut Table, goals: &mut Vec<Goal>) {
    let full = Filled::with(1 << 20, 100, VALUE);
    for (call, case, words, most, theirs) in [
        (
            Call::gets(&full.keys(), 1024),
            "planning 1,024 GET served, 1 MiB, full",
            "planning 1,024 served GETs, in lookups",
            4.0,
            "planning 1,024 served GETs, over the crate's time",
        ),
        (
            Call::gets(&full.new_keys(), 1024),
            "planning 1,024 GET missing, 1 MiB, full",
            "planning 1,024 missing GETs, in lookups",
            6.0,
            "planning 1,024 missing GETs, over the crate's time",
        ),
    ] {
        let others = vec![
            ("one lookup", full.lookups(), words, most),
            ("redis 1.8.1", full.crate_plannings(&call), theirs, 8.0),
        ];
        judge(
            table,
            goals,
            Case::new("goals", case),
            full.plannings(&call),
            others,
        );
    }
}

fn resolvings(table: &mut Table, goals: &mut Vec<Goal>) {
    let half = Filled::with(1 << 20, 50, VALUE);
    for (call, case, words, theirs) in [
        (
            Call::gets(&half.new_keys(), 1024),
            "resolving 1,024 GET new, 1 MiB, half full",
            "resolving 1,024 new GETs, in lookups",
            "resolving 1,024 new GETs, over the crate's time",
        ),
        (
            Call::gets(&half.keys(), 1024),
            "resolving 1,024 GET present, 1 MiB, half full",
            "resolving 1,024 present GETs, in lookups",
            "resolving 1,024 present GETs, over the crate's time",
        ),
    ] {
        let others = vec![
            ("one lookup", half.lookups(), words, 8.0),
            ("redis 1.8.1", half.crate_resolvings(&call), theirs, 4.0),
        ];
        judge(
            table,
            goals,
            Case::new("goals", case),
            half.resolvings(&call),
            others,
        );
    }
    let full = Filled::with(1 << 20, 100, VALUE);
    let call = Call::gets(&full.keys(), 1024);
    let others = vec![(
        "one lookup",
        full.lookups(),
        "resolving 1,024 present GETs, full, in lookups",
        8.0,
    )];
    let case = Case::new("goals", "resolving 1,024 GET present, 1 MiB, full");
    judge(table, goals, case, full.resolvings(&call), others);
}
