//! Where the crate and document 01 part, each shown by running it (docs/DIFFERENCES.md lists them).
#![cfg(feature = "reference")]

mod common;

use calls::{Answer, At, CacheSettings, Command, Outcome, Record, Refusal, resp};
use common::*;
use reference::Reference;
use std::panic::{AssertUnwindSafe, catch_unwind};
use std::time::{Duration, Instant};

fn record(lines: &[&str]) -> Record {
    Record {
        transaction: false,
        commands: lines.iter().map(|line| command(line)).collect(),
    }
}

fn outcomes(answer: Answer) -> Vec<Outcome> {
    match answer {
        Answer::Planned { outcomes, .. } => outcomes,
        other => panic!("{other:?}"),
    }
}

/// Plans lines, and resolves what one of them misses with `:-1` and this value.
fn fill(reference: &mut Reference, line: &str, value: &str) {
    reference.plan(at(0), &record(&[line])).expect("planned");
    let replies = resp::parse(format!("*2\r\n:-1\r\n{value}").as_bytes()).expect("a value");
    let resolved = reference.resolve(at(0), 0, replies);
    assert!(matches!(resolved, Answer::Resolved { .. }));
}

#[test]
fn a_cursor_as_key_panics_in_the_crate() {
    for line in ["GET @", "GET @ a", "HGET @ f"] {
        let mut reference = Reference::setup(&setup(4), false);
        let planned = catch_unwind(AssertUnwindSafe(|| reference.plan(at(0), &record(&[line]))));
        assert!(planned.is_err(), "{line}");
        let mut model = model::Model::setup(&setup(4)).expect("a setup");
        let planned = model.call(at(0), &plan(&[line]));
        assert_eq!(outcomes(planned), [Outcome::NotCacheable]);
    }
}

#[test]
fn without_keys_the_crate_serves_an_empty_array() {
    for line in ["MGET", "MGET @", "JSON.MGET", "JSON.MGET k"] {
        let mut published = Reference::setup(&setup(4), false).as_published();
        let planned = published.plan(at(0), &record(&[line])).expect("planned");
        assert_eq!(outcomes(planned), [Outcome::CachedAll(vec![])], "{line}");
        let mut model = model::Model::setup(&setup(4)).expect("a setup");
        let planned = model.call(at(0), &plan(&[line]));
        assert_eq!(outcomes(planned), [Outcome::NotCacheable], "{line}");
    }
}

#[test]
fn a_client_expiry_past_64_bits_goes_on_in_the_crate_and_is_refused_here() {
    let now = At {
        clock: u64::MAX,
        default_ttl: 1,
        ..at(0)
    };
    for line in ["GET a", "SET a", "GET", "MGET"] {
        let mut reference = Reference::setup(&setup(4), false);
        assert_eq!(reference.plan(now, &record(&[line])), None, "{line}");
        let mut model = model::Model::setup(&setup(4)).expect("a setup");
        assert_eq!(
            model.call(now, &plan(&[line])),
            Answer::Refused(Refusal::number(4)),
            "{line}"
        );
    }
    let mut reference = Reference::setup(&setup(4), false);
    assert!(reference.plan(now, &record(&["@", "\"\" a"])).is_some());
}

#[test]
fn the_standard_instant_takes_64_bits_of_milliseconds_here() {
    let far = Instant::now() + Duration::from_millis(u64::MAX);
    assert!(
        far.checked_add(Duration::from_millis(i64::MAX as u64))
            .is_some()
    );
    assert!(
        far.checked_add(Duration::from_secs(i64::MAX as u64))
            .is_none()
    );
}

#[test]
fn a_pttl_past_64_bits_counts_as_the_larger() {
    let now = At {
        clock: u64::MAX - 10,
        default_ttl: 4,
        ..at(0)
    };
    for mut party in parties(&setup(4)) {
        answer(&mut *party, now, &plan(&["GET k"]));
        answer(
            &mut *party,
            now,
            &resolve(0, "*2\r\n:9223372036854775807\r\n:1\r\n"),
        );
        assert_eq!(only_item(&*party).expiry, u64::MAX - 6);
    }
}

#[test]
fn equal_joined_bytes_share_an_entry() {
    for (first, second) in [
        ("GETRANGE RANGE", "GET RANGE RANGE"),
        ("LRANGE trap7 1 23", "LRANGE trap7 12 3"),
        ("HMGET h f g", "HMGET h fg"),
        ("ZRANGE z @ 1", "ZRANGE z 1"),
    ] {
        let mut reference = Reference::setup(&setup(4), false);
        fill(&mut reference, first, "+v\r\n");
        let planned = outcomes(reference.plan(at(0), &record(&[second])).expect("planned"));
        assert_eq!(planned, [Outcome::Cached(b"+v\r\n".to_vec())], "{second}");
    }
}

#[test]
fn the_cursor_is_not_in_the_command_key() {
    let mut reference = Reference::setup(&setup(4), false);
    fill(&mut reference, "ZRANGE z @", "+v\r\n");
    let other = Record {
        commands: vec![Command {
            cursor: 9,
            ..command("ZRANGE z @")
        }],
        transaction: false,
    };
    let planned = outcomes(reference.plan(at(0), &other).expect("planned"));
    assert_eq!(planned, [Outcome::Cached(b"+v\r\n".to_vec())]);
}

#[test]
fn an_updating_store_revives_an_expired_item() {
    let mut reference = Reference::setup(&setup(4), false);
    reference.store(at(0), b"a", b"GETa", resp::Value::Integer(1), 5);
    reference.store(at(9), b"a", b"HGETaf", resp::Value::Integer(2), 20);
    assert_eq!(
        reference.lookup(at(9), b"a", b"GETa"),
        Answer::Hit(b":1\r\n".to_vec())
    );
    let mut without = Reference::setup(&setup(4), false);
    without.store(at(0), b"a", b"GETa", resp::Value::Integer(1), 5);
    assert_eq!(without.lookup(at(9), b"a", b"GETa"), Answer::Miss);
}

#[test]
fn an_item_that_the_lru_drops_is_not_counted_as_invalidated() {
    let mut reference = Reference::setup(&setup(1), false);
    reference.store(at(0), b"a", b"GETa", resp::Value::Integer(1), 5);
    reference.store(at(0), b"b", b"GETb", resp::Value::Integer(1), 5);
    let state = reference.state();
    assert_eq!((state.shards[0].len(), state.counts.invalidate), (1, 0));
}

/// The crate's connection resolves with an empty array where nothing is to be sent, in a transaction too.
#[test]
fn an_all_cached_transaction_fails_in_the_crates_connection() {
    let mut reference = Reference::setup(&setup(4), false);
    fill(&mut reference, "GET a", "+v\r\n");
    let cached = Record {
        transaction: true,
        ..record(&["GET a"])
    };
    let Some(Answer::Planned {
        sent, responses, ..
    }) = reference.plan(at(0), &cached)
    else {
        panic!("planned");
    };
    assert_eq!(
        (sent.as_slice(), responses),
        (
            b"*1\r\n$5\r\nMULTI\r\n*1\r\n$4\r\nEXEC\r\n".as_slice(),
            (1, 1)
        )
    );
    let failed = reference.resolve(at(0), 1, resp::Value::Array(Vec::new()));
    assert_eq!(failed, Answer::Refused(Refusal::number(7)));
    let right = reference.resolve(at(0), 1, resp::parse(b"*1\r\n*0\r\n").expect("a value"));
    assert_eq!(result(right), "*1\r\n*1\r\n+v\r\n");
}

/// `ZUNION`, `SUNION` and the like watch their first argument alone: for `ZUNION 2 a b` that is the number of keys.
#[test]
fn of_several_sets_the_crate_watches_argument_1() {
    for (line, key) in [
        ("ZUNION 2 a b", "2"),
        ("SUNION north south", "north"),
        ("EXISTS a @", "a"),
        ("LCS a b", "a"),
    ] {
        let mut published = Reference::setup(&setup(4), false).as_published();
        let planned = outcomes(published.plan(at(0), &record(&[line])).expect("planned"));
        let watched =
            matches!(&planned[0], Outcome::Single(missing) if missing.key == key.as_bytes());
        assert!(watched, "{line}");
        let mut model = model::Model::setup(&setup(4)).expect("a setup");
        let planned = model.call(at(0), &plan(&[line]));
        assert_eq!(outcomes(planned), [Outcome::NotCacheable], "{line}");
    }
}

/// Of one argument, a simple one, four of them are cached as before; a cursor in its place is no panic.
#[test]
fn a_set_alone_is_cached() {
    for name in model::commands::SOLE_KEY {
        for mut party in parties(&setup(4)) {
            let lines = [&*format!("{name} a"), &*format!("{name} @"), name];
            let planned = outcomes(answer(&mut *party, at(0), &plan(&lines)));
            assert!(matches!(&planned[0], Outcome::Single(missing) if missing.key == b"a"));
            assert_eq!(planned[1..], [Outcome::NotCacheable, Outcome::NotCacheable]);
        }
    }
}

#[test]
fn mode_all_takes_a_ttl_with_enable_cache_clear() {
    let settings = CacheSettings {
        enable_cache: false,
        client_ttl: Some(7),
    };
    let commands = vec![Command {
        cache: Some(settings),
        ..command("GET a")
    }];
    for mut party in parties(&setup(4)) {
        let call = plan_record(&Record {
            transaction: false,
            commands: commands.clone(),
        });
        let planned = outcomes(answer(&mut *party, at(1), &call));
        assert!(matches!(&planned[0], Outcome::Single(missing) if missing.client_expiry == 8));
    }
}

#[test]
fn the_cacheable_names_are_the_crates() {
    let names = [model::commands::CACHEABLE, model::commands::NEVER].concat();
    for name in names {
        assert!(reference::is_cachable_cmd(name.as_bytes()), "{name}");
        assert!(
            !reference::is_cachable_cmd(name.to_lowercase().as_bytes()),
            "{name}"
        );
    }
}

/// No other name of the crate's list is cacheable, but for the six of request 5: the names are read from the sources' own text.
#[test]
fn no_other_name_of_the_crates_list_is_cacheable() {
    let text = std::fs::read_to_string(reference::commands_path()).expect("the copied sources");
    let names: Vec<&str> = text
        .split("b\"")
        .skip(1)
        .filter_map(|rest| rest.split('"').next())
        .collect();
    assert!(names.len() > model::commands::CACHEABLE.len());
    let cacheable = names
        .iter()
        .filter(|name| reference::is_cachable_cmd(name.as_bytes()))
        .count();
    let never = model::commands::NEVER;
    assert_eq!(cacheable, model::commands::CACHEABLE.len() + never.len());
    for name in names.into_iter().filter(|name| !never.contains(name)) {
        assert_eq!(
            reference::is_cachable_cmd(name.as_bytes()),
            model::commands::cacheable(name.as_bytes()),
            "{name}"
        );
    }
}

#[test]
fn the_next_epoch_wraps() {
    let mut reference = Reference::setup(&setup(4), false);
    reference.set_next_epoch(u64::MAX);
    let mut model = model::Model::setup(&setup(4)).expect("a setup");
    model.set_next_epoch(u64::MAX);
    for expected in [u64::MAX, 0, 1] {
        assert_eq!(reference.new_epoch(), Answer::Epoch(expected));
        assert_eq!(
            model.call(at(0), &calls::Call::NewEpoch),
            Answer::Epoch(expected)
        );
    }
}
