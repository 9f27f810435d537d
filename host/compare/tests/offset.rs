//! The offset that the library answers with cause 2 is where a search over all fronts says that the bytes go wrong, whatever one byte of a small record is made.
#![cfg(feature = "library")]

mod common;

use calls::{Answer, Arg, CacheSettings, Call, Command, Record, record};
use common::judged::{cache, judged, now, plan_of};
use model::offset::searched;

/// Records with each field, of at most 60 bytes.
fn small() -> Vec<Record> {
    let simple = |text: &str| Arg::Simple(text.into());
    let get = Command {
        args: vec![simple("GET"), simple("a")],
        ..Command::default()
    };
    let with_ttl = Command {
        ignored: true,
        cache: Some(CacheSettings {
            enable_cache: true,
            client_ttl: Some(500),
        }),
        cursor: 7,
        args: vec![Arg::Cursor, simple("")],
    };
    let of = |transaction, commands: &[&Command]| Record {
        transaction,
        commands: commands.iter().map(|&command| command.clone()).collect(),
    };
    vec![
        of(false, &[]),
        of(true, &[&Command::default()]),
        of(false, &[&get]),
        of(true, &[&with_ttl, &Command::default()]),
    ]
}

/// What the library says of these bytes: where they go wrong.
fn answered(bytes: Vec<u8>) -> Option<usize> {
    let cache = cache();
    let plan = plan_of(&cache.1, &Record::default());
    let call = Call::Plan {
        record: bytes,
        send_room: 500,
        plan_room: 500,
    };
    match judged(&cache, &plan, now(0), &call) {
        Answer::Refused(refusal) if refusal.cause == 2 => refusal.offset,
        _ => None,
    }
}

#[test]
fn any_byte_anywhere() {
    for record in small() {
        let bytes = record::encode(&record);
        for place in 0..bytes.len() {
            for byte in 0..=255 {
                let mut changed = bytes.clone();
                changed[place] = byte;
                let wrong = searched(&changed);
                assert_eq!(answered(changed), wrong, "{record:?}: {byte} at {place}");
            }
        }
    }
}

#[test]
fn cut_and_then_any_byte() {
    for record in small() {
        let bytes = record::encode(&record);
        for end in 0..=bytes.len() {
            let cut = bytes[..end].to_vec();
            let wrong = searched(&cut);
            assert_eq!(wrong, (end < bytes.len()).then_some(end));
            assert_eq!(answered(cut), wrong);
            for byte in 0..=255 {
                let longer = [&bytes[..end], &[byte]].concat();
                let wrong = searched(&longer);
                assert_eq!(answered(longer), wrong, "{record:?}: {byte} behind {end}");
            }
        }
    }
}
