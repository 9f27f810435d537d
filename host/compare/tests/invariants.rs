//! What holds of the model after every call of a random sequence, whoever else takes part: rows are well-formed, refused
//! calls leave all as it was but the stores that cause 7 leaves, and each buffer is short exactly by its length.

mod common;

use calls::{Answer, At, Call, Refusal, Setup, State};
use common::setup;
use compare::coverage::Coverage;
use compare::generate::{Limits, Sequence};
use model::{Model, book, config, layout, siphash};
use std::collections::HashSet;

const SEQUENCES: u64 = 500;

/// Every call of the random sequences, with the model before it.
fn each(mut check: impl FnMut(&Setup, &Model, At, &Call)) {
    for seed in 1..=SEQUENCES {
        let mut sequence = Sequence::begin(seed, Limits::ALL, |_| Vec::new());
        for _ in 0..60 {
            let (at, call) = sequence.next_call();
            check(sequence.setup(), sequence.leader(), at, &call);
            sequence
                .make(at, call, &mut Coverage::default())
                .expect("nobody follows");
        }
    }
}

fn after(model: &Model, at: At, call: &Call) -> (Answer, State) {
    let mut model = model.clone();
    let answer = model.call(at, call);
    (answer, model.state().clone())
}

#[test]
fn rows_are_well_formed() {
    each(|setup, model, at, call| {
        let (_, state) = after(model, at, call);
        let (shards, keys) = config::shards(setup.size);
        assert_eq!(state.shards.len() as u64, shards);
        for (number, row) in state.shards.iter().enumerate() {
            assert!(row.len() as u64 <= keys);
            assert!(book::size(row) <= setup.arena / shards - 16);
            let distinct: HashSet<_> = row.iter().map(|item| &item.key).collect();
            assert_eq!(distinct.len(), row.len());
            for item in row {
                assert_eq!(siphash::hash(&item.key) % shards, number as u64);
                let commands: HashSet<_> =
                    item.entries.iter().map(|entry| &entry.command).collect();
                assert_eq!(commands.len(), item.entries.len());
                assert!(!item.entries.is_empty());
                assert!(
                    item.entries
                        .iter()
                        .all(|entry| calls::resp::parse(&entry.value).is_some())
                );
            }
        }
    });
}

#[test]
fn a_refused_call_does_nothing_but_the_stores_that_7_leaves() {
    each(|_, model, at, call| {
        let (answer, state) = after(model, at, call);
        if let Answer::Refused(refusal) = answer {
            let before = model.state();
            assert_eq!(
                (state.counts, state.next_epoch),
                (before.counts, before.next_epoch)
            );
            assert!(refusal.cause == 7 || state == *before);
        }
    });
}

#[test]
fn a_buffer_is_short_exactly_by_its_length() {
    each(|_, model, at, call| match call.clone() {
        Call::Plan { record, .. } => plan_rooms(model, at, &record),
        Call::Resolve { plan, replies, .. } => {
            let with = |room| Call::Resolve {
                plan,
                replies: replies.clone(),
                room,
            };
            let (answer, state) = after(model, at, &with(usize::MAX));
            if let Answer::Resolved { result, .. } = &answer {
                let short = after(model, at, &with(result.len() - 1));
                assert_eq!(short, (refused(8), model.state().clone()));
                assert_eq!(after(model, at, &with(result.len())), (answer, state));
            }
        }
        _ => {}
    });
}

fn refused(cause: u8) -> Answer {
    Answer::Refused(Refusal::number(cause))
}

fn plan_rooms(model: &Model, at: At, record: &[u8]) {
    let with = |send_room, plan_room| Call::Plan {
        record: record.to_vec(),
        send_room,
        plan_room,
    };
    let (answer, state) = after(model, at, &with(usize::MAX, usize::MAX));
    let Answer::Planned { sent, outcomes, .. } = &answer else {
        return;
    };
    let (send, plan) = (sent.len(), layout::plan::encode(false, outcomes).len());
    let short = (refused(5), model.state().clone());
    if send > 0 {
        assert_eq!(after(model, at, &with(send - 1, plan)), short);
    }
    assert_eq!(after(model, at, &with(send, plan - 1)), short);
    assert_eq!(after(model, at, &with(send, plan)), (answer, state));
}

#[test]
fn lookups_are_hits_and_misses_and_resolving_counts_nothing() {
    each(|_, model, at, call| {
        let (answer, state) = after(model, at, call);
        let (old, new) = (model.state().counts, state.counts);
        let looked_up = new
            .hit
            .wrapping_sub(old.hit)
            .wrapping_add(new.miss.wrapping_sub(old.miss));
        match (call, answer) {
            (Call::Lookup { .. }, Answer::Hit(_) | Answer::Miss) => assert_eq!(looked_up, 1),
            (Call::Plan { .. }, _) => {}
            _ => assert_eq!(looked_up, 0),
        }
        if matches!(call, Call::Resolve { .. } | Call::Store { .. }) {
            assert_eq!(old, new);
        }
    });
}

#[test]
fn limits_of_setup() {
    let with = |size, arena, mode| {
        Model::setup(&Setup {
            size,
            arena,
            mode,
            ..setup(1)
        })
        .err()
    };
    let refused = Some(Refusal::number(1));
    assert_eq!(
        [with(0, 4096, 0), with(65_537, 4096, 0), with(1, 4096, 2)],
        [refused; 3]
    );
    assert_eq!([with(1, 63, 0), with(1, 64, 1)], [refused, None]);
    assert_eq!([with(31, 63, 0), with(31, 64, 0)], [refused, None]);
    assert_eq!([with(32, 2047, 0), with(32, 2048, 0)], [refused, None]);
    assert_eq!(
        [with(65_536, (1 << 31) + 1, 0), with(65_536, 1 << 31, 0)],
        [refused, None]
    );
}

#[test]
fn limits_of_single_calls() {
    let mut model = Model::setup(&Setup {
        arena: 1 << 26,
        ..setup(1)
    })
    .expect("a setup");
    let mut store = |key: usize, command: usize, blob: usize| {
        let value = calls::resp::encode(&calls::Value::Blob(vec![b'v'; blob]));
        let (key, command) = (vec![b'k'; key], vec![b'c'; command]);
        model.call(
            common::at(0),
            &Call::Store {
                key,
                command,
                value,
                expiry: 9,
            },
        )
    };
    let mib = 1 << 20;
    assert_eq!(
        [store(65_535, 1, 1), store(65_536, 1, 1)],
        [Answer::Done, refused(3)]
    );
    assert_eq!(
        [store(1, 16 * mib, 1), store(1, 16 * mib + 1, 1)],
        [Answer::Done, refused(3)]
    );
    let head = "$16777200\r\n\r\n".len();
    assert_eq!(
        [
            store(2, 1, 16 * mib - head),
            store(2, 1, 16 * mib - head + 1)
        ],
        [Answer::Done, refused(3)]
    );
    let now = common::at(0);
    let (long, empty) = (vec![b'k'; 65_536], Vec::new());
    let lookup = Call::Lookup {
        key: long.clone(),
        command: empty.clone(),
    };
    assert_eq!(model.call(now, &lookup), refused(3));
    assert_eq!(model.call(now, &Call::Invalidate { key: long }), refused(3));
    let wrong = Call::Store {
        key: empty.clone(),
        command: empty.clone(),
        value: empty,
        expiry: 0,
    };
    assert_eq!(model.call(now, &wrong), refused(6));
}

#[test]
fn a_record_over_16_mib_is_3_even_where_it_is_also_wrong() {
    let mut model = Model::setup(&setup(1)).expect("a setup");
    let mut plan = |length: usize| match model.call(
        common::at(0),
        &Call::Plan {
            record: vec![0; length],
            send_room: 0,
            plan_room: 0,
        },
    ) {
        Answer::Refused(refusal) => (refusal.cause, refusal.offset),
        other => panic!("{other:?}"),
    };
    assert_eq!(
        [plan(16 << 20), plan((16 << 20) + 1)],
        [(2, Some(0)), (3, None)]
    );
}
