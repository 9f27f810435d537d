//! The library's bounds: setups at the limits, numbers wider than a setup's fields, arenas that are damaged or lent under other
//! settings. What is expected is what the model makes of the rows that its layout reads.
#![cfg(feature = "library")]

mod common;

use calls::{Answer, At, Call, Missing, Outcome, Place, Refusal, Setup};
use common::damage::{one_changed, several_changed};
use common::{at, lookup, plan, resolve, setup, store};
use compare::guarded::{Guarded, Side};
use compare::party::{Library, Party};
use compare::rng::Rng;
use model::plan::Plan;
use model::{Model, config, layout};
use redis_cache::Cause;
use redis_cache::lent::{Cache, Counts, Now, Settings, new_epoch};

#[test]
fn setups_at_the_limits() {
    for size in [0, 1, 2, 31, 32, 33, 65_535, 65_536, 65_537, u64::MAX] {
        for arena in [0, 1, 63, 64, 65, 2047, 2048, 2049, 5000] {
            for mode in [0, 1, 2, 255] {
                let setup = Setup {
                    size,
                    arena,
                    mode,
                    ..setup(1)
                };
                let (model, library) = (Model::setup(&setup), Library::setup(&setup));
                match (model, library) {
                    (Ok(model), Ok(library)) => assert_eq!(*model.state(), library.state()),
                    (model, library) => assert_eq!(model.err(), library.err(), "{setup:?}"),
                }
            }
        }
    }
}

/// Numbers that would be right ones if they were cut to fewer bits, and arenas around 2^31 bytes.
#[test]
fn numbers_wider_than_they_may_be_and_the_longest_arena() {
    let with = |arena: &mut [u8], size, mode| {
        let settings = Settings {
            size,
            mode,
            default_ttl: 0,
        };
        Cache { arena, settings }.setup().err()
    };
    let refused = Some(Cause::BadConfig);
    let small = &mut [0; 4096];
    for wide in [1 << 16, 1 << 32, 1 << 63] {
        assert_eq!(with(small, 1, wide), refused);
        assert_eq!(with(small, wide + 1, 0), refused);
    }
    let mut longest = Guarded::zeros((1 << 31) + 1, Side::Behind);
    assert_eq!(with(longest.bytes_mut(), 1, 0), refused);
    assert_eq!(with(&mut longest.bytes_mut()[..1 << 31], 1, 0), None);
}

/// The next epoch number wraps as the model's does.
#[test]
fn the_next_epoch_wraps() {
    let mut model = Model::setup(&setup(4)).expect("a setup");
    let mut next = u64::MAX;
    model.set_next_epoch(next);
    for expected in [u64::MAX, 0, 1] {
        let taken = new_epoch(next);
        next = taken.next;
        let answer = model.call(at(0), &Call::NewEpoch);
        assert_eq!(answer, Answer::Epoch(expected));
        assert_eq!((taken.epoch, next), (expected, model.state().next_epoch));
    }
}

/// Settings that are none are refused first in every call, whatever else is wrong with it.
#[test]
fn every_call_refuses_settings_that_are_none() {
    let wrong = |size, mode| Settings {
        size,
        mode,
        default_ttl: 0,
    };
    let wide = [1 << 16, 1 << 32, 1 << 63].map(|wide| [wrong(wide + 1, 0), wrong(1, wide)]);
    let mut cases: Vec<_> = wide.concat().into_iter().map(|set| (set, 200)).collect();
    cases.extend([(wrong(0, 0), 200), (wrong(1, 2), 200)]);
    cases.extend([(wrong(1, 0), 63), (wrong(32, 0), 2047)]);
    for (settings, length) in cases {
        let mut arena = vec![1; length];
        let mut cache = Cache {
            arena: &mut arena,
            settings,
        };
        let (now, mut counts) = (Now { clock: 0, epoch: 0 }, Counts::default());
        let (mut plan, mut send) = ([2; 9], [2; 9]);
        let planned = cache.plan(now, b"", &mut counts, &mut plan, &mut send);
        let mut refused = vec![planned.err().map(|refused| refused.cause)];
        refused.extend([
            cache.resolve(now, b"", b"", &mut plan).err(),
            cache.push(b"", &mut counts).err(),
            cache.lookup(now, b"", b"", &mut counts).err(),
            cache.store(0, b"", b"", b"", 0).err(),
            cache.invalidate(b"", &mut counts).err(),
            cache.setup().err(),
        ]);
        assert_eq!(refused, [Some(Cause::BadConfig); 7]);
        assert_eq!((arena, plan, send), (vec![1; length], [2; 9], [2; 9]));
        assert_eq!(counts, Counts::default());
    }
}

/// The library over these bytes answers and leaves what the model does on the rows that they hold, or refuses them as 9 and
/// leaves them. Tells whether they were an image.
fn judged(setup: &Setup, bytes: &[u8], at: At, call: &Call) -> bool {
    let mut library = Library::of(setup, Guarded::copy(bytes, Side::Behind));
    library.lend_plan(&layout::plan::encode(false, &waiting().outcomes));
    let answer = library.call(at, call).expect("it takes every call");
    let Some(rows) = layout::arena::decode(bytes, setup.size) else {
        assert_eq!(answer, Answer::Refused(Refusal::number(9)));
        assert_eq!(library.arena(), bytes);
        return false;
    };
    let mut model = Model::of(setup, rows);
    model.lend_plan(waiting());
    assert_eq!(answer, model.call(at, call));
    let left = layout::arena::encode(&model.state().shards, bytes.len());
    assert_eq!(library.arena(), left);
    assert_eq!(library.state(), *model.state());
    true
}

/// A plan in which two keys wait.
fn waiting() -> Plan {
    let waits = |key: &str| Missing {
        key: key.into(),
        command: ["GET", key].concat().into(),
        client_expiry: 9,
    };
    Plan {
        transaction: false,
        outcomes: vec![
            Outcome::Single(waits("a")),
            Outcome::Multiple(vec![Place::Waiting(waits("b"))]),
        ],
    }
}

/// The calls made to a damaged arena.
fn calls() -> Vec<(At, Call)> {
    let push = |bytes: &[u8]| Call::Push {
        bytes: bytes.to_vec(),
    };
    let calls = [
        plan(&["GET a", "MGET b a", "GET \"\""]),
        lookup("a", "GETa"),
        store("a", "GETa", "$1\r\ny\r\n", 9),
        Call::Invalidate { key: b"a".to_vec() },
        push(b">2\r\n$10\r\ninvalidate\r\n*2\r\n$1\r\na\r\n$0\r\n\r\n"),
        push(b">2\r\n$10\r\ninvalidate\r\n_\r\n"),
        resolve(0, "*4\r\n:5\r\n+x\r\n*1\r\n+y\r\n:-1\r\n"),
    ];
    calls.map(|call| (at(3), call)).to_vec()
}

/// Small arenas with items, entries, values of several kinds and left-over bytes.
fn images() -> Vec<(Setup, Vec<u8>)> {
    let built = |size, arena, stores: &[Call]| {
        let setup = Setup {
            arena,
            ..setup(size)
        };
        let mut model = Model::setup(&setup).expect("a setup");
        for call in stores {
            assert_eq!(model.call(at(0), call), Answer::Done);
        }
        let bytes = layout::arena::encode(&model.state().shards, arena as usize);
        (setup, bytes)
    };
    let a = store("a", "GETa", "$1\r\nx\r\n", 5);
    let second = store("a", "HGETaf", "*2\r\n:1\r\n_\r\n", 6);
    let b = store("b", "GETb", "%1\r\n+k\r\n,1.5\r\n", 7);
    let empty = store("", "", "#t\r\n", 8);
    vec![
        built(1, 64, &[]),
        built(1, 150, &[a.clone(), second.clone()]),
        built(2, 240, &[a.clone(), b.clone()]),
        built(3, 321, &[b.clone(), empty, a.clone(), second]),
        built(32, 32 * 90 + 7, &[a, b]),
    ]
}

#[test]
fn each_byte_changed_is_refused_or_another_image() {
    let (mut refused, mut other) = (0, 0);
    for (setup, image) in images() {
        let calls = calls();
        for (number, bytes) in one_changed(&image).enumerate() {
            let (at, call) = &calls[number % calls.len()];
            match judged(&setup, &bytes, *at, call) {
                true => other += 1,
                false => refused += 1,
            }
        }
    }
    assert!(
        refused > 20_000 && other > 1000,
        "{refused} refused, {other} images"
    );
}

#[test]
fn several_bytes_changed_or_moved_are_refused_or_another_image() {
    let mut rng = Rng::new(3);
    let (mut refused, mut other) = (0, 0);
    let (images, calls) = (images(), calls());
    for _ in 0..20_000 {
        let (setup, image) = &images[rng.below(images.len())];
        let mut bytes = image.clone();
        for _ in 0..1 + rng.below(3) {
            several_changed(&mut rng, &mut bytes);
        }
        let (at, call) = &calls[rng.below(calls.len())];
        match judged(setup, &bytes, *at, call) {
            true => other += 1,
            false => refused += 1,
        }
    }
    assert!(
        refused > 5000 && other > 500,
        "{refused} refused, {other} images"
    );
}

/// Nothing ties an arena to the settings that it was set up with but its bytes.
#[test]
fn an_arena_under_another_size_or_cut_short_is_judged_by_its_bytes() {
    for (setup, image) in images() {
        for size in [1, 2, 3, 31, 32, 64] {
            for length in [image.len(), image.len() - 1, image.len() - 16, 2048, 4096] {
                let mut bytes = image.clone();
                bytes.resize(length, 0);
                let setup = Setup {
                    size,
                    arena: length as u64,
                    ..setup.clone()
                };
                if config::check(&setup).is_ok() {
                    for (at, call) in calls() {
                        judged(&setup, &bytes, at, &call);
                    }
                }
            }
        }
    }
}
