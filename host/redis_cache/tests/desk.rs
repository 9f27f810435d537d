//! A desk that keeps trap catches in the cache: what a host writes.

use redis_cache::Cause;
use redis_cache::lent::{
    Cache, Counts, Epochs, Looked, MODE_ALL, Now, PlanRefusal, Resolved, Responses, Settings,
    new_epoch, read_counts,
};

const SETTINGS: Settings = Settings {
    size: 64,
    mode: MODE_ALL,
    default_ttl: 1_800_000,
};

const CATCH: &[u8] = b"$2\r\n12\r\n";

/// A value is served until its expiry, not past it, and not under another epoch.
#[test]
fn a_catch_is_served_until_its_expiry() {
    let mut arena = vec![0; 1 << 16];
    let mut counts = Counts::default();
    let mut cache = Cache {
        arena: &mut arena,
        settings: SETTINGS,
    };
    let epochs = cache.setup().expect("these settings");
    assert_eq!((epochs.epoch, epochs.next), (0, 1));
    let stored = cache.store(epochs.epoch, b"trap7", b"GETtrap7", CATCH, 500);
    assert_eq!(stored, Ok(()));
    let mut at = |clock, epoch| {
        let looked = cache.lookup(Now { clock, epoch }, b"trap7", b"GETtrap7", &mut counts);
        looked.map(|found| found == Looked::Hit(CATCH))
    };
    assert_eq!([at(0, 0), at(500, 0)], [Ok(true), Ok(true)]);
    assert_eq!([at(501, 0), at(0, 0)], [Ok(false), Ok(false)]);
    let after = Counts {
        hit: 2,
        miss: 2,
        invalidate: 1,
    };
    assert_eq!((counts, read_counts(&counts)), (after, after));
}

/// A new connection takes the next number, and nothing kept before is served under it; after the last number comes 0.
#[test]
fn a_new_epoch_is_served_nothing_old() {
    let mut arena = vec![0; 1 << 16];
    let mut counts = Counts::default();
    let mut cache = Cache {
        arena: &mut arena,
        settings: SETTINGS,
    };
    let first = cache.setup().expect("these settings");
    let second = new_epoch(first.next);
    assert_eq!((second.epoch, second.next), (1, 2));
    let stored = cache.store(first.epoch, b"trap7", b"GETtrap7", CATCH, 500);
    assert_eq!(stored, Ok(()));
    let mut under = |epoch| {
        let now = Now { clock: 0, epoch };
        let looked = cache.lookup(now, b"trap7", b"GETtrap7", &mut counts);
        looked.map(|found| found == Looked::Hit(CATCH))
    };
    assert_eq!(under(first.epoch), Ok(true));
    assert_eq!(under(second.epoch), Ok(false));
    let last = new_epoch(u64::MAX);
    assert_eq!((last.epoch, last.next), (u64::MAX, 0));
}

/// A served value is a part of the arena; an invalidated one is gone.
#[test]
fn a_value_is_a_part_of_the_arena() {
    let mut arena = vec![0; 1 << 16];
    let range = arena.as_ptr_range();
    let mut counts = Counts::default();
    let mut cache = Cache {
        arena: &mut arena,
        settings: SETTINGS,
    };
    let epochs = cache.setup().expect("these settings");
    cache
        .store(epochs.epoch, b"trap7", b"GETtrap7", CATCH, 500)
        .expect("there is space");
    let now = Now {
        clock: 1,
        epoch: epochs.epoch,
    };
    match cache.lookup(now, b"trap7", b"GETtrap7", &mut counts) {
        Ok(Looked::Hit(value)) => {
            assert_eq!(value, CATCH);
            assert!(range.contains(&value.as_ptr()));
        }
        other => panic!("{other:?}"),
    }
    assert_eq!(cache.invalidate(b"trap7", &mut counts), Ok(()));
    let looked = cache.lookup(now, b"trap7", b"GETtrap7", &mut counts);
    assert_eq!(looked, Ok(Looked::Miss));
    assert_eq!(counts.invalidate, 1);
}

/// What is refused, and that nothing is changed by it.
#[test]
fn refusals_leave_everything() {
    let mut arena = vec![0; 1 << 16];
    let mut cache = Cache {
        arena: &mut arena,
        settings: SETTINGS,
    };
    cache.setup().expect("these settings");
    let mut store = |key: &[u8], value: &[u8]| cache.store(0, key, b"GET", value, 500);
    assert_eq!(store(&[b'k'; 65_536], CATCH), Err(Cause::TooLong));
    assert_eq!(store(b"k", b"$2\r\n1\r\n"), Err(Cause::BadReply));
    let long = [b"+".as_slice(), &[b'x'; 4096], b"\r\n"].concat();
    assert_eq!(store(b"k", &long), Err(Cause::NoSpace));
    cache.settings.mode = 2;
    assert_eq!(cache.setup(), Err(Cause::BadConfig));
    assert!(arena.iter().all(|&byte| byte == 0));
    arena[100] = 1;
    let mut cache = Cache {
        arena: &mut arena,
        settings: SETTINGS,
    };
    let mut counts = Counts::default();
    assert_eq!(cache.invalidate(b"k", &mut counts), Err(Cause::BadArena));
    assert_eq!(counts, Counts::default());
}

/// A command of a call record, as document 01 has it: no settings, no cursor.
fn record(args: &[&str]) -> Vec<u8> {
    let mut bytes = b"TRP\x01\0\0\x01\0".to_vec();
    bytes.extend([0; 17]);
    bytes.extend((args.len() as u16).to_le_bytes());
    for arg in args {
        bytes.push(0);
        bytes.extend((arg.len() as u32).to_le_bytes());
        bytes.extend(arg.as_bytes());
    }
    bytes
}

/// What is fetched is served the next time, until a push drops it.
#[test]
fn what_is_fetched_is_served_until_a_push() {
    let mut arena = vec![0; 1 << 16];
    let mut counts = Counts::default();
    let mut cache = Cache {
        arena: &mut arena,
        settings: SETTINGS,
    };
    let Epochs { epoch, .. } = cache.setup().expect("these settings");
    let now = Now { clock: 1, epoch };
    let catches = record(&["MGET", "trap7", "trap8"]);
    let (mut plan, mut send, mut answer) = ([0; 500], [0; 500], [0; 500]);

    let planned = cache.plan(now, &catches, &mut counts, &mut plan, &mut send);
    let planned = planned.expect("a record");
    let sent = "*3\r\n$4\r\nMGET\r\n$5\r\ntrap7\r\n$5\r\ntrap8\r\n\
        *2\r\n$4\r\nPTTL\r\n$5\r\ntrap7\r\n*2\r\n$4\r\nPTTL\r\n$5\r\ntrap8\r\n";
    assert_eq!(planned.send, sent.as_bytes());
    let Responses { offset, count } = planned.responses;
    assert_eq!((offset, count), (0, 3));

    let replies = b"*3\r\n*2\r\n$2\r\n12\r\n$1\r\n0\r\n:-1\r\n:60000\r\n";
    let fetched = b"*1\r\n*2\r\n$2\r\n12\r\n$1\r\n0\r\n";
    let resolved = cache.resolve(now, planned.plan, replies, &mut answer);
    let all_stored = Resolved {
        answer: fetched,
        refused: 0,
    };
    assert_eq!(resolved, Ok(all_stored));

    let planned = cache.plan(now, &catches, &mut counts, &mut plan, &mut send);
    let planned = planned.expect("a record");
    assert!(planned.send.is_empty());
    let resolved = cache.resolve(now, planned.plan, b"*0\r\n", &mut answer);
    assert_eq!(resolved, Ok(all_stored));

    let push = b">2\r\n$10\r\ninvalidate\r\n*1\r\n$5\r\ntrap8\r\n";
    assert_eq!(cache.push(push, &mut counts), Ok(()));
    let planned = cache.plan(now, &catches, &mut counts, &mut plan, &mut send);
    let sent = b"*2\r\n$4\r\nMGET\r\n$5\r\ntrap8\r\n*2\r\n$4\r\nPTTL\r\n$5\r\ntrap8\r\n";
    assert_eq!(planned.expect("a record").send, sent);
    let after = Counts {
        hit: 3,
        miss: 3,
        invalidate: 1,
    };
    assert_eq!(counts, after);
}

/// What planning and resolving refuse, and what that leaves.
#[test]
fn refused_plannings_and_resolvings() {
    let mut arena = vec![0; 1 << 16];
    let mut counts = Counts::default();
    let mut cache = Cache {
        arena: &mut arena,
        settings: SETTINGS,
    };
    cache.setup().expect("these settings");
    let now = Now { clock: 1, epoch: 0 };
    let get = record(&["GET", "trap7"]);
    let (mut plan, mut send, mut answer) = ([7; 100], [7; 100], [7; 100]);

    let cut = &get[..get.len() - 1];
    let refused = cache.plan(now, cut, &mut counts, &mut plan, &mut send);
    let ends_early = PlanRefusal {
        cause: Cause::BadRecord,
        offset: Some(cut.len() as u64),
    };
    assert_eq!(refused, Err(ends_early));
    let refused = cache.plan(now, &get, &mut counts, &mut plan, &mut send[..10]);
    assert_eq!(
        refused.map_err(|refused| refused.cause),
        Err(Cause::ShortBuffer)
    );
    assert_eq!(
        (plan, send, counts),
        ([7; 100], [7; 100], Counts::default())
    );

    let planned = cache.plan(now, &get, &mut counts, &mut plan, &mut send);
    let plan = planned.expect("a record").plan;
    let mut resolve = |plan: &[u8], replies: &[u8]| {
        let resolved = cache.resolve(now, plan, replies, &mut answer);
        (resolved.expect_err("refused"), answer)
    };
    let right = b"*2\r\n:-1\r\n$1\r\n0\r\n";
    assert_eq!(resolve(&plan[1..], right), (Cause::BadPlan, [7; 100]));
    assert_eq!(resolve(plan, &right[1..]), (Cause::BadReply, [7; 100]));
    assert_eq!(resolve(plan, b"*1\r\n:-1\r\n"), (Cause::BadShape, [0; 100]));
    let short = cache.resolve(now, plan, right, &mut answer[..10]);
    assert_eq!(short, Err(Cause::ShortAnswer));
}
