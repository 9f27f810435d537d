//! The cache that a host owns: what it fetches it serves, and its buffers grow without a trace in the counts.

use redis_cache::{
    Cache, CacheConfig, CacheMode, CacheStatistics, Cause, CommandCacheConfig, Plan, Value,
    arena_for, cmd, pipe,
};
use std::num::NonZeroUsize;

fn cache(config: CacheConfig) -> Cache {
    Cache::new(config).expect("these settings")
}

/// Resolves a plan with these responses.
fn answered(cache: &mut Cache, plan: &Plan, responses: &[&str]) -> Vec<u8> {
    let mut replies = plan.replies();
    for response in responses {
        assert!(!replies.is_complete());
        replies.add(response.as_bytes());
    }
    assert!(replies.is_complete());
    let answer = cache.resolve(0, plan, &replies);
    answer.expect("replies to the plan").bytes().to_vec()
}

#[test]
fn long_plans_and_answers_grow_the_buffers_and_count_once() {
    let config = CacheConfig::new();
    let mut cache = Cache::with_arena(config, 16 << 20).expect("these settings");
    let keys: Vec<String> = (0..1000)
        .map(|n| format!("a-trap-with-a-long-name-{n:010}"))
        .collect();
    let mut mget = cmd("MGET");
    mget.arg(&keys);
    let plan = cache.plan(0, &mget).expect("a plan");
    assert!(plan.send().len() > 8 * 4096);
    let values = format!(
        "*1000\r\n{}",
        "$40\r\n0123456789012345678901234567890123456789\r\n".repeat(1000)
    );
    let mut replies = plan.replies();
    replies.add(values.as_bytes());
    (0..1000).for_each(|_| replies.add(b":-1\r\n"));
    let answer = cache
        .resolve(0, &plan, &replies)
        .expect("replies to the plan");
    assert_eq!(answer.warning(), None);
    assert_eq!(answer.bytes(), format!("*1\r\n{values}").as_bytes());
    let miss = cache.statistics();
    let expected = CacheStatistics {
        miss: 1000,
        ..CacheStatistics::default()
    };
    assert_eq!(miss, expected);

    let again = cache.plan(0, &mget).expect("a plan");
    assert!(again.is_served());
    let catches = cache
        .resolve(0, &again, &again.replies())
        .expect("all served");
    let catches: Vec<String> = catches.query().expect("strings");
    assert_eq!((catches.len(), catches[999].len()), (1000, 40));
    assert_eq!(cache.statistics().hit, 1000);
}

#[test]
fn opt_in_caches_what_asks_for_it() {
    let mut cache = cache(CacheConfig::new().set_mode(CacheMode::OptIn));
    let plan = cache.plan(0, cmd("GET").arg("trap7")).expect("a plan");
    assert_eq!(plan.send(), b"*2\r\n$3\r\nGET\r\n$5\r\ntrap7\r\n");
    let mut asking = cmd("GET");
    asking
        .arg("trap7")
        .set_cache_config(CommandCacheConfig::new());
    let plan = cache.plan(0, &asking).expect("a plan");
    let caching = b"*3\r\n$6\r\nCLIENT\r\n$7\r\nCACHING\r\n$3\r\nYES\r\n";
    assert!(plan.send().starts_with(caching));
    let answer = answered(&mut cache, &plan, &["+OK\r\n", ":-1\r\n", "$2\r\n12\r\n"]);
    assert_eq!(answer, b"*1\r\n$2\r\n12\r\n");
    assert!(cache.plan(0, &asking).expect("a plan").is_served());
}

/// A transaction that is served whole still sends `MULTI` and `EXEC`.
#[test]
fn transactions() {
    let mut cache = cache(CacheConfig::new());
    let mut pipeline = pipe();
    pipeline.atomic().cmd("GET").arg("trap7");
    let plan = cache.plan(0, &pipeline).expect("a plan");
    let queued = [
        "+OK\r\n",
        "+QUEUED\r\n",
        "+QUEUED\r\n",
        "*2\r\n:-1\r\n$2\r\n12\r\n",
    ];
    let answer = answered(&mut cache, &plan, &queued);
    assert_eq!(answer, b"*1\r\n*1\r\n$2\r\n12\r\n");
    let served = cache.plan(0, &pipeline).expect("a plan");
    assert_eq!(served.send(), b"*1\r\n$5\r\nMULTI\r\n*1\r\n$4\r\nEXEC\r\n");
    let mut replies = served.replies();
    ["+OK\r\n", "*0\r\n"]
        .iter()
        .for_each(|reply| replies.add(reply.as_bytes()));
    let answer = cache.resolve(0, &served, &replies).expect("served");
    assert_eq!(answer.query::<(i64,)>(), Ok((12,)));
}

#[test]
fn a_refused_transaction_says_why() {
    let mut cache = cache(CacheConfig::new());
    let plan = cache
        .plan(0, pipe().atomic().cmd("GET").arg("trap7"))
        .expect("a plan");
    let mut refused = |responses: [&str; 4]| {
        let mut replies = plan.replies();
        responses
            .iter()
            .for_each(|response| replies.add(response.as_bytes()));
        cache.resolve(0, &plan, &replies).expect_err("refused")
    };
    for null in ["_\r\n", "*-1\r\n", "$-1\r\n"] {
        let null = refused(["+OK\r\n", "+QUEUED\r\n", "+QUEUED\r\n", null]);
        assert_eq!(null.cause(), Cause::BadShape);
        assert!(null.to_string().contains("EXEC was answered by null"));
    }
    let aborted = refused([
        "+OK\r\n",
        "-ERR unknown\r\n",
        "+QUEUED\r\n",
        "-EXECABORT gone\r\n",
    ]);
    assert_eq!(
        aborted.server_error().map(ToString::to_string),
        Some("EXECABORT gone".into())
    );
    assert_eq!(
        aborted.queued_error().map(ToString::to_string),
        Some("ERR unknown".into())
    );
}

/// Errors of the server are handed out, and not kept; a several-key command refuses them, and says so.
#[test]
fn server_errors_keep_their_text() {
    let mut cache = cache(CacheConfig::new());
    let mut get = cmd("GET");
    get.arg("trap7");
    let plan = cache.plan(0, &get).expect("a plan");
    let mut replies = plan.replies();
    replies.add(b":-1\r\n");
    replies.add(b"-WRONGTYPE a hash\r\n");
    let answer = cache.resolve(0, &plan, &replies).expect("passed on");
    let wrong = answer.query::<i64>().expect_err("an error");
    assert_eq!(
        wrong.server_error().map(|error| error.code()),
        Some("WRONGTYPE")
    );
    assert!(!cache.plan(0, &get).expect("a plan").is_served());

    let plan = cache
        .plan(0, cmd("MGET").arg(["trap7", "trap8"]))
        .expect("a plan");
    let mut replies = plan.replies();
    for reply in ["-LOADING the data\r\n", ":-1\r\n", ":-1\r\n"] {
        replies.add(reply.as_bytes());
    }
    let refused = cache.resolve(0, &plan, &replies).expect_err("no array");
    assert_eq!(refused.number(), 7);
    assert_eq!(
        refused.server_error().map(|error| error.code()),
        Some("LOADING")
    );
}

/// What was asked on an earlier connection is not served on the next one, even where it is resolved there.
#[test]
fn replies_of_an_earlier_connection_are_not_served() {
    let mut cache = cache(CacheConfig::new());
    let mut get = cmd("GET");
    get.arg("trap7");
    let plan = cache.plan(0, &get).expect("a plan");
    assert_eq!(cache.new_epoch(), 1);
    answered(&mut cache, &plan, &[":-1\r\n", "$2\r\n12\r\n"]);
    assert!(!cache.plan(0, &get).expect("a plan").is_served());
}

/// The arena that is reckoned holds all the keys, in one shard and in 32.
#[test]
fn the_arena_holds_what_it_is_reckoned_for() {
    for (size, key, value) in [(31, 10, 5), (1000, 10, 5), (320, 40, 300)] {
        let size = NonZeroUsize::new(size).expect("not zero");
        let config = CacheConfig::new().set_size(size);
        let arena = arena_for(&config, key, value);
        let mut cache = Cache::with_arena(config, arena).expect("these settings");
        let reply = format!("${value}\r\n{}\r\n", "x".repeat(value));
        for n in 0..size.get() {
            let key = format!("{n:0key$}");
            let command = format!("GET{key}");
            let stored = cache.insert(key.as_bytes(), command.as_bytes(), reply.as_bytes(), 500);
            assert_eq!(stored, Ok(()), "{size}");
        }
    }
}

/// Single calls: kept until its time, and dropped.
#[test]
fn single_calls() {
    let mut cache = cache(CacheConfig::new());
    let value = b"*2\r\n:1\r\n_\r\n";
    cache
        .insert(b"trap7", b"LRANGEtrap701", value, 9)
        .expect("there is space");
    let found = cache.get(9, b"trap7", b"LRANGEtrap701").expect("a lookup");
    assert_eq!(found, Some(Value::Array(vec![Value::Int(1), Value::Nil])));
    assert_eq!(cache.get(9, b"trap7", b"GETtrap7"), Ok(None));
    assert_eq!(cache.invalidate(b"trap7"), Ok(()));
    assert_eq!(cache.get(9, b"trap7", b"LRANGEtrap701"), Ok(None));
    let expected = CacheStatistics {
        hit: 1,
        miss: 2,
        invalidate: 1,
    };
    assert_eq!(cache.statistics(), expected);
    let long = [b'k'; 65_536];
    assert_eq!(
        cache.get(0, &long, b"").map_err(|error| error.cause()),
        Err(Cause::TooLong)
    );
}
