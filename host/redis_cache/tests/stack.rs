//! The header's word on the stack: the largest calls, on a large arena, run on a thread that has 64 KB for them.

use redis_cache::{Cache, CacheConfig, pipe};
use std::num::NonZeroUsize;
use std::thread::Builder;

/// As many commands as a call may have.
const COMMANDS: usize = 1024;

/// KB of stack: what the header allows a call, and what the thread, this test and the wrapper take themselves.
const CALL: usize = 64;
const OWN: usize = 8;

/// Plans and resolves a call of reads of these traps, whose catches are all read from the server.
fn fetched(cache: &mut Cache, traps: std::ops::Range<usize>) {
    let mut call = pipe();
    for trap in traps.clone() {
        call.cmd("GET").arg(format!("trap:{trap:06}"));
    }
    let plan = cache.plan(0, &call).expect("a plan");
    let mut replies = plan.replies();
    for _ in traps {
        replies.add(b":-1\r\n");
        replies.add(b"$2\r\n12\r\n");
    }
    let answer = cache.resolve(0, &plan, &replies);
    let _ = answer.expect("replies to the plan");
}

#[test]
fn the_largest_calls_take_less_than_64_kb() {
    let calls = || {
        let size = NonZeroUsize::new(1 << 16).expect("not zero");
        let config = CacheConfig::new().set_size(size);
        let mut cache = Cache::with_arena(config, 16 << 20).expect("these settings");
        for call in 0..48 {
            fetched(&mut cache, call * COMMANDS..(call + 1) * COMMANDS);
        }
        // Those that were read last are served, and one that was not read is fetched.
        let mut call = pipe();
        for trap in 47 * COMMANDS + 1..48 * COMMANDS + 1 {
            call.cmd("GET").arg(format!("trap:{trap:06}"));
        }
        let plan = cache.plan(0, &call).expect("a plan");
        assert!(!plan.is_served());
        assert_eq!(cache.statistics().hit, COMMANDS as u64 - 1);
        cache
            .on_push(b">2\r\n$10\r\ninvalidate\r\n_\r\n")
            .expect("a push");
    };
    let thread = Builder::new().stack_size((CALL + OWN) << 10).spawn(calls);
    thread
        .expect("a thread")
        .join()
        .expect("calls that answer as they should");
}
