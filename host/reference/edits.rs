// Every edit made to the sources, in one place: build.rs applies this list and nothing else. Each old text must stand
// exactly once in its file, or the build stops.

/// One edit of one file.
pub struct Edit {
    /// The file, as named in the sources.
    pub file: &'static str,
    /// The text that must stand there exactly once.
    pub old: &'static str,
    /// What stands there instead.
    pub new: &'static str,
    /// Why. Shown where the edit does not fit.
    pub why: &'static str,
}

/// A file of which only the lines from one marker up to another are taken.
pub struct Cut {
    /// The file, as named in the sources.
    pub file: &'static str,
    /// The first text taken; stands exactly once.
    pub from: &'static str,
    /// The first text no longer taken; stands exactly once.
    pub until: &'static str,
    /// Why.
    pub why: &'static str,
}

/// Files taken whole.
pub const WHOLE: &[&str] = &[
    "caching/cache_manager.rs",
    "caching/cmd.rs",
    "caching/config.rs",
    "caching/sharded_lru.rs",
    "caching/statistics.rs",
    "cmd.rs",
    "pipeline.rs",
];

/// Files of which a part is taken.
pub const CUTS: &[Cut] = &[Cut {
    file: "commands/mod.rs",
    from: "#[cfg(any(feature = \"cluster\", feature = \"cache-aio\"))]\nenum Properties {",
    until: "// Note - Brackets are needed around return types",
    why: "`Properties`, `command_properties` and `is_cachable_cmd` alone: the rest is the commands' builders",
}];

const CLOCK: &str = "`Instant` is the clock that each call gives";
const SEEN: &str =
    "the driver shows the items, gives each call its epoch and lends the first counts";

/// The edits.
pub const EDITS: &[Edit] = &[
    Edit {
        file: "caching/cache_manager.rs",
        old: "use std::time::{Duration, Instant};",
        new: "use crate::shims::clock::Instant;\nuse std::time::Duration;",
        why: CLOCK,
    },
    Edit {
        file: "caching/cmd.rs",
        old: "use std::{iter::zip, time::Instant};",
        new: "use crate::shims::clock::Instant;\nuse std::iter::zip;",
        why: CLOCK,
    },
    Edit {
        file: "caching/sharded_lru.rs",
        old: "use std::time::Instant;",
        new: "use crate::shims::clock::Instant;",
        why: CLOCK,
    },
    Edit {
        file: "caching/sharded_lru.rs",
        old: "NonZeroUsize::new(shard_size).unwrap()",
        new: "NonZeroUsize::new(shard_size).unwrap().into()",
        why: "lru before 0.8 takes its size as usize, later ones as NonZeroUsize",
    },
    Edit {
        file: "caching/sharded_lru.rs",
        old: "        if let Some(ch) = lru_cache.peek_mut(redis_key)\n",
        new: "        if crate::shims::space::refuses(&lru_cache, redis_key, cmd_key, &value, epoch) {\n            return;\n        }\n        if let Some(ch) = lru_cache.peek_mut(redis_key)\n",
        why: "the space rule is added by this port; without a limit set it refuses nothing",
    },
    Edit {
        file: "caching/cache_manager.rs",
        old: "        if crate::commands::is_cachable_cmd(command_name) {\n",
        new: "        if crate::commands::is_cachable_cmd(command_name) && !crate::shims::requests::refuses_arguments(cmd) {\n",
        why: "request 5: names of several keys are never cacheable, or only with one argument",
    },
    Edit {
        file: "caching/cache_manager.rs",
        old: "        if commands.is_empty() {\n            return PrepCacheItem::Cached(Value::Array(response));\n",
        new: "        if crate::shims::requests::refuses_no_key(response.len()) {\n            return PrepCacheItem::NotCacheable;\n        }\n        if commands.is_empty() {\n            return PrepCacheItem::Cached(Value::Array(response));\n",
        why: "request 4: a command of several keys that has none is not cacheable; `response` has a place for each key",
    },
    Edit {
        file: "caching/cache_manager.rs",
        old: "    lru: Arc<ShardedLRU>,\n",
        new: "    pub(crate) lru: Arc<ShardedLRU>,\n",
        why: SEEN,
    },
    Edit {
        file: "caching/cache_manager.rs",
        old: "    epoch: usize,\n}",
        new: "    pub(crate) epoch: usize,\n}",
        why: SEEN,
    },
    Edit {
        file: "caching/sharded_lru.rs",
        old: "    cmd: RedisCmd,\n    value: Value,\n",
        new: "    pub(crate) cmd: RedisCmd,\n    pub(crate) value: Value,\n",
        why: SEEN,
    },
    Edit {
        file: "caching/sharded_lru.rs",
        old: "    expire_time: Instant,\n    epoch: usize,\n    value_list: Vec<CacheCmdEntry>,\n",
        new: "    pub(crate) expire_time: Instant,\n    pub(crate) epoch: usize,\n    pub(crate) value_list: Vec<CacheCmdEntry>,\n",
        why: SEEN,
    },
    Edit {
        file: "caching/sharded_lru.rs",
        old: "type LRUCacheShard =",
        new: "pub(crate) type LRUCacheShard =",
        why: SEEN,
    },
    Edit {
        file: "caching/sharded_lru.rs",
        old: "    shards: Vec<std::sync::Mutex<LRUCacheShard>>,\n",
        new: "    pub(crate) shards: Vec<std::sync::Mutex<LRUCacheShard>>,\n",
        why: SEEN,
    },
    Edit {
        file: "caching/sharded_lru.rs",
        old: "    last_epoch: AtomicUsize,\n",
        new: "    pub(crate) last_epoch: AtomicUsize,\n",
        why: SEEN,
    },
    Edit {
        file: "caching/statistics.rs",
        old: "    hit: AtomicUsize,\n    miss: AtomicUsize,\n    invalidate: AtomicUsize,\n",
        new: "    pub(crate) hit: AtomicUsize,\n    pub(crate) miss: AtomicUsize,\n    pub(crate) invalidate: AtomicUsize,\n",
        why: SEEN,
    },
    Edit {
        file: "cmd.rs",
        old: "fn countdigits(mut v: usize)",
        new: "pub(crate) fn countdigits(mut v: usize)",
        why: "its digits are among the worked cases",
    },
];
