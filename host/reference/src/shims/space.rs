//! The space rule, which this port adds: a store is refused where the shard after it would hold more bytes than it has.

use super::types::{Value, bytes};
use crate::caching::sharded_lru::{CacheItem, LRUCacheShard};
use std::cell::Cell;

thread_local! {
    static LIMIT: Cell<Option<u64>> = const { Cell::new(None) };
    static REFUSED: Cell<u64> = const { Cell::new(0) };
}

/// Sets how many bytes of items a shard of this thread's calls holds (`None`: as many as come), and forgets refusals.
pub(crate) fn set(limit: Option<u64>) {
    LIMIT.set(limit);
    REFUSED.set(0);
}

/// How many stores were refused since [`set`].
pub(crate) fn refused() -> u64 {
    REFUSED.get()
}

fn entry(command: &[u8], value: &Value) -> u64 {
    16 + (command.len() + bytes(value).len()) as u64
}

fn item(key: &[u8], item: &CacheItem) -> u64 {
    let entries: u64 = item
        .value_list
        .iter()
        .map(|e| entry(&e.cmd, &e.value))
        .sum();
    32 + key.len() as u64 + entries
}

/// Whether the store that `ShardedLRU::insert` is about to make would exceed the shard's bytes: what the shard holds, less
/// what the store takes away, plus what it brings.
pub(crate) fn refuses(
    shard: &LRUCacheShard,
    key: &[u8],
    command: &[u8],
    value: &Value,
    epoch: usize,
) -> bool {
    let Some(limit) = LIMIT.get() else {
        return false;
    };
    let held: u64 = shard.iter().map(|(k, i)| item(k, i)).sum();
    let new_entry = entry(command, value);
    let new_item = 32 + key.len() as u64 + new_entry;
    let (gone, new) = match shard.peek(key) {
        Some(old) if old.epoch == epoch => {
            let replaced = old.value_list.iter().find(|e| e.cmd == command);
            (replaced.map_or(0, |e| entry(&e.cmd, &e.value)), new_entry)
        }
        Some(old) => (item(key, old), new_item),
        None if shard.len() == usize::from(shard.cap()) => {
            (shard.peek_lru().map_or(0, |(k, i)| item(k, i)), new_item)
        }
        None => (0, new_item),
    };
    let refused = held - gone + new > limit;
    REFUSED.set(REFUSED.get() + u64::from(refused));
    refused
}
