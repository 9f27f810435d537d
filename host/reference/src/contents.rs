//! What the cache holds: shown as a state, copied, and the facts that the worked cases ask for.

use crate::caching::CacheStatistics;
use crate::caching::sharded_lru::{CacheCmdEntry, CacheItem, LRUCacheShard, ShardedLRU};
use crate::driver::Reference;
use crate::shims::types::bytes;
use calls::{Counts, Entry, Item, State};
use std::sync::atomic::Ordering::Relaxed;
use std::sync::{Mutex, MutexGuard};

impl Reference {
    /// Everything that the cache holds.
    pub fn state(&self) -> State {
        let shards = self.lru.shards.iter().map(|shard| {
            held(shard)
                .iter()
                .map(|(key, item)| Item {
                    key: key.clone(),
                    epoch: item.epoch as u64,
                    expiry: u64::try_from(item.expire_time.0).expect("an expiry within 64 bits"),
                    entries: item
                        .value_list
                        .iter()
                        .map(|entry| Entry {
                            command: entry.cmd.clone(),
                            value: bytes(&entry.value),
                        })
                        .collect(),
                })
                .collect()
        });
        let counts: CacheStatistics = self.lru.statistics.clone().into();
        State {
            shards: shards.collect(),
            counts: Counts {
                hit: counts.hit as u64,
                miss: counts.miss as u64,
                invalidate: counts.invalidate as u64,
            },
            next_epoch: self.lru.last_epoch.load(Relaxed) as u64,
        }
    }

    /// A cache of its own with the same contents and plans.
    pub fn copy(&self) -> Self {
        let lru = ShardedLRU::new(self.size);
        for (from, to) in self.lru.shards.iter().zip(&lru.shards) {
            let (from, mut to) = (held(from), held(to));
            let mut items: Vec<_> = from
                .iter()
                .map(|(key, item)| (key.clone(), copied(item)))
                .collect();
            while let Some((key, item)) = items.pop() {
                to.push(key, item);
            }
        }
        let (from, to) = (&self.lru.statistics, &lru.statistics);
        to.hit.store(from.hit.load(Relaxed), Relaxed);
        to.miss.store(from.miss.load(Relaxed), Relaxed);
        to.invalidate.store(from.invalidate.load(Relaxed), Relaxed);
        lru.last_epoch
            .store(self.lru.last_epoch.load(Relaxed), Relaxed);
        let (size, shard_bytes, plans) = (self.size, self.shard_bytes, self.plans.clone());
        Reference {
            lru: lru.into(),
            size,
            shard_bytes,
            published: self.published,
            plans,
        }
    }

    /// Number of shards, and keys of each.
    pub fn shape(&self) -> (usize, usize) {
        (
            self.lru.shards.len(),
            held(&self.lru.shards[0]).cap().into(),
        )
    }

    /// Sets the number that the next new epoch takes, to show that it wraps.
    pub fn set_next_epoch(&mut self, next: u64) {
        self.lru.last_epoch.store(next as usize, Relaxed);
    }
}

/// `countdigits` of cmd.rs.
pub fn countdigits(number: usize) -> usize {
    crate::cmd::countdigits(number)
}

/// `is_cachable_cmd` of commands/mod.rs.
pub fn is_cachable_cmd(name: &[u8]) -> bool {
    crate::commands::is_cachable_cmd(name)
}

/// The copy of the sources' `command_properties`.
pub fn commands_path() -> &'static str {
    concat!(env!("OUT_DIR"), "/commands/mod.rs")
}

fn held(shard: &Mutex<LRUCacheShard>) -> MutexGuard<'_, LRUCacheShard> {
    shard.lock().expect("no call panicked under the lock")
}

fn copied(item: &CacheItem) -> CacheItem {
    let entry = |e: &CacheCmdEntry| CacheCmdEntry {
        cmd: e.cmd.clone(),
        value: e.value.clone(),
    };
    CacheItem {
        expire_time: item.expire_time,
        epoch: item.epoch,
        value_list: item.value_list.iter().map(entry).collect(),
    }
}
