//! The driver: document 01's calls, made to the sources' own functions.
//!
//! It knows none of 01's causes but 7, which is an error of `resolve`, and 11, which is the space rule's hook. The caller
//! keeps to valid bytes and to what 01 does not refuse.

use crate::caching::sharded_lru::ShardedLRU;
use crate::caching::{CacheConfig, CacheManager, CacheMode};
use crate::plan::{Decided, Plan};
use crate::request::pipeline;
use crate::shims::clock::{self, Instant};
use crate::shims::types::bytes;
use crate::shims::{requests, space};
use crate::{PushKind, Value};
use calls::{Answer, At, Record, Refusal, Setup, resp};
use std::num::NonZeroUsize;
use std::sync::Arc;
use std::sync::atomic::Ordering::Relaxed;
use std::time::Duration;

/// The crate's cache with its plans.
pub struct Reference {
    pub(crate) lru: Arc<ShardedLRU>,
    pub(crate) size: NonZeroUsize,
    pub(crate) shard_bytes: Option<u64>,
    pub(crate) published: bool,
    pub(crate) plans: Vec<Arc<Plan>>,
}

impl Reference {
    /// A fresh cache. With `space` the space rule holds for the setup's arena, otherwise stores are never refused.
    ///
    /// # Panics
    /// On a size of 0, which the crate cannot be given.
    pub fn setup(setup: &Setup, space: bool) -> Self {
        let size = NonZeroUsize::new(setup.size as usize).expect("size is not 0");
        let manager = CacheManager::new(config(size, setup.mode, setup.default_ttl));
        let lru = manager.lru.clone();
        lru.statistics.hit.store(setup.counts.hit as usize, Relaxed);
        lru.statistics
            .miss
            .store(setup.counts.miss as usize, Relaxed);
        lru.statistics
            .invalidate
            .store(setup.counts.invalidate as usize, Relaxed);
        let shard_bytes = space.then(|| setup.arena / lru.shards.len() as u64 - 16);
        Reference {
            lru,
            size,
            shard_bytes,
            published: false,
            plans: Vec::new(),
        }
    }

    /// The crate as it was published, without what document 02 asks for.
    pub fn as_published(self) -> Self {
        Reference {
            published: true,
            ..self
        }
    }

    /// The crate's manager over this cache, under the call's clock, epoch and settings.
    pub(crate) fn manager(&self, at: At) -> CacheManager {
        clock::set(at.clock);
        space::set(self.shard_bytes);
        requests::set(!self.published);
        CacheManager {
            lru: self.lru.clone(),
            cache_config: config(self.size, at.mode, at.default_ttl),
            epoch: at.epoch as usize,
        }
    }

    /// `get_cached_pipeline`, which makes the plan of the next number. `None` where a client expiry went past 64 bits; the
    /// lookups are made all the same.
    ///
    /// # Panics
    /// Where the crate does: a cursor as the key of a single-key command.
    pub fn plan(&mut self, at: At, record: &Record) -> Option<Answer> {
        let manager = self.manager(at);
        let requested = pipeline(record);
        let (plan, packed, (skip, take)) = manager.get_cached_pipeline(&requested);
        if clock::past() {
            return None;
        }
        let plan = Decided::of(&plan).with(requested);
        let outcomes = plan.outcomes();
        self.plans.push(plan.into());
        let responses = (skip as u64, take as u64);
        Some(Answer::Planned {
            sent: packed.get_packed_pipeline(),
            responses,
            outcomes,
        })
    }

    /// `CacheablePipeline::resolve` of the plan of that number; its error is cause 7.
    pub fn resolve(&mut self, at: At, plan: usize, replies: resp::Value) -> Answer {
        let manager = self.manager(at);
        match self.plans[plan].lent().resolve(&manager, replies.into()) {
            Ok(list) => Answer::Resolved {
                result: bytes(&Value::Array(list)),
                refused: space::refused(),
            },
            Err(_) => Answer::Refused(Refusal::number(7)),
        }
    }

    /// `handle_push_value`, for a push; the kind is read from a blob alone. Other values are no push.
    pub fn push(&mut self, at: At, value: resp::Value) -> Answer {
        if let resp::Value::Push(list) = value {
            let mut list: Vec<Value> = list.into_iter().map(|v| Value::from(v).seen()).collect();
            let data = list.split_off(list.len().min(1));
            let kind = match list.first() {
                Some(Value::BulkString(kind)) if kind == b"invalidate" => PushKind::Invalidate,
                _ => PushKind::Other,
            };
            self.manager(at).handle_push_value(&kind, &data);
        }
        Answer::Done
    }

    /// `ShardedLRU::get`.
    pub fn lookup(&mut self, at: At, key: &[u8], command: &[u8]) -> Answer {
        let manager = self.manager(at);
        let found = manager.lru.get(key, command, manager.epoch);
        found.map_or(Answer::Miss, |value| Answer::Hit(bytes(&value)))
    }

    /// `ShardedLRU::get` alone, under the clock of the call before: whether it serves a value.
    pub fn get(&self, key: &[u8], command: &[u8], epoch: usize) -> bool {
        self.lru.get(key, command, epoch).is_some()
    }

    /// `ShardedLRU::insert`.
    pub fn store(
        &mut self,
        at: At,
        key: &[u8],
        command: &[u8],
        value: resp::Value,
        expiry: u64,
    ) -> Answer {
        let manager = self.manager(at);
        manager.lru.insert(
            key,
            command,
            value.into(),
            Instant(expiry.into()),
            manager.epoch,
        );
        match space::refused() {
            0 => Answer::Done,
            _ => Answer::Refused(Refusal::number(11)),
        }
    }

    /// `ShardedLRU::invalidate`.
    pub fn invalidate(&mut self, at: At, key: &[u8]) -> Answer {
        self.manager(at).lru.invalidate(&key.to_vec());
        Answer::Done
    }

    /// `CacheManager::clone_and_increase_epoch`.
    pub fn new_epoch(&mut self) -> Answer {
        Answer::Epoch(self.manager(At::default()).clone_and_increase_epoch().epoch as u64)
    }
}

fn config(size: NonZeroUsize, mode: u8, default_ttl: u64) -> CacheConfig {
    let mode = if mode == 0 {
        CacheMode::All
    } else {
        CacheMode::OptIn
    };
    CacheConfig::new()
        .set_size(size)
        .set_mode(mode)
        .set_default_client_ttl(Duration::from_millis(default_ttl))
}
