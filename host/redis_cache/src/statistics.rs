//! The counts as a host reads them, under the name of the crate redis (statistics.rs there).

use crate::lent::Counts;

/// What the lookups found and what was dropped, since the cache was made. Each count wraps at 64 bits.
///
/// ```
/// use redis_cache::{Cache, CacheConfig, CacheStatistics};
///
/// let cache = Cache::new(CacheConfig::new())?;
/// let none = CacheStatistics { hit: 0, miss: 0, invalidate: 0 };
/// assert_eq!(cache.statistics(), none);
/// # Ok::<(), redis_cache::Error>(())
/// ```
#[derive(Clone, Copy, Debug, Default, PartialEq, Eq)]
pub struct CacheStatistics {
    /// Lookups that served a value.
    pub hit: u64,
    /// All other lookups.
    pub miss: u64,
    /// Entries dropped because they were invalidated, too old or of another connection. A key has an entry for each command
    /// that was kept for it. What a full cache drops for a new key is not counted.
    pub invalidate: u64,
}

impl From<Counts> for CacheStatistics {
    fn from(counts: Counts) -> Self {
        CacheStatistics {
            hit: counts.hit,
            miss: counts.miss,
            invalidate: counts.invalidate,
        }
    }
}
