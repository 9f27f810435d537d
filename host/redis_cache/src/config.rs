//! What a cache is set up with, under the names of the crate redis (config.rs there).

use crate::lent::{MODE_ALL, MODE_OPT_IN, Settings};
use std::num::NonZeroUsize;
use std::time::Duration;

/// Which commands are looked up and kept.
///
/// ```
/// use redis_cache::{CacheConfig, CacheMode};
///
/// let config = CacheConfig::new().set_mode(CacheMode::OptIn);
/// assert_eq!(config.mode(), CacheMode::OptIn);
/// ```
#[derive(Clone, Copy, Debug, Default, PartialEq, Eq)]
pub enum CacheMode {
    /// Every command that can be cached. A command cannot be kept out of it.
    #[default]
    All,
    /// Those commands alone that ask for it by [`Cmd::set_cache_config`](crate::Cmd::set_cache_config).
    OptIn,
}

/// The settings of a cache.
///
/// ```
/// use redis_cache::{CacheConfig, CacheMode};
/// use std::num::NonZeroUsize;
/// use std::time::Duration;
///
/// let config = CacheConfig::new()
///     .set_size(NonZeroUsize::new(500).expect("not zero"))
///     .set_default_client_ttl(Duration::from_secs(60));
/// assert_eq!(config.size().get(), 500);
/// assert_eq!(config.mode(), CacheMode::All);
/// ```
#[derive(Clone, Copy, Debug, PartialEq, Eq)]
pub struct CacheConfig {
    mode: CacheMode,
    size: NonZeroUsize,
    default_client_ttl: Duration,
}

impl CacheConfig {
    /// The crate's defaults: 10,000 keys, [`CacheMode::All`], half an hour.
    ///
    /// ```
    /// let config = redis_cache::CacheConfig::new();
    /// assert_eq!(config.size().get(), 10_000);
    /// assert_eq!(config.default_client_ttl().as_secs(), 1800);
    /// ```
    pub fn new() -> Self {
        CacheConfig {
            mode: CacheMode::All,
            size: NonZeroUsize::new(10_000).expect("not zero"),
            default_client_ttl: Duration::from_secs(30 * 60),
        }
    }

    /// Which commands are cached.
    ///
    /// ```
    /// use redis_cache::{CacheConfig, CacheMode};
    /// assert_eq!(CacheConfig::new().set_mode(CacheMode::OptIn).mode(), CacheMode::OptIn);
    /// ```
    #[must_use]
    pub fn set_mode(mut self, mode: CacheMode) -> Self {
        self.mode = mode;
        self
    }

    /// How many keys are kept at most: up to 65,536, in one shard below 32 keys, else in 32 shards.
    ///
    /// ```
    /// # use std::num::NonZeroUsize;
    /// let few = redis_cache::CacheConfig::new().set_size(NonZeroUsize::MIN);
    /// assert_eq!(few.size().get(), 1);
    /// ```
    #[must_use]
    pub fn set_size(mut self, size: NonZeroUsize) -> Self {
        self.size = size;
        self
    }

    /// How long an answer is kept at most where its command does not say. The server's own TTL of the key, asked for by `PTTL`,
    /// can only make it shorter. Parts of a millisecond are dropped.
    ///
    /// ```
    /// # use std::time::Duration;
    /// let config = redis_cache::CacheConfig::new().set_default_client_ttl(Duration::from_secs(5));
    /// assert_eq!(config.default_client_ttl(), Duration::from_secs(5));
    /// ```
    #[must_use]
    pub fn set_default_client_ttl(mut self, ttl: Duration) -> Self {
        self.default_client_ttl = ttl;
        self
    }

    /// The mode.
    ///
    /// ```
    /// assert_eq!(redis_cache::CacheConfig::new().mode(), redis_cache::CacheMode::All);
    /// ```
    pub fn mode(&self) -> CacheMode {
        self.mode
    }

    /// The most keys.
    ///
    /// ```
    /// assert_eq!(redis_cache::CacheConfig::new().size().get(), 10_000);
    /// ```
    pub fn size(&self) -> NonZeroUsize {
        self.size
    }

    /// The default client TTL.
    ///
    /// ```
    /// assert_eq!(redis_cache::CacheConfig::new().default_client_ttl().as_secs(), 1800);
    /// ```
    pub fn default_client_ttl(&self) -> Duration {
        self.default_client_ttl
    }

    /// The settings as the library takes them.
    pub(crate) fn settings(&self) -> Settings {
        Settings {
            size: self.size.get() as u64,
            mode: match self.mode {
                CacheMode::All => MODE_ALL,
                CacheMode::OptIn => MODE_OPT_IN,
            },
            default_ttl: millis(self.default_client_ttl),
        }
    }
}

impl Default for CacheConfig {
    /// [`CacheConfig::new`].
    fn default() -> Self {
        Self::new()
    }
}

/// Whole milliseconds; what 64 bits do not hold is the largest that they do.
pub(crate) fn millis(time: Duration) -> u64 {
    u64::try_from(time.as_millis()).unwrap_or(u64::MAX)
}

#[cfg(test)]
mod tests {
    use super::*;

    #[test]
    fn settings_as_the_library_takes_them() {
        let config = CacheConfig::default()
            .set_mode(CacheMode::OptIn)
            .set_size(NonZeroUsize::new(7).expect("not zero"))
            .set_default_client_ttl(Duration::from_micros(2500));
        let expected = Settings {
            size: 7,
            mode: 1,
            default_ttl: 2,
        };
        assert_eq!(config.settings(), expected);
        assert_eq!(CacheConfig::new().settings().default_ttl, 1_800_000);
        assert_eq!(millis(Duration::MAX), u64::MAX);
    }
}
