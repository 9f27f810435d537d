//! What a plan is answered with.

use super::plan::Shape;
use crate::value::{self, ParsingError};
use crate::{FromRedisValue, Value, from_redis_value};
use std::borrow::Cow;
use std::fmt;

/// The answers to a plan's commands, in the cache's buffer until its next call; [`Answer::into_owned`] makes one that keeps its bytes.
///
/// ```
/// use redis_cache::{Cache, CacheConfig, Value, cmd};
///
/// let mut cache = Cache::new(CacheConfig::new())?;
/// let plan = cache.plan(0, &cmd("PING"))?;
/// let mut replies = plan.replies();
/// replies.add(b"+PONG\r\n");
/// let answer = cache.resolve(0, &plan, &replies)?;
/// assert_eq!(answer.values(), [Value::SimpleString(b"PONG".into())]);
/// # Ok::<(), redis_cache::Error>(())
/// ```
#[derive(Clone, Debug, PartialEq, Eq)]
pub struct Answer<'a> {
    bytes: Cow<'a, [u8]>,
    refused: u64,
    shape: Shape,
}

/// An answer that keeps its bytes.
///
/// ```
/// # use redis_cache::{Cache, CacheConfig, pipe};
/// let mut cache = Cache::new(CacheConfig::new())?;
/// let plan = cache.plan(0, &pipe())?;
/// let answer: redis_cache::OwnedAnswer = cache.resolve(0, &plan, &plan.replies())?.into_owned();
/// assert!(answer.values().is_empty());
/// # Ok::<(), redis_cache::Error>(())
/// ```
pub type OwnedAnswer = Answer<'static>;

impl<'a> Answer<'a> {
    pub(crate) fn of(bytes: &'a [u8], refused: u64, shape: &Shape) -> Self {
        Answer {
            bytes: bytes.into(),
            refused,
            shape: shape.clone(),
        }
    }

    /// The answers as bytes: one RESP3 array, in a transaction inside an array of one.
    ///
    /// ```
    /// # use redis_cache::{Cache, CacheConfig, pipe};
    /// let mut cache = Cache::new(CacheConfig::new())?;
    /// let plan = cache.plan(0, &pipe())?;
    /// assert_eq!(cache.resolve(0, &plan, &plan.replies())?.bytes(), b"*0\r\n");
    /// # Ok::<(), redis_cache::Error>(())
    /// ```
    pub fn bytes(&self) -> &[u8] {
        &self.bytes
    }

    /// An answer for each command, those of ignored ones too.
    ///
    /// ```
    /// # use redis_cache::{Cache, CacheConfig, Value, cmd};
    /// let mut cache = Cache::new(CacheConfig::new())?;
    /// let plan = cache.plan(0, &cmd("DBSIZE"))?;
    /// let mut replies = plan.replies();
    /// replies.add(b":12\r\n");
    /// assert_eq!(cache.resolve(0, &plan, &replies)?.values(), [Value::Int(12)]);
    /// # Ok::<(), redis_cache::Error>(())
    /// ```
    pub fn values(&self) -> Vec<Value<'_>> {
        let Some(Value::Array(mut values)) = value::result(&self.bytes) else {
            unreachable!("resolving writes an array")
        };
        if !self.shape.transaction {
            return values;
        }
        match values.pop() {
            Some(Value::Array(values)) => values,
            _ => unreachable!("a transaction's answers stand in an array"),
        }
    }

    /// Reads the answer to a command, or those of a pipeline's commands as a list, without the ignored ones.
    ///
    /// # Errors
    /// Where a value is of another kind than is wanted, or an ignored command was answered with an error.
    ///
    /// ```
    /// use redis_cache::{Cache, CacheConfig, pipe};
    ///
    /// let mut cache = Cache::new(CacheConfig::new())?;
    /// let mut pipeline = pipe();
    /// pipeline.cmd("SET").arg("trap7").arg(12).ignore().cmd("INCR").arg("visits");
    /// let plan = cache.plan(0, &pipeline)?;
    /// let mut replies = plan.replies();
    /// replies.add(b"+OK\r\n");
    /// replies.add(b":3\r\n");
    /// let (visits,): (u64,) = cache.resolve(0, &plan, &replies)?.query()?;
    /// assert_eq!(visits, 3);
    /// # Ok::<(), Box<dyn std::error::Error>>(())
    /// ```
    pub fn query<T: FromRedisValue>(&self) -> Result<T, ParsingError> {
        let mut values = self.values();
        if self.shape.single {
            return from_redis_value(&values.pop().unwrap_or(Value::Nil));
        }
        let mut kept = Vec::with_capacity(values.len());
        for (value, &ignored) in values.into_iter().zip(&self.shape.ignored) {
            if ignored {
                from_redis_value::<()>(&value)?;
            } else {
                kept.push(value);
            }
        }
        from_redis_value(&Value::Array(kept))
    }

    /// Where values that were fetched found no space in the cache: how many, and a sentence on what to do.
    ///
    /// ```
    /// use redis_cache::{Cache, CacheConfig, cmd};
    ///
    /// let mut cache = Cache::with_arena(CacheConfig::new(), 64 * 32)?;
    /// let plan = cache.plan(0, cmd("GET").arg("trap7"))?;
    /// let mut replies = plan.replies();
    /// replies.add(b":-1\r\n");
    /// replies.add(b"$26\r\nabcdefghijklmnopqrstuvwxyz\r\n");
    /// let answer = cache.resolve(0, &plan, &replies)?;
    /// let warning = answer.warning().expect("no space");
    /// assert_eq!(warning.refused, 1);
    /// assert!(warning.to_string().starts_with("1 value was fetched and not kept"));
    /// # Ok::<(), redis_cache::Error>(())
    /// ```
    pub fn warning(&self) -> Option<SpaceWarning> {
        let refused = self.refused;
        (refused > 0).then_some(SpaceWarning { refused })
    }

    /// The same answer with bytes of its own.
    ///
    /// ```
    /// # use redis_cache::{Cache, CacheConfig, pipe};
    /// # let mut cache = Cache::new(CacheConfig::new())?;
    /// let plan = cache.plan(0, &pipe())?;
    /// let first = cache.resolve(0, &plan, &plan.replies())?.into_owned();
    /// let second = cache.resolve(0, &plan, &plan.replies())?;
    /// assert_eq!(first, second);
    /// # Ok::<(), redis_cache::Error>(())
    /// ```
    pub fn into_owned(self) -> OwnedAnswer {
        Answer {
            bytes: Cow::Owned(self.bytes.into_owned()),
            refused: self.refused,
            shape: self.shape,
        }
    }
}

/// Values that were fetched and not kept, since their shards have no space.
///
/// ```
/// let warning = redis_cache::SpaceWarning { refused: 2 };
/// assert!(warning.to_string().contains("arena_for"));
/// ```
#[derive(Clone, Copy, Debug, PartialEq, Eq)]
pub struct SpaceWarning {
    /// How many.
    pub refused: u64,
}

impl fmt::Display for SpaceWarning {
    fn fmt(&self, f: &mut fmt::Formatter<'_>) -> fmt::Result {
        let values = match self.refused {
            1 => "1 value was".to_string(),
            n => format!("{n} values were"),
        };
        write!(
            f,
            "{values} fetched and not kept, since the arena's bytes ran out before the number of keys was reached. \
             Give the cache a longer arena (arena_for) or fewer keys (set_size)."
        )
    }
}
