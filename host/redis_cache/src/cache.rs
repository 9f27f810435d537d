//! A cache that a host owns: arena, counts, epochs and buffers.

mod answer;
mod plan;

pub use answer::{Answer, OwnedAnswer, SpaceWarning};
pub use plan::{Plan, Replies};

use crate::lent::{self, Counts, Epochs, Looked, Now};
use crate::{CacheConfig, CacheStatistics, Call, Cause, Error, Value, record};
use plan::Shape;
use std::fmt;
use std::time::Instant;

/// How long the buffers are at first.
const FIRST_BUFFER: usize = 4096;

/// What a key and a value are taken to be where nothing is said, in bytes on average.
const USUAL: (usize, usize) = (32, 64);

/// The longest arena that the library takes.
const LONGEST_ARENA: usize = 1 << 31;

/// How long an arena should be for all the keys of the settings, where keys and values (as text) have these lengths on average and
/// one command is kept for each key. A quarter is added, since bytes run out in the fullest shard first. Double it where two
/// commands are kept for each key.
///
/// ```
/// use redis_cache::{CacheConfig, arena_for};
///
/// let config = CacheConfig::new();
/// assert!(arena_for(&config, 10, 5) > 1_000_000);
/// assert!(arena_for(&config, 20, 2000) > 20_000_000);
/// ```
pub fn arena_for(config: &CacheConfig, mean_key: usize, mean_value: usize) -> usize {
    let shards = if config.size().get() < 32 { 1 } else { 32 };
    let keys = config.size().get() / shards;
    // An item takes 32 and its key, its entry 16, the command key (a name and the key) and the value with its head and end.
    let item = 32 + mean_key + 16 + (8 + mean_key) + (mean_value + 12);
    let items = item.saturating_mul(keys).saturating_mul(5) / 4;
    let shard = items.saturating_add(16 + item);
    shard.saturating_mul(shards).min(LONGEST_ARENA)
}

/// The time for a host that has no clock of its own: milliseconds since it was made.
///
/// ```
/// let clock = redis_cache::Clock::new();
/// assert!(clock.now() <= clock.now());
/// ```
#[derive(Clone, Copy, Debug)]
pub struct Clock(Instant);

impl Clock {
    /// A clock that begins now.
    ///
    /// ```
    /// assert!(redis_cache::Clock::new().now() < 60_000);
    /// ```
    pub fn new() -> Self {
        Clock(Instant::now())
    }

    /// Milliseconds since it began; it never goes back.
    ///
    /// ```
    /// let clock = redis_cache::Clock::new();
    /// let before = clock.now();
    /// assert!(before <= clock.now());
    /// ```
    pub fn now(&self) -> u64 {
        crate::config::millis(self.0.elapsed())
    }
}

impl Default for Clock {
    /// [`Clock::new`].
    fn default() -> Self {
        Self::new()
    }
}

/// A cache with its memory. The clock given with a call is in milliseconds, of any clock that does not go back.
///
/// ```
/// use redis_cache::{Cache, CacheConfig, cmd};
///
/// let mut cache = Cache::new(CacheConfig::new())?;
/// let mut get = cmd("GET");
/// get.arg("trap7");
///
/// let plan = cache.plan(0, &get)?;
/// assert_eq!(plan.send(), b"*2\r\n$4\r\nPTTL\r\n$5\r\ntrap7\r\n*2\r\n$3\r\nGET\r\n$5\r\ntrap7\r\n");
/// let mut replies = plan.replies();
/// replies.add(b":-1\r\n");
/// replies.add(b"$2\r\n12\r\n");
/// let catch: i64 = cache.resolve(0, &plan, &replies)?.query()?;
/// assert_eq!(catch, 12);
///
/// let again = cache.plan(1, &get)?;
/// assert!(again.is_served());
/// let catch: i64 = cache.resolve(1, &again, &again.replies())?.query()?;
/// assert_eq!(catch, 12);
/// # Ok::<(), Box<dyn std::error::Error>>(())
/// ```
pub struct Cache {
    config: CacheConfig,
    arena: Box<[u8]>,
    counts: Counts,
    epochs: Epochs,
    record: Vec<u8>,
    plan: Vec<u8>,
    send: Vec<u8>,
    answer: Vec<u8>,
}

impl Cache {
    /// A fresh cache, its arena long enough for keys of 32 and values of 64 bytes on average. [`Cache::with_arena`] sets another
    /// length.
    ///
    /// # Errors
    /// [`Cause::BadConfig`]: over 65,536 keys.
    ///
    /// ```
    /// let cache = redis_cache::Cache::new(redis_cache::CacheConfig::new())?;
    /// assert_eq!(cache.epoch(), 0);
    /// # Ok::<(), redis_cache::Error>(())
    /// ```
    pub fn new(config: CacheConfig) -> Result<Self, Error> {
        let (key, value) = USUAL;
        Self::with_arena(config, arena_for(&config, key, value))
    }

    /// A fresh cache with an arena of so many bytes; [`arena_for`] reckons how many.
    ///
    /// # Errors
    /// [`Cause::BadConfig`]: over 65,536 keys, an arena under 64 bytes a shard or over 2^31 bytes.
    ///
    /// ```
    /// use redis_cache::{Cache, CacheConfig, arena_for};
    ///
    /// let config = CacheConfig::new();
    /// let cache = Cache::with_arena(config, arena_for(&config, 10, 500))?;
    /// assert_eq!(cache.config(), &config);
    /// assert_eq!(Cache::with_arena(config, 100).expect_err("too short").number(), 1);
    /// # Ok::<(), redis_cache::Error>(())
    /// ```
    pub fn with_arena(config: CacheConfig, bytes: usize) -> Result<Self, Error> {
        let mut cache = Cache {
            config,
            arena: vec![0; bytes.min(LONGEST_ARENA + 1)].into(),
            counts: Counts::default(),
            epochs: Epochs { epoch: 0, next: 0 },
            record: Vec::new(),
            plan: vec![0; FIRST_BUFFER],
            send: vec![0; FIRST_BUFFER],
            answer: vec![0; FIRST_BUFFER],
        };
        cache.epochs = cache.lent().0.setup()?;
        Ok(cache)
    }

    /// The settings.
    ///
    /// ```
    /// # use redis_cache::{Cache, CacheConfig};
    /// let cache = Cache::new(CacheConfig::new())?;
    /// assert_eq!(cache.config().size().get(), 10_000);
    /// # Ok::<(), redis_cache::Error>(())
    /// ```
    pub fn config(&self) -> &CacheConfig {
        &self.config
    }

    /// The epoch of the connection: 0 at first.
    ///
    /// ```
    /// # use redis_cache::{Cache, CacheConfig};
    /// assert_eq!(Cache::new(CacheConfig::new())?.epoch(), 0);
    /// # Ok::<(), redis_cache::Error>(())
    /// ```
    pub fn epoch(&self) -> u64 {
        self.epochs.epoch
    }

    /// The counts.
    ///
    /// ```
    /// use redis_cache::{Cache, CacheConfig, cmd};
    ///
    /// let mut cache = Cache::new(CacheConfig::new())?;
    /// cache.plan(0, cmd("GET").arg("trap7"))?;
    /// assert_eq!(cache.statistics().miss, 1);
    /// # Ok::<(), redis_cache::Error>(())
    /// ```
    pub fn statistics(&self) -> CacheStatistics {
        lent::read_counts(&self.counts).into()
    }

    /// Looks up what the commands ask for, and plans what to send for the rest. Nothing is stored yet. The buffers that this
    /// takes grow as they must and stay grown.
    ///
    /// # Errors
    /// [`Cause::BadRecord`], [`Cause::TooLong`]: a limit of the call record is passed. [`Cause::LateExpiry`].
    ///
    /// ```
    /// use redis_cache::{Cache, CacheConfig, pipe};
    ///
    /// let mut cache = Cache::new(CacheConfig::new())?;
    /// let plan = cache.plan(0, pipe().cmd("SET").arg("trap7").arg(12).ignore())?;
    /// assert_eq!(plan.send(), b"*3\r\n$3\r\nSET\r\n$5\r\ntrap7\r\n$2\r\n12\r\n");
    /// # Ok::<(), redis_cache::Error>(())
    /// ```
    pub fn plan(&mut self, clock: u64, call: &impl Call) -> Result<Plan, Error> {
        let parts = call.parts();
        self.record.clear();
        record::write(&parts, &mut self.record)?;
        let now = self.now(clock);
        loop {
            let mut cache = lent::Cache {
                arena: &mut self.arena,
                settings: self.config.settings(),
            };
            let (plan, send) = (&mut self.plan, &mut self.send);
            match cache.plan(now, &self.record, &mut self.counts, plan, send) {
                Ok(planned) => {
                    let shape = Shape::of(&parts);
                    return Ok(Plan::of(planned, now.epoch, shape));
                }
                Err(refused) if refused.cause == Cause::ShortBuffer => {
                    double(&mut self.plan);
                    double(&mut self.send);
                }
                Err(refused) => return Err(Error::at(refused.cause, refused.offset)),
            }
        }
    }

    /// Answers a plan from what it was served and from the replies, and stores what was fetched, under the epoch that it was
    /// planned under: what was asked of an earlier connection is never served on this one.
    ///
    /// # Errors
    /// [`Cause::BadShape`]: a reply is absent or of the wrong shape; what the server said is kept ([`Error::server_error`]).
    /// [`Cause::BadReply`]: a reply is no value, or all of them are over 16 MiB.
    ///
    /// ```
    /// use redis_cache::{Cache, CacheConfig, pipe};
    ///
    /// let mut cache = Cache::new(CacheConfig::new())?;
    /// let plan = cache.plan(0, pipe().cmd("MGET").arg(&["trap7", "trap8"]))?;
    /// let mut replies = plan.replies();
    /// for reply in ["*2\r\n$2\r\n12\r\n_\r\n", ":-1\r\n", ":-2\r\n"] {
    ///     replies.add(reply.as_bytes());
    /// }
    /// let answer = cache.resolve(0, &plan, &replies)?;
    /// let (catches,): (Vec<Option<i64>>,) = answer.query()?;
    /// assert_eq!(catches, [Some(12), None]);
    /// # Ok::<(), Box<dyn std::error::Error>>(())
    /// ```
    pub fn resolve(
        &mut self,
        clock: u64,
        plan: &Plan,
        replies: &Replies,
    ) -> Result<Answer<'_>, Error> {
        if plan.is_served() {
            return self.served(plan);
        }
        let now = Now {
            clock,
            epoch: plan.epoch(),
        };
        let (written, refused) = loop {
            let mut cache = lent::Cache {
                arena: &mut self.arena,
                settings: self.config.settings(),
            };
            match cache.resolve(now, plan.bytes(), replies.bytes(), &mut self.answer) {
                Ok(resolved) => break (resolved.answer.len(), resolved.refused),
                Err(Cause::ShortAnswer) => double(&mut self.answer),
                Err(cause) => return Err(replies.explain(cause)),
            }
        };
        Ok(Answer::of(&self.answer[..written], refused, plan.shape()))
    }

    /// Answers a plan that was served whole. The arena is not read again: what was served stands in the plan.
    fn served(&mut self, plan: &Plan) -> Result<Answer<'_>, Error> {
        let written = loop {
            match lent::served(plan.bytes(), &mut self.answer) {
                Ok(Some(answer)) => break answer.len(),
                Ok(None) => unreachable!("a plan that sends nothing needs no replies"),
                Err(Cause::ShortAnswer) => double(&mut self.answer),
                Err(cause) => return Err(Error::of(cause)),
            }
        };
        Ok(Answer::of(&self.answer[..written], 0, plan.shape()))
    }

    /// Does what a push asks for: drops the keys that an `invalidate` names, or all of them. Other pushes are ignored. Give it the
    /// pushes in the order in which they stand between the replies, each after the replies before it are resolved;
    /// [`Stream`](crate::Stream) sees to that.
    ///
    /// # Errors
    /// [`Cause::BadReply`]: no value, or over 16 MiB. What it would have dropped is still served: take the connection as lost.
    ///
    /// ```
    /// use redis_cache::{Cache, CacheConfig};
    ///
    /// let mut cache = Cache::new(CacheConfig::new())?;
    /// cache.insert(b"trap7", b"GETtrap7", b"$2\r\n12\r\n", 500)?;
    /// cache.on_push(b">2\r\n$10\r\ninvalidate\r\n*1\r\n$5\r\ntrap7\r\n")?;
    /// assert_eq!(cache.get(0, b"trap7", b"GETtrap7")?, None);
    /// # Ok::<(), redis_cache::Error>(())
    /// ```
    pub fn on_push(&mut self, push: &[u8]) -> Result<(), Error> {
        let (mut cache, counts) = self.lent();
        Ok(cache.push(push, counts)?)
    }

    /// Takes a new epoch, for a new connection: nothing that was kept before is served any more. The epoch's number.
    ///
    /// ```
    /// use redis_cache::{Cache, CacheConfig};
    ///
    /// let mut cache = Cache::new(CacheConfig::new())?;
    /// cache.insert(b"trap7", b"GETtrap7", b"$2\r\n12\r\n", 500)?;
    /// assert_eq!(cache.new_epoch(), 1);
    /// assert_eq!(cache.get(0, b"trap7", b"GETtrap7")?, None);
    /// # Ok::<(), redis_cache::Error>(())
    /// ```
    pub fn new_epoch(&mut self) -> u64 {
        self.epochs = lent::new_epoch(self.epochs.next);
        self.epochs.epoch
    }

    /// The value kept for a key and a command key, which is the command's arguments joined, `GETtrap7`. Counts a hit or a miss.
    ///
    /// # Errors
    /// [`Cause::TooLong`]: a key over 65,535 bytes, a command key over 16 MiB.
    ///
    /// ```
    /// use redis_cache::{Cache, CacheConfig, Value};
    ///
    /// let mut cache = Cache::new(CacheConfig::new())?;
    /// cache.insert(b"trap7", b"GETtrap7", b":12\r\n", 500)?;
    /// assert_eq!(cache.get(500, b"trap7", b"GETtrap7")?, Some(Value::Int(12)));
    /// assert_eq!(cache.get(501, b"trap7", b"GETtrap7")?, None);
    /// # Ok::<(), redis_cache::Error>(())
    /// ```
    pub fn get(
        &mut self,
        clock: u64,
        key: &[u8],
        command: &[u8],
    ) -> Result<Option<Value<'_>>, Error> {
        let now = self.now(clock);
        let cache = lent::Cache {
            arena: &mut self.arena,
            settings: self.config.settings(),
        };
        Ok(
            match cache.into_lookup(now, key, command, &mut self.counts)? {
                Looked::Miss => None,
                Looked::Hit(value) => Some(Value::parse(value).expect("a value is stored as one")),
            },
        )
    }

    /// Keeps a value, given as its RESP3 bytes, for a key and a command key until this time.
    ///
    /// # Errors
    /// [`Cause::TooLong`]; [`Cause::BadReply`]: not exactly one value; [`Cause::NoSpace`].
    ///
    /// ```
    /// # use redis_cache::{Cache, CacheConfig};
    /// let mut cache = Cache::new(CacheConfig::new())?;
    /// assert_eq!(cache.insert(b"trap7", b"GETtrap7", b":12", 500).expect_err("cut short").number(), 6);
    /// # Ok::<(), redis_cache::Error>(())
    /// ```
    pub fn insert(
        &mut self,
        key: &[u8],
        command: &[u8],
        value: &[u8],
        expiry: u64,
    ) -> Result<(), Error> {
        let epoch = self.epochs.epoch;
        Ok(self.lent().0.store(epoch, key, command, value, expiry)?)
    }

    /// Drops what is kept for a key.
    ///
    /// # Errors
    /// [`Cause::TooLong`].
    ///
    /// ```
    /// # use redis_cache::{Cache, CacheConfig};
    /// let mut cache = Cache::new(CacheConfig::new())?;
    /// cache.insert(b"trap7", b"GETtrap7", b":12\r\n", 500)?;
    /// cache.invalidate(b"trap7")?;
    /// assert_eq!(cache.statistics().invalidate, 1);
    /// # Ok::<(), redis_cache::Error>(())
    /// ```
    pub fn invalidate(&mut self, key: &[u8]) -> Result<(), Error> {
        let (mut cache, counts) = self.lent();
        Ok(cache.invalidate(key, counts)?)
    }

    /// The cache and the counts, lent to one call.
    fn lent(&mut self) -> (lent::Cache<'_>, &mut Counts) {
        let cache = lent::Cache {
            arena: &mut self.arena,
            settings: self.config.settings(),
        };
        (cache, &mut self.counts)
    }

    fn now(&self, clock: u64) -> Now {
        Now {
            clock,
            epoch: self.epochs.epoch,
        }
    }
}

impl fmt::Debug for Cache {
    /// What it is set up with and what it counts; not its bytes.
    fn fmt(&self, f: &mut fmt::Formatter<'_>) -> fmt::Result {
        f.debug_struct("Cache")
            .field("config", &self.config)
            .field("arena", &self.arena.len())
            .field("epochs", &self.epochs)
            .field("counts", &self.counts)
            .finish_non_exhaustive()
    }
}

/// Makes a buffer twice as long.
fn double(buffer: &mut Vec<u8>) {
    buffer.resize(2 * buffer.len(), 0);
}
